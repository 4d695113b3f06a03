#!/usr/bin/env python3
"""Whether the repository's files stand where they belong, and crates.txt names what is needed and no more.

Usage: checks/layout.py   prints what is wrong, and how many checks passed and failed
"""
import os
import re
import subprocess
import sys

import kit
import wrong_bodies

MOST_LINES = 800


def files():
    """The files that git has or would take."""
    how = {"cwd": kit.ROOT, "stdout": subprocess.PIPE, "text": True, "check": True}
    said = subprocess.run(["git", "ls-files", "-co", "--exclude-standard", "-z"], **how).stdout
    return [it for it in said.split("\0") if it and os.path.isfile(f"{kit.ROOT}/{it}")]


def text_of(path):
    with open(f"{kit.ROOT}/{path}", encoding="utf-8", errors="replace") as it:
        return it.read()


def misplaced(paths, crates):
    """Sources that no check reads."""
    for path in paths:
        parts = path.split("/")
        if path.endswith((".rt", ".antt")):
            if len(parts) < 4 or parts[0] != "crates" or parts[1] not in crates or parts[2] not in ("src", "specs", "proofs"):
                yield f"{path} stands in no crate's src, specs or proofs"
        elif len(parts) > 2 and parts[0] == "crates" and parts[1] not in crates:
            yield f"{path}: crates.txt has no crate {parts[1]}"


def too_long(paths):
    for path in paths:
        if path.endswith((".rt", ".antt", ".py")):
            lines = text_of(path).count("\n")
            if lines > MOST_LINES:
                yield f"{path} has {lines} lines, more than {MOST_LINES}"


def unneeded_edges(paths, crates):
    """Libraries that a line of crates.txt names and no source of the crate does."""
    words = {}
    for path in paths:
        parts = path.split("/")
        if path.endswith((".rt", ".antt")) and len(parts) > 3 and parts[1] in crates:
            words.setdefault(parts[1], set()).update(re.findall(r"[A-Za-z_][A-Za-z0-9_]*", text_of(path)))
    for crate, below in crates.items():
        for name in below:
            if name not in words.get(crate, ()):
                yield f"crates.txt: {crate} names {name}, and no source of it does"


def without_wrong_bodies(paths, crates):
    """Crates with contracts and no wrong body."""
    have = {it.split("/")[1] for it in paths if "/wrong-bodies/" in it and it.endswith(".edit")}
    for crate in sorted(crates):
        sources = [it for it in paths if it.startswith(f"crates/{crate}/src/")]
        if crate not in have and any("ensures" in text_of(it) for it in sources):
            yield f"{crate} has contracts and no wrong body"


def handles():
    if text_of("HANDLES").strip() != "Handles allowed: Threads, Wait, Net.":
        yield "HANDLES is not its one line"


def check():
    """Each check with what it found wrong."""
    paths, crates = files(), kit.names()
    return [
        ("sources stand in their crates", list(misplaced(paths, crates))),
        (f"files have at most {MOST_LINES} lines", list(too_long(paths))),
        ("edges of crates.txt are needed", list(unneeded_edges(paths, crates))),
        ("crates with contracts have wrong bodies", list(without_wrong_bodies(paths, crates))),
        ("texts of wrong bodies fit", wrong_bodies.unfit()),
        ("HANDLES", list(handles())),
    ]


def main():
    passed = failed = 0
    for name, wrong in check():
        passed, failed = passed + (not wrong), failed + bool(wrong)
        for it in wrong:
            print(f"{name}: {it}")
    print(f"{passed} passed, {failed} failed")
    return 1 if failed else 0


if __name__ == "__main__":
    sys.exit(main())
