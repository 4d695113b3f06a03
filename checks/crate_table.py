#!/usr/bin/env python3
"""The table of crates in docs/ARCHITECTURE.md, from crates.txt and the first sentence of each crate's root file.

`checks/crate_table.py` says whether the table that stands there is the one of today, `--write` writes it."""

import re
import sys
from pathlib import Path

DOCUMENT = "docs/ARCHITECTURE.md"
BEGIN = "<!-- crates -->\n"
END = "<!-- end crates -->"
HEAD = "| Crate | What it is for | Stands on | Height |\n|---|---|---|---|\n"


def named(root):
    """What each crate names, by crates.txt."""
    lines = (Path(root) / "crates.txt").read_text().splitlines()
    parts = [line.split(":", 1) for line in lines if line.strip() and not line.startswith("#")]
    return {words.split()[0]: names.split() for words, names in parts}


def purpose(root, crate):
    """The first sentence of its root file."""
    source = Path(root) / "crates" / crate / "src"
    file = next((file for file in (source / "lib.rt", source / "main.rt") if file.is_file()), None)
    if file is None:
        raise ValueError(f"crates/{crate}/src has no lib.rt and no main.rt")
    text = []
    for line in file.read_text().splitlines():
        words = line[3:].strip()
        if not line.startswith("//!") or not words:
            break
        text.append(words)
    sentence = re.match(r".*?\.(?= [A-Z`]|$)", " ".join(text))
    if sentence is None:
        raise ValueError(f"{file.relative_to(root)} begins with no sentence")
    return sentence[0].removesuffix(".").replace("|", "\\|")


def heights(names):
    """How many crates of the repository stand below one another under each: 0 where none does."""
    known = {}

    def height(crate, above):
        if crate in above:
            raise ValueError(f"crates.txt: {crate} stands on itself")
        if crate not in known:
            below = [height(name, above | {crate}) for name in names[crate] if name in names]
            known[crate] = 1 + max(below) if below else 0
        return known[crate]

    for crate in names:
        height(crate, frozenset())
    return known


def under(names):
    """All crates of the repository below each."""
    below = {}
    for crate in sorted(names, key=heights(names).get):
        own = [name for name in names[crate] if name in names]
        below[crate] = set(own).union(*(below[name] for name in own))
    return below


def stands_on(names, below, crate):
    """Those that it names, without those that another of them stands on, and then those of the kit."""
    own = [name for name in names[crate] if name in names]
    nearest = [name for name in own if not any(name in below[other] for other in own)]
    kit = [name for name in names[crate] if name not in names]
    texts = [", ".join(f"`{name}`" for name in sorted(nearest))] if nearest else []
    texts += ["of the kit " + ", ".join(f"`{name}`" for name in sorted(kit))] if kit else []
    return "; ".join(texts)


def table(root):
    """The table, the lowest crates first."""
    names = named(root)
    height, below = heights(names), under(names)
    order = sorted(names, key=lambda crate: (height[crate], crate))
    rows = [
        f"| `{crate}` | {purpose(root, crate)} | {stands_on(names, below, crate)} | {height[crate]} |\n"
        for crate in order
    ]
    return HEAD + "".join(rows)


def parts(root):
    """The document before, between and behind the marks."""
    text = (Path(root) / DOCUMENT).read_text()
    if text.count(BEGIN) != 1 or text.count(END) != 1 or text.index(BEGIN) > text.index(END):
        raise ValueError(f"{DOCUMENT} has not just one table between {BEGIN.strip()} and {END}")
    before, rest = text.split(BEGIN)
    between, behind = rest.split(END)
    return before, between, behind


def check(root):
    """Whether the table in the document is this one."""
    name = f"{DOCUMENT}: table of crates"
    try:
        wanted, found = table(root), parts(root)[1]
    except (OSError, ValueError) as fault:
        return [(name, False, str(fault))]
    if found == wanted:
        return [(name, True, "")]
    stale = sorted(set(found.splitlines()) ^ set(wanted.splitlines()))
    why = "run checks/crate_table.py --write; lines that differ: " + "; ".join(stale[:4])
    return [(name, False, why)]


def main():
    root = Path(__file__).resolve().parent.parent
    if sys.argv[1:] == ["--write"]:
        before, _, behind = parts(root)
        (root / DOCUMENT).write_text(before + BEGIN + table(root) + END + behind)
    elif sys.argv[1:]:
        sys.exit("usage: checks/crate_table.py [--write]")
    results = check(root)
    for name, ok, why in results:
        print(f"{'passed' if ok else 'FAILED'} {name}{': ' + why if why else ''}")
    sys.exit(0 if all(ok for _, ok, _ in results) else 1)


if __name__ == "__main__":
    main()
