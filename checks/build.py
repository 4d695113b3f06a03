#!/usr/bin/env python3
"""Proves and builds libraries side by side, each as soon as those that it stands on are there, and the program.

Usage: checks/build.py   proves and builds the program; what is done is told on standard error
"""
import os
import sys
import time
from concurrent.futures import FIRST_COMPLETED, ThreadPoolExecutor, wait

import kit

PROGRAM = "rgw_main"
LOGS = f"{kit.ROOT}/out/build"


def lines_of(crate):
    """How long the crate is: about how long it takes."""
    total = 0
    for path in kit.rtlib().files_of(crate.folder):
        if path.endswith((".rt", ".antt")):
            with open(path, "rb") as it:
                total += it.read().count(b"\n")
    return total


def chains(crates):
    """For each crate the lines of the longest chain from it up: the longest begins first."""
    found = {}
    for crate in sorted(crates, key=lambda it: -len(it.below())):
        above = [found[it.name] for it in crates if crate in it.deps]
        found[crate.name] = lines_of(crate) + max(above or [0])
    return found


def build_one(crate):
    """Proves and builds a library, or the program, over what earlier checks kept. Its log has what is said."""
    with open(f"{LOGS}/{crate.name}.log", "w", encoding="utf-8") as crate.out:
        try:
            if crate.is_program:
                return crate.compile(["--jobs", "1"], f"out/{crate.name}.o") or link(crate)
            return crate.build_rlib(["--jobs", "1"], anew=False)
        except (OSError, SystemExit) as why:
            print(why, file=crate.out)
            return 1
        finally:
            crate.out.flush()


def link(crate):
    """Links a program that was compiled."""
    base = kit.folder()
    words = ["--target", "x86_64-unknown-linux-gnu", "--toolchain", f"{base}/toolchain", "-o", f"out/{crate.name}"]
    return crate.call(f"{base}/bin/rattle-link", *words, f"out/{crate.name}.o", f"{base}/c/libos_c.a", f"{base}/c/liblibc_c.a")


def side_by_side(wanted, tell):
    """Builds these crates, each once those below it are built, and returns the name of the first that is not proved, or
    None. tell is called as one ends, with its name, how many are done, how many there are, and those at work."""
    os.makedirs(LOGS, exist_ok=True)
    kit.rtlib().guarded()
    # other commands of rt wait for it, and it for them
    held = kit.rtlib().lock(wanted)
    longest, done, running, left = chains(wanted), set(), {}, {it.name: it for it in wanted}
    try:
        with ThreadPoolExecutor(kit.processors()) as pool:
            while left or running:
                ready = [it for it in left.values() if all(dep.name in done for dep in it.deps)]
                for crate in sorted(ready, key=lambda it: -longest[it.name])[: kit.processors() - len(running)]:
                    del left[crate.name]
                    running[pool.submit(build_one, crate)] = crate.name
                for ended in wait(running, return_when=FIRST_COMPLETED).done:
                    name = running.pop(ended)
                    if ended.result():
                        left.clear()
                        return name
                    done.add(name)
                    tell(name, len(done), len(wanted), sorted(running.values()))
    finally:
        for it in held:
            os.close(it)
    return None


def with_below(crates):
    """These crates and those below them, lowest first."""
    found = {it.name: it for crate in crates for it in [*crate.below(), crate]}
    return sorted(found.values(), key=lambda it: len(it.below()))


def main():
    begun = time.monotonic()

    def say(text):
        print(f"rgw: {text}", file=sys.stderr, flush=True)

    def tell(name, done, count, running):
        minutes = (time.monotonic() - begun) / 60
        work = f"; at work: {' '.join(running)}" if running else ""
        say(f"{name} is proved: {done} of {count} crates, {count - done} left, {minutes:.1f} minutes so far{work}")

    crates = with_below([it for it in kit.crates() if it.name == PROGRAM])
    say(f"proving and building the program's {len(crates)} crates; what is said of each is in {LOGS}")
    failed = side_by_side(crates, tell)
    if failed:
        say(f"{failed} is not proved: {LOGS}/{failed}.log ends with the reason")
        return 1
    return 0


if __name__ == "__main__":
    sys.exit(main())
