#!/usr/bin/env python3
"""Measures checks of a container without open changes, and listings of it, with the built program, by its processor time.

The container has 11 shards. A script stores the names, and the time of it is taken off that of a script which goes on
with so many checks or listings.

Usage: bench/checks.py [NAMES..]   from any folder; 10000 and 100000 names if left out
"""
import resource
import subprocess
import sys
import tempfile

import program

PROGRAM = program.path()
# So many entries are checked, and rows listed, that the time of storing the names hardly counts.
ENTRIES = 4_000_000
ROUNDS = 3
# What one listing has at most.
MOST_ROWS = 10_000


def seconds(text, frames):
    """The least processor time of a run of the script."""
    words = ["script", "--bucket", "box", "--frame", "16", "--frames", str(frames)]
    with tempfile.TemporaryFile("w+") as script:
        script.write(text)
        times = []
        for _ in range(ROUNDS):
            script.seek(0)
            before = resource.getrusage(resource.RUSAGE_CHILDREN)
            subprocess.run([PROGRAM, *words], stdin=script, stdout=subprocess.DEVNULL, check=True)
            after = resource.getrusage(resource.RUSAGE_CHILDREN)
            times.append(after.ru_utime + after.ru_stime - before.ru_utime - before.ru_stime)
    return min(times)


def rate(stored, line, names, each, alone):
    """How many entries a second the line passes, of which one has so many."""
    times = max(1, ENTRIES // each)
    return times * each / (seconds(stored + line * times, names + 64) - alone)


def main():
    for names in [int(word) for word in sys.argv[1:]] or [10_000, 100_000]:
        stored = "".join(f"do 1 put box/object-{name:07} hello\n" for name in range(names))
        alone = seconds(stored, names + 64)
        checks = rate(stored, "do 1 check box\n", names, names, alone)
        lists = rate(stored, "do 1 list box\n", names, min(names, MOST_ROWS), alone)
        print(f"{names} names: {checks:.0f} entries checked and {lists:.0f} rows listed a second")


if __name__ == "__main__":
    main()
