#!/usr/bin/env python3
"""Measures scripts of small PUTs and GETs with the built program, by its processor time.

Usage: bench/scripts.py [ROUNDS]   from any folder; 3 rounds if left out
"""
import resource
import subprocess
import sys
import tempfile

import program

PROGRAM = program.path()
WORDS = ["script", "--bucket", "box", "--frame", "16", "--frames", "262144"]


def line(index, names):
    """A PUT of 5 bytes and a GET of the same name by turns."""
    name = (index // 2) * 7919 % names
    return f"do 1 put box/n{name} hello\n" if index % 2 == 0 else f"do 1 get box/n{name}\n"


def seconds(text, rounds):
    """The least processor time of a run of the script."""
    with tempfile.TemporaryFile("w+") as script:
        script.write(text)
        times = []
        for _ in range(rounds):
            script.seek(0)
            before = resource.getrusage(resource.RUSAGE_CHILDREN)
            subprocess.run([PROGRAM, *WORDS], stdin=script, stdout=subprocess.DEVNULL, check=True)
            after = resource.getrusage(resource.RUSAGE_CHILDREN)
            times.append(after.ru_utime + after.ru_stime - before.ru_utime - before.ru_stime)
    return min(times)


def main():
    rounds = int(sys.argv[1]) if len(sys.argv) > 1 else 3
    for lines, names in ((20_000, 1000), (100_000, 1000), (100_000, 50_000)):
        time = seconds("".join(line(index, names) for index in range(lines)), rounds)
        print(f"{lines} lines, {names} names: {lines / time:.0f} lines a second")
    for names in (1000, 100_000):
        stored = "".join(f"do 1 put box/n{name} hello\n" for name in range(names))
        more = "".join(line(index, names) for index in range(50_000))
        time = seconds(stored + more, rounds) - seconds(stored, rounds)
        print(f"with {names} stored names: {time / 50_000 * 1e6:.1f} us a line")


if __name__ == "__main__":
    main()
