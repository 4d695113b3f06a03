"""Plays of the built program: one run of it with its words and its input, many at a time, and what to tell of them."""
import concurrent.futures
import os
import subprocess
import tempfile
from typing import NamedTuple

# No run may take longer.
MOST_SECONDS = 20

PLAYS_AT_ONCE = os.cpu_count() or 1

# How much of a text is shown on each side of a byte.
SHOWN_BYTES = 24


class Played(NamedTuple):
    """What a run wrote, and how it ended."""

    output: bytes
    errors: bytes
    status: int


class NotPlayed(Exception):
    """The program could not be started, or didn't end in time."""


def play(program, words, given):
    """Runs the program from a folder of its own, with these words and this input."""
    with tempfile.TemporaryDirectory() as folder:
        try:
            done = subprocess.run(
                [program, *words], input=given, capture_output=True, cwd=folder, timeout=MOST_SECONDS, check=False
            )
        except subprocess.TimeoutExpired:
            raise NotPlayed(f"it did not end within {MOST_SECONDS} seconds") from None
        except OSError as fault:
            raise NotPlayed(f"it could not be started: {fault.strerror}") from None
    return Played(done.stdout, done.stderr, done.returncode)


def for_each(judge, cases):
    """What `judge` says of each case, in their order, several at once."""
    with concurrent.futures.ThreadPoolExecutor(PLAYS_AT_ONCE) as pool:
        return list(pool.map(judge, cases))


def shown_at(text, at):
    """The bytes of a text before and behind a place."""
    before = text[max(0, at - SHOWN_BYTES) : at]
    behind = text[at : at + SHOWN_BYTES]
    return f"{before!r} then {behind!r}"


def difference(what, wanted, told):
    """Where two texts differ first, in words; nothing where they are equal."""
    if wanted == told:
        return ""
    at = len(os.path.commonprefix([wanted, told]))
    sizes = f"{len(wanted)} bytes are wanted, {len(told)} came"
    return f"{what}, byte {at}: wanted {shown_at(wanted, at)}; got {shown_at(told, at)}; {sizes}"


def tell(results):
    """Prints what failed and how many passed; the status to exit with."""
    failed = [(name, why) for name, ok, why in results if not ok]
    for name, why in failed:
        print(f"{name}: {why}")
    print(f"{len(results) - len(failed)} passed, {len(failed)} failed")
    return 1 if failed else 0


def main(check, text, words):
    """The program of a file with a `check`: its one word is the program to play."""
    if len(words) != 1:
        print(text)
        return 1
    root = os.path.dirname(os.path.dirname(os.path.abspath(__file__)))
    return tell(check(words[0], root))
