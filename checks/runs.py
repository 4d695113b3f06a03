#!/usr/bin/env python3
"""Plays the stored runs of the program, and compares what it writes with what is stored.

Usage: checks/runs.py PROGRAM   from any folder; the last line is `N passed, N failed`

A run is a folder under `runs`, with these files:
  words      the words of the command line, one a line
  input      the bytes of standard input; or
  input-of   a line with the path of the file that has them, below the top of the repository; or neither: no bytes
  output     the bytes that standard output must have
  status     the status; 0 where there is no such file
  errors     the bytes that standard error must have; any where there is no such file
"""
import functools
import os
import sys

# This folder is no place for what Python keeps of its own.
sys.dont_write_bytecode = True
sys.path.insert(0, os.path.dirname(os.path.abspath(__file__)))

import plays

FILES = {"words", "input", "input-of", "output", "status", "errors"}


class BadRun(Exception):
    """The folder is no run."""


def read(*path):
    with open(os.path.join(*path), "rb") as file:
        return file.read()


def words_in(folder):
    """The words of a run. An empty line is an empty word; no line, no word."""
    text = read(folder, "words")
    if text and not text.endswith(b"\n"):
        raise BadRun("the file `words` does not end with a line end")
    return text.split(b"\n")[:-1]


def input_in(root, folder, files):
    if "input" in files:
        return read(folder, "input")
    if "input-of" in files:
        return read(root, os.fsdecode(read(folder, "input-of").strip()))
    return b""


def status_in(folder, files):
    if "status" not in files:
        return 0
    digits = read(folder, "status").strip()
    if not digits.isdigit():
        raise BadRun("the file `status` is no number")
    return int(digits)


def files_of(folder):
    """The names of the files of a run."""
    files = set(os.listdir(folder))
    if files - FILES:
        raise BadRun(f"no file of a run is named {sorted(files - FILES)[0]}")
    for name in sorted({"words", "output"} - files):
        raise BadRun(f"the file `{name}` is missing")
    if {"input", "input-of"} <= files:
        raise BadRun("the input is there twice")
    return files


def differences(program, root, folder):
    """What is otherwise than stored, in words; nothing where all is as stored."""
    files = files_of(folder)
    wanted = plays.Played(read(folder, "output"), b"", status_in(folder, files))
    told = plays.play(program, words_in(folder), input_in(root, folder, files))
    found = [plays.difference("output", wanted.output, told.output)]
    if wanted.status != told.status:
        found.append(f"status: wanted {wanted.status}; got {told.status}; standard error has {told.errors[-200:]!r}")
    if "errors" in files:
        found.append(plays.difference("errors", read(folder, "errors"), told.errors))
    return "; ".join(text for text in found if text)


def judge(program, root, name):
    """Plays one run."""
    try:
        why = differences(program, root, os.path.join(root, "runs", name))
    except (BadRun, plays.NotPlayed) as fault:
        why = str(fault)
    except OSError as fault:
        why = f"{fault.filename}: {fault.strerror}"
    return (f"runs/{name}", not why, why)


def check(program, root):
    """Plays all runs with a program: of each its name, whether all is as stored, and if not, why."""
    names = sorted(os.listdir(os.path.join(root, "runs")))
    if not names:
        return [("runs", False, "there are none")]
    return plays.for_each(functools.partial(judge, os.path.abspath(program), root), names)


if __name__ == "__main__":
    sys.exit(plays.main(check, __doc__, sys.argv[1:]))
