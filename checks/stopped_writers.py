#!/usr/bin/env python3
"""Stops a writer after each of its events, has the container checked once its tag is due, and asks whether the listing
and the counts then agree with what GETs show. The same with another write between any two events of the check.

Usage: checks/stopped_writers.py PROGRAM   from any folder; the last line is `N passed, N failed`

What objects there are follows from the script alone, and what listing and counts must say from the GETs, so that
nothing is known here of the index. How often a check repairs, and what it leaves, is compared with the table in
`checks/stopped_writers.txt`.
"""
import functools
import os
import re
import sys
from typing import NamedTuple, Optional

# This folder is no place for what Python keeps of its own.
sys.dont_write_bytecode = True
sys.path.insert(0, os.path.dirname(os.path.abspath(__file__)))

import plays

# A PUT of a few bytes reads the container's row, prepares its entry, announces the shard, writes the head, and
# completes the entry.
PUT_EVENTS = 5
PREPARED, HEAD_WRITTEN = 2, 4

# One more event than a PUT makes.
MOST_WRITTEN = 6

SHARDS = (1, 3)

# The writes that come between events of a check: of the same name and of another.
PUTS = ("put box/k -", "put box/b x")

NAMES = ("a", "b", "k")

# The container is counted before it is listed, since a listing puts entries right too.
LAST = ["do 1 check box", "do 1 stat box", "do 1 list box", *(f"do 1 get box/{name}" for name in NAMES)]

NOT_THERE = "404 No such object"


class OtherReplies(Exception):
    """The replies are not those that such a script has."""


class Case(NamedTuple):
    """A writer of `box/k` stops after so many events; where a write is named, it comes after so many of a check."""

    shards: int
    written: int
    put: Optional[str] = None
    checked: int = 0

    @property
    def has_tag(self):
        """The writer leaves a tag in its entry."""
        return PREPARED <= self.written < PUT_EVENTS

    @property
    def section(self):
        """The line of the table above that of this case."""
        if self.put is None:
            return f"== a writer of box/k is stopped, shards: {self.shards}"
        return f"== and {self.put} comes between events of the check, shards: {self.shards}"

    @property
    def key(self):
        """How the line of the table begins."""
        return f"{self.written}" if self.put is None else f"{self.written}, {self.checked}"

    @property
    def name(self):
        return f"stopped writer, {self.key}: {self.section[3:]}"


def check_events(shards, has_tag):
    """A check reads the row and a page of each shard, and of an entry with a tag the head; then it suggests."""
    return shards + (3 if has_tag else 1)


def all_cases():
    written = range(MOST_WRITTEN + 1)
    cases = [Case(shards, events) for shards in SHARDS for events in written]
    for shards in SHARDS:
        for put in PUTS:
            for events in written:
                most = check_events(shards, Case(shards, events).has_tag)
                cases += [Case(shards, events, put, checked) for checked in range(most + 1)]
    return cases


def steps(actor, events):
    return [f"step {actor} {events}"] if events > 0 else []


def script_of(case):
    """Beside `box/a`, the writer stops and its tag becomes due. What tag is left behind the other write becomes due,
    too. An actor that has its reply may be named no more."""
    lines = ["do 1 put box/a abc", "start w 1 put box/k hello", *steps("w", case.written)]
    if case.written < PUT_EVENTS:
        lines.append("stop w")
    lines.append("clock 120000000")
    if case.put is not None:
        lines += ["start c 1 check box", *steps("c", case.checked), f"do 1 {case.put}"]
        if case.checked < check_events(case.shards, case.has_tag):
            lines.append("run c")
        lines.append("clock 240000000")
    return "".join(line + "\n" for line in lines + LAST)


def objects_of(case):
    """What is put by the end: an object is there once its head is written."""
    objects = {"a": "abc"}
    if case.written >= HEAD_WRITTEN:
        objects["k"] = "hello"
    if case.put == "put box/k -":
        objects["k"] = ""
    elif case.put == "put box/b x":
        objects["b"] = "x"
    return objects


def get_reply(objects, name):
    if name not in objects:
        return NOT_THERE
    return f"200 {len(objects[name])} {objects[name]}".rstrip()


def numbers_in(pattern, reply):
    """The numbers in a reply of this form."""
    found = re.fullmatch(pattern, reply)
    if found is None:
        raise OtherReplies(f"`{reply}` is no such reply as is due")
    return [int(number) for number in found.groups()]


def shown_by(replies):
    """The names and the sizes that replies to GETs show."""
    shown = {}
    for name, reply in zip(NAMES, replies):
        if reply != NOT_THERE:
            [shown[name]] = numbers_in(r"200 (\d+)(?: .*)?", reply)
    return shown


def agree(list_reply, stat_reply, get_replies):
    """The listing has the names that GETs show and no other, and the container counts these objects and their bytes."""
    shown = shown_by(get_replies)
    listed = " ".join(["200", *shown])
    counted = f"200 objects={len(shown)} bytes={sum(shown.values())}"
    return list_reply == listed and stat_reply == counted


def check_replies(case, lines):
    """The replies to the checks: that of the actor, where there is one, and that at the end."""
    told = [line for line in lines if line.startswith("c ")][-1:] if case.put is not None else []
    return [*told, lines[-len(LAST)]]


def repairs_in(replies):
    return sum(numbers_in(r"(?:c )?200 repaired=(\d+) left=\d+", reply)[0] for reply in replies)


def faults(case, table, lines):
    """What is not as it must be, in words."""
    if len(lines) < len(LAST):
        raise OtherReplies(f"{len(lines)} replies are too few")
    _, stat_reply, list_reply, *gets = lines[-len(LAST) :]
    checks = check_replies(case, lines)
    objects = objects_of(case)
    wanted = [get_reply(objects, name) for name in NAMES]
    if gets != wanted:
        yield f"GETs of {', '.join(NAMES)}: wanted {wanted}; got {gets}"
    agrees = agree(list_reply, stat_reply, gets)
    if not agrees:
        yield f"listing `{list_reply}` and counts `{stat_reply}` differ from GETs {gets}"
    if repairs_in(checks) != int(case.has_tag):
        yield f"a tag is put right once, where there is one; got {checks}"
    row = f"{case.key}: " + "; ".join([*checks, "agree" if agrees else "differ"])
    stored = table.get((case.section, case.key))
    if row != stored:
        yield f"the table has `{stored}`; got `{row}`"


def table_in(path):
    """The lines of the table, by the heading that each stands under and by how it begins."""
    table = {}
    section = ""
    with open(path, encoding="utf-8") as file:
        for line in file.read().splitlines():
            if line.startswith("== "):
                section = line
            else:
                table[section, line.split(":")[0]] = line
    return table


def differences(program, table, case):
    words = f"script --bucket box --shards {case.shards} --stripe 16 --frame 16 --frames 64".split()
    told = plays.play(program, words, script_of(case).encode())
    if told.status != 0:
        return f"status {told.status}, behind {told.output[-200:]!r}"
    try:
        return "; ".join(faults(case, table, told.output.decode().splitlines()))
    except (OtherReplies, UnicodeDecodeError) as fault:
        return f"{fault}, in {told.output!r}"


def judge(program, table, case):
    """Plays one script."""
    try:
        why = differences(program, table, case)
    except plays.NotPlayed as fault:
        why = str(fault)
    return (case.name, not why, why)


def check(program, root):
    """Plays all scripts with a program: of each its name, whether all is as it must be, and if not, why."""
    table = table_in(os.path.join(root, "checks", "stopped_writers.txt"))
    cases = all_cases()
    results = plays.for_each(functools.partial(judge, os.path.abspath(program), table), cases)
    unused = set(table) - {(case.section, case.key) for case in cases}
    why = f"no script has these lines of it: {sorted(unused)}" if unused else ""
    return [*results, ("the table of stopped writers", not unused, why)]


if __name__ == "__main__":
    sys.exit(plays.main(check, __doc__, sys.argv[1:]))
