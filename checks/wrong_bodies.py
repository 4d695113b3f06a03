"""Has the prover try the wrong bodies of crates: it must refuse each.

Several that stand in different functions are tried in one check, which asks for those functions alone. One counts as
refused where a goal of its own function is false; what is not seen refused so is tried alone, in the end with a check
of the whole crate.
"""
import contextlib
import hashlib
import json
import os
import re
import resource
import shutil
import subprocess
import tempfile
import threading
import time
from concurrent.futures import ThreadPoolExecutor, as_completed
from dataclasses import dataclass

import build
import edits
import kit

RECORD = f"{kit.ROOT}/wrong-bodies.txt"
PARTS = ("src", "specs", "proofs")

# What a try came to. The prover refuses it; it gives no verdict, for a limit of its own; a proof only names what is not
# there any more, which says nothing of a contract; the text cannot be read; the crate is still proved; nothing is known.
REFUSED, LIMIT, NAMED, BAD, MISSED, UNSURE = "refused", "at a limit", "by a name alone", "bad", "NOT REFUSED", "not tried"
# The third is told, to be mended, and fails nothing: the prover does refuse it.
GOOD = (REFUSED, LIMIT, NAMED)

# What says of an error in a proof that a name is gone.
BY_NAME = re.compile(r"has no field|is not in scope|has no `|was not admitted")
AT = re.compile(r"(?:note: )?(?:\./)?(\S+?):(\d+):\d+: ?(.*)")
LIMITS = re.compile(
    r"antt ran out of (stack|the (steps|memory) that the check of one declaration may (take|use))"
    r"|(outgrew the memory limit|stopped at the step limit) \("
)


def checksum(crate):
    """The checksum of all that a try of the crate's own folder reads."""
    total = hashlib.sha256()
    for part in (*PARTS, "wrong-bodies"):
        for at, folders, files in os.walk(f"{kit.ROOT}/crates/{crate}/{part}"):
            folders.sort()
            for name in sorted(files):
                path = f"{at}/{name}"
                with open(path, "rb") as it:
                    total.update(f"{os.path.relpath(path, kit.ROOT)}\n".encode() + hashlib.sha256(it.read()).digest())
    return total.hexdigest()


def recorded():
    """What the file says of each crate: its checksum, and how many were refused."""
    found = {}
    if os.path.exists(RECORD):
        with open(RECORD, encoding="utf-8") as lines:
            for line in lines:
                words = line.split()
                if words and not line.startswith("#"):
                    found[words[0]] = words[1], int(words[2])
    return found


def record(refused):
    """Writes down the crates all of whose wrong bodies were refused, with how many they are; None: not all were."""
    lines = {**recorded(), **{crate: count and (checksum(crate), count) for crate, count in refused.items()}}
    there = with_edits()
    with open(RECORD, "w", encoding="utf-8") as it:
        it.write("# Of each crate: the checksum of its src, specs, proofs and wrong-bodies, and how many were refused. Written by ./check wrong-bodies.\n")
        for crate in sorted(lines):
            if lines[crate] and crate in there:
                it.write(f"{crate} {lines[crate][0]} {lines[crate][1]}\n")


def with_edits():
    """The crates that have wrong bodies."""
    return sorted(it for it in kit.names() if os.path.isdir(f"{kit.ROOT}/crates/{it}/wrong-bodies"))


def unfit():
    """What is wrong with the texts of the edits, crate by crate: each must fit its file."""
    wrong = []
    for crate in with_edits():
        try:
            for edit in edits.of_crate(kit.ROOT, crate):
                edits.apply([edit], f"{kit.ROOT}/crates/{crate}")
        except edits.Unfit as why:
            wrong.append(str(why))
    return wrong


def due(number):
    """The crates that a gate tries: those whose files changed since they were recorded, and five others, which go round
    with the number of the commit."""
    told, there = recorded(), with_edits()
    changed = [it for it in there if told.get(it, ("",))[0] != checksum(it)]
    others = [it for it in there if it not in changed]
    start = 5 * number % max(1, len(others))
    return changed, (others[start:] + others[:start])[:5]


@dataclass
class Ran:
    """What a check said."""

    status: int
    lines: list

    def of(self, function):
        """The lines that speak of this function's own proof: its verdict, and what stands in its files and its body."""
        return [it for it in self.lines if it.startswith(f"fn {function}: ")]


class Tries:
    """The tries of one crate's wrong bodies."""

    def __init__(self, crate, seed):
        self.crate, self.folder, self.seed = crate, crate.folder, seed
        self.checks = 0

    def check(self, texts, only):
        """Checks a copy of the crate with these texts in place of its own."""
        self.checks += 1
        with tempfile.TemporaryDirectory(prefix="rgw-edit-") as room:
            for part in PARTS:
                if os.path.isdir(f"{self.folder}/{part}"):
                    shutil.copytree(f"{self.folder}/{part}", f"{room}/{part}")
            for path, text in texts.items():
                with open(f"{room}/{path}", "w", encoding="utf-8") as it:
                    it.write(text)
            lib = kit.rtlib()
            # what a crate of tests has is compiled with its tests alone
            of_tests = self.crate.name.endswith("_tests")
            words = [lib.RATTLE, "check", *self.crate.words(["--jobs", "1"], tests=of_tests, keeps=False), "--incremental", self.seed]
            for name in sorted(only):
                words += ["--only", name]
            how = {"stdin": subprocess.DEVNULL, "stdout": subprocess.PIPE, "stderr": subprocess.STDOUT, "errors": "replace"}
            ran = subprocess.run([*lib.guarded(), *words], cwd=room, **how)
        return Ran(ran.returncode, ran.stdout.rstrip("\n").split("\n"))

    def together(self, batch):
        """Tries edits of different functions in one check, and returns what each came to, None where that is not seen."""
        names = set().union(*(names for _, names in batch))
        ran = self.check(edits.apply([edit for edit, _ in batch], self.folder), names)
        return {edit.name: seen(ran, names_of, self.folder) for edit, names_of in batch}

    def alone(self, edit):
        """Tries one edit with a check of the whole crate."""
        try:
            texts = edits.apply([edit], self.folder)
        except edits.Unfit as why:
            return BAD, str(why)
        ran = self.check(texts, [])
        return verdict(ran, texts)


def seen(ran, names, folder):
    """What a check that asked for these functions says of an edit in them, or None."""
    if any(re.search(r"\berror\[[\w-]+\]", it) for it in ran.lines) or ran.status not in (0, 1):
        return None
    found = None
    for name in names:
        line = next(iter(ran.of(name)), "")
        if "`search` did not prove" in line:
            return REFUSED, place_in(ran, name) or line
        proof = "proofs/" + "/".join(name.split("::")[1:]) + "/"
        wrong = [it for it in ran.lines if ": error" in it and it.removeprefix("./").startswith(proof)]
        own = [it for it in wrong if not BY_NAME.search(it)]
        if own:
            return REFUSED, own[0]
        if wrong and " not proved" in line:
            found = NAMED, wrong[0]
    return found


def place_in(ran, name):
    """The first goal that is told to be open at a place in a source, where there is one function alone."""
    asked = [it for it in ran.lines if "it is not proved that" in it]
    return asked[0] if len(asked) == 1 else ""


def verdict(ran, texts):
    """What a check of the whole crate says of the edit that made these texts."""
    last, told = ran.lines[-1], [it for it in ran.lines if AT.match(it)]
    if ran.status == 0:
        return MISSED, "the crate is still proved"
    unread = next((it for it in told if is_unread(it, texts)), "")
    if ran.status == 1 and (unread or any(re.search(r"\berror\[[\w-]+\]", it) for it in ran.lines)):
        return BAD, unread or next(it for it in ran.lines if "error[" in it)
    if ran.status == 1 and last.startswith("logic=not-proved"):
        told = [it for it in told if ": error" in it or "it is not proved that" in it] or told
        first = next((it for it in told if not (it.removeprefix("./").startswith("proofs/") and BY_NAME.search(it))), "")
        if first or not told:
            return REFUSED, first or last
        return NAMED, told[0]
    if ran.status == 3 and any(LIMITS.search(it) for it in ran.lines):
        return LIMIT, next(it for it in ran.lines if LIMITS.search(it))
    return UNSURE, f"its check ended with status {ran.status}: {last}"


def is_unread(line, texts):
    """Whether a text of the sources or of an edited file cannot be read, where an edit that only makes a statement
    false reads well."""
    at = AT.match(line)
    if not at or ": error" not in line or at[1] not in texts and not at[1].startswith(("src/", "specs/")):
        return False
    return bool(re.search(r"is not in scope|has no field|is no name|operand is missing|expected the end|cannot continue", line))


def batches_of(located, folder):
    """The edits in as few checks as serves: those of one check stand in different functions, and their texts fit
    together."""
    batches = []
    for edit, names in sorted(located, key=lambda it: -len(it[1])):
        for batch in batches:
            if any(names & others for _, others in batch):
                continue
            with contextlib.suppress(edits.Unfit):
                edits.apply([*(it for it, _ in batch), edit], folder)
                batch.append((edit, names))
                break
        else:
            batches.append([(edit, names)])
    return batches


@contextlib.contextmanager
def seeded(crate):
    """A folder that begins with what the crate's own checks kept, if they did."""
    with tempfile.TemporaryDirectory(prefix="rgw-seed-") as room:
        kept = f"{crate.folder}/out/incremental"
        if os.path.isdir(kept):
            # a check replaces a file of what was proved, and changes none
            shutil.copytree(kept, f"{room}/seed", symlinks=True, copy_function=link_or_copy)
        else:
            os.mkdir(f"{room}/seed")
        yield f"{room}/seed"


def link_or_copy(one, other):
    if one.endswith(".oantt"):
        with contextlib.suppress(OSError):
            return os.link(one, other)
    return shutil.copy2(one, other)


def try_crate(crate, is_proved):
    """Tries the wrong bodies of a crate, and returns what each came to, and how many checks it took."""
    found = edits.of_crate(kit.ROOT, crate.name)
    results = {}
    with seeded(crate) as seed:
        tries = Tries(crate, seed)
        places = [(edit, edits.changed(edit, crate.folder)) for edit in found]
        located = [(edit, names) for edit, names in places if names]
        if not is_proved:
            asked = set().union(*(names for _, names in located)) if located else set()
            ran = tries.check({}, asked if len(located) == len(found) else [])
            if ran.status:
                why = f"the crate itself is not proved: {ran.lines[-1]}"
                return {edit.name: (UNSURE, why) for edit in found}, tries.checks
        for batch in batches_of(located, crate.folder):
            told = tries.together(batch)
            for edit, names in batch:
                if told[edit.name] is None and len(batch) > 1:
                    told[edit.name] = tries.together([(edit, names)])[edit.name]
            results.update({name: it for name, it in told.items() if it})
        for edit in found:
            if results.get(edit.name, (NAMED,))[0] == NAMED:
                results[edit.name] = tries.alone(edit)
        return results, tries.checks


def libraries_are_there(crates):
    """Whether each library below these crates is there as the gate built it of the files that are here."""
    try:
        with open(f"{kit.ROOT}/out/libraries.json", encoding="utf-8") as it:
            told = json.load(it)
    except (OSError, ValueError):
        return False
    below = {dep.name: dep for crate in crates for dep in crate.below()}
    return all(
        os.path.isdir(dep.rlib) and not os.path.exists(f"{dep.folder}/out/rlib/stamp") and told.get(name) == dep.stamp()
        for name, dep in below.items()
    )


def note_libraries():
    """Notes which libraries the gate has just built, and of which files."""
    told = {it.name: it.stamp() for it in kit.crates() if os.path.isdir(it.rlib) and not it.is_program}
    os.makedirs(f"{kit.ROOT}/out", exist_ok=True)
    with open(f"{kit.ROOT}/out/libraries.json", "w", encoding="utf-8") as it:
        json.dump(told, it)


def processor_seconds():
    """The seconds of a processor that the checks took which have ended."""
    used = resource.getrusage(resource.RUSAGE_CHILDREN)
    return used.ru_utime + used.ru_stime


def run(names, say, is_proved=False, until=None):
    """Tries the wrong bodies of these crates, and returns how many were refused, those that were not, with the reason,
    and the seconds of a processor. is_proved: the gate has just proved them. until: no crate is begun after this time of
    the monotonic clock; one that was not begun stays due."""
    crates = [it for it in kit.crates() if it.name in names]
    if not libraries_are_there(crates):
        say("building the libraries that they stand on")
        wanted = [it for it in build.with_below(crates) if any(it in crate.below() for crate in crates)]
        failed = build.side_by_side(wanted, lambda name, done, count, _: say(f"{name} is built, {done} of {count}"))
        if failed:
            return 0, [(failed, f"the library is not proved: out/build/{failed}.log")], 0
    kit.rtlib().guarded()
    count, wrong, alone, before = 0, [], threading.Lock(), processor_seconds()

    def timed(crate):
        begun = time.monotonic()
        if until is not None and begun > until:
            return crate.name, None, 0, 0
        results, checks = try_crate(crate, is_proved)
        return crate.name, results, checks, time.monotonic() - begun

    order = sorted(crates, key=lambda it: -len(os.listdir(f"{it.folder}/wrong-bodies")))
    with ThreadPoolExecutor(kit.processors()) as pool:
        for ended in as_completed([pool.submit(timed, it) for it in order]):
            name, results, checks, seconds = ended.result()
            if results is None:
                say(f"{name}: no time was left for its wrong bodies, which stay due")
                continue
            with alone:
                bad = sorted((edit, it) for edit, it in results.items() if it[0] not in GOOD)
                count += len(results) - len(bad)
                limits = sum(it[0] == LIMIT for it in results.values())
                at_limit = f", {limits} of them at a limit of the prover" if limits else ""
                say(f"{name}: {len(results) - len(bad)} of {len(results)} refused{at_limit}, in {checks} checks and {seconds:.0f} seconds by the clock")
                for edit in sorted(it for it in results if results[it][0] == NAMED):
                    say(f"{name}/{edit}: refused only since a proof names what is gone, which says nothing of a contract: mend it")
                for edit, (kind, why) in bad:
                    say(f"{name}/{edit}: {kind}: {why[:300]}")
                    wrong.append((f"{name}/{edit}", f"{kind}: {why}"))
                record({name: None if bad else len(results)})
    return count, wrong, processor_seconds() - before
