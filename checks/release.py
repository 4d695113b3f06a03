#!/usr/bin/env python3
"""The built program that the repository carries.

Usage: checks/release.py          says whether release/rgw is the program that was built last, byte for byte
       checks/release.py --write  takes that program as release/rgw, and writes release/SOURCES
"""
import hashlib
import os
import shutil
import subprocess
import sys
import tempfile

import kit

BUILT = f"{kit.ROOT}/crates/rgw_main/out/rgw_main"
CARRIED = f"{kit.ROOT}/release/rgw"
SOURCES = f"{kit.ROOT}/release/SOURCES"


def checksum():
    """The checksum of all that the program is made of."""
    return subprocess.run([f"{kit.ROOT}/release/checksum"], stdout=subprocess.PIPE, text=True, check=True).stdout.strip()


def sum_of(path):
    with open(path, "rb") as it:
        return hashlib.sha256(it.read()).hexdigest()


def sources():
    """What release/SOURCES says, by its words."""
    with open(SOURCES, encoding="utf-8") as lines:
        return dict(line.strip().split(" ", 1) for line in lines if " " in line)


def strip(program, to):
    """Writes the program without its names, as the kit's own tool does it."""
    shutil.copyfile(program, to)
    tool = f"{kit.folder()}/toolchain/bin/clang"
    subprocess.run(["llvm-strip", "--strip-all", to], executable=tool, check=True)
    os.chmod(to, 0o755)


def is_current():
    """What is wrong with release/SOURCES beside the files that are here, or None."""
    if not os.path.isfile(CARRIED) or not os.path.isfile(SOURCES):
        return "release/rgw or release/SOURCES is not there"
    said = sources()
    if said.get("sources") != checksum():
        return "release/SOURCES is of other sources: checks/release.py --write takes what ./rgw build built"
    if said.get("program") != sum_of(CARRIED):
        return "release/rgw is not the program that release/SOURCES names"
    return None


def differs():
    """What differs between release/rgw and the program that was built last, or None."""
    wrong = is_current()
    if wrong:
        return wrong
    if sources().get("kit") != kit.identity():
        return "release/SOURCES names another kit than this one"
    if not os.path.isfile(BUILT):
        return "no program was built"
    with tempfile.TemporaryDirectory(prefix="rgw-release-") as room:
        strip(BUILT, f"{room}/rgw")
        with open(f"{room}/rgw", "rb") as one, open(CARRIED, "rb") as other:
            return None if one.read() == other.read() else "release/rgw is not the program that was built, byte for byte"


def write():
    """Takes the program that was built last."""
    strip(BUILT, CARRIED)
    with open(SOURCES, "w", encoding="utf-8") as it:
        it.write(f"sources {checksum()}\nkit {kit.identity()}\nprogram {sum_of(CARRIED)}\n")


def main():
    if "--write" in sys.argv[1:]:
        write()
    wrong = differs()
    print(wrong or "release/rgw is the program that was built")
    return 1 if wrong else 0


if __name__ == "__main__":
    sys.exit(main())
