"""The kit that `rt` belongs to, and the crates of this repository as it sees them."""
import importlib.machinery
import importlib.util
import os
import subprocess
import sys

ROOT = os.path.dirname(os.path.dirname(os.path.abspath(__file__)))


def rt(*words, **how):
    """Runs rt at the top of the repository, and returns what came of it."""
    return subprocess.run(["rt", *words], cwd=how.pop("cwd", ROOT), stdin=subprocess.DEVNULL, **how)


def folder():
    """The kit's folder: the one of the page that `rt doc` names."""
    said = rt("doc", stdout=subprocess.PIPE, text=True, check=True).stdout
    return os.path.dirname(said.strip())


def identity():
    """The kit's one line."""
    return rt("version", stdout=subprocess.PIPE, text=True, check=True).stdout.strip()


_rtlib = None


def rtlib():
    """rt's own library, which knows how a crate is checked over the libraries below it."""
    global _rtlib
    if _rtlib is None:
        sys.dont_write_bytecode = True
        loader = importlib.machinery.SourceFileLoader("rtlib", f"{folder()}/bin/rtlib.py")
        spec = importlib.util.spec_from_loader("rtlib", loader)
        _rtlib = importlib.util.module_from_spec(spec)
        sys.modules["rtlib"] = _rtlib
        loader.exec_module(_rtlib)
        _once_each(_rtlib.Crate)
    return _rtlib


def _once_each(kind):
    """Has each crate compute once what it would compute again for each way that leads to it."""
    for name in ("below", "stamp"):
        made = getattr(kind, name)

        def once(crate, made=made, key=f"_{name}_once"):
            if key not in crate.__dict__:
                crate.__dict__[key] = made(crate)
            return crate.__dict__[key]

        setattr(kind, name, once)


def crates():
    """The crates of crates.txt, lowest first."""
    found = rtlib().crates_below(ROOT)
    return sorted(found, key=lambda crate: (len(crate.below()), crate.name))


def names():
    """The names of crates.txt, in its order, with the names that each crate stands on."""
    found = {}
    with open(f"{ROOT}/crates.txt", encoding="utf-8") as lines:
        for line in lines:
            left, colon, right = line.partition("#")[0].partition(":")
            if colon:
                found[left.split()[0]] = right.split()
    return found


def processors():
    """How many checks go on at once."""
    said = os.environ.get("RT_JOBS", "")
    return int(said) if said.isdigit() and int(said) else len(os.sched_getaffinity(0))
