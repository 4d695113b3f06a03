#!/usr/bin/env python3
"""Whether the documents speak of what is there: crates, functions, paths, names of clauses, and their own lengths.

Usage: checks/documents.py   from any folder; the last line is `N passed, N failed`
"""
import re
import sys
from pathlib import Path

MOST_README = 200
MOST_CRATE_README = 60
PROMISES = "docs/PROMISES.md"

CODE = re.compile(r"`([^`]+)`")
WORD = re.compile(r"[A-Za-z_][A-Za-z_0-9]*")
CRATE = re.compile(r"[a-z]+_[a-z_]+")
PATH = re.compile(r"[A-Za-z_0-9.-]+(?:/[A-Za-z_0-9.-]+)*\.(?:antt|rt|txt)")
RULE = re.compile(r"\|[\s:|-]+\|")


def crates_of(root):
    """The names in crates.txt."""
    lines = (root / "crates.txt").read_text(encoding="utf-8").splitlines()
    return [WORD.match(line)[0] for line in lines if line.strip() and not line.startswith("#")]


def cells(line):
    return [cell.strip() for cell in line.strip().strip("|").split("|")]


def tables(text):
    """Each table of a document: the headings above it, the cells of its head, and the cells of its rows."""
    heading, head, rows = [], None, []
    for line in [*text.splitlines(), ""]:
        if line.startswith("|"):
            if head is None:
                head = cells(line)
            elif not RULE.fullmatch(line.strip()):
                rows.append(cells(line))
            continue
        if head is not None:
            yield list(heading), head, rows
            head, rows = None, []
        if line.startswith("#"):
            depth = len(line) - len(line.lstrip("#"))
            heading = heading[: depth - 1] + [""] * (depth - 1 - len(heading)) + [line.strip("# ")]


def text_below(folder):
    """All sources below a folder, as one text."""
    return "\n".join(path.read_text(encoding="utf-8") for path in sorted(folder.rglob("*.rt")))


def has_word(text, word):
    return re.search(rf"(?<!\w){re.escape(word)}(?!\w)", text) is not None


def at_most(path, most):
    """What is wrong with the length of a document, or nothing."""
    if not path.is_file():
        return "it is not there"
    lines = len(path.read_text(encoding="utf-8").splitlines())
    return f"it has {lines} lines, more than {most}" if lines > most else ""


def unproved_names(root, crate, text):
    """What a table of what is proved names in its first cells, and the crate's sources do not have."""
    sources = text_below(root / "crates" / crate / "src")
    for heading, _, rows in tables(text):
        if heading[-1:] != ["Proved"]:
            continue
        for row in rows:
            for code in CODE.findall(row[0]):
                for word in WORD.findall(code):
                    if not has_word(sources, word):
                        yield word


def gone_crates(crates, text):
    """Crates that a table of crates names and crates.txt does not have; what is planned may be named."""
    for heading, head, rows in tables(text):
        if head[0] not in ("Crate", "Crates") or any("lanned" in words for words in heading):
            continue
        for row in rows:
            for code in CODE.findall(row[0]):
                if CRATE.fullmatch(code) and code not in crates:
                    yield code


def untrue_places(root, text):
    """Paths that the promises name and are not there, and names of clauses that do not stand in the file before them."""
    for heading, head, rows in tables(text):
        if "Where" not in head:
            continue
        at = head.index("Where")
        for row in rows:
            yield from untrue_in(root, row[at] if at < len(row) else "")
            yield from unmatched_state(head, row, at)


def untrue_in(root, cell):
    source = None
    for code in CODE.findall(cell):
        if PATH.fullmatch(code):
            path = root / code
            source = path.read_text(encoding="utf-8") if path.is_file() else ""
            if not path.is_file():
                yield f"there is no {code}"
            where = code
        elif source is None:
            yield f"{code} stands behind no path"
        elif not has_word(source, code):
            yield f"{code} does not stand in {where}"


def unmatched_state(head, row, at):
    """What stands has a place; what is planned names none."""
    if "State" not in head or at >= len(row):
        return
    state = row[head.index("State")]
    if state.startswith("stands") and not CODE.search(row[at]):
        yield f"{row[0]}: it stands, and no place is named"
    if state == "planned" and CODE.search(row[at]):
        yield f"{row[0]}: it is planned, and a place is named"


def result(name, wrong):
    wrong = list(wrong)
    return name, not wrong, "; ".join(wrong)


def check(root):
    """Each check with whether it is well, and why not."""
    root = Path(root)
    crates = crates_of(root)
    wrong = at_most(root / "README.md", MOST_README)
    results = [("README.md: its length", not wrong, wrong)]
    for crate in crates:
        name = f"crates/{crate}/README.md"
        wrong = at_most(root / name, MOST_CRATE_README)
        results.append((f"{name}: its length", not wrong, wrong))
        if (root / name).is_file():
            text = (root / name).read_text(encoding="utf-8")
            found = [f"no source of it has {word}" for word in unproved_names(root, crate, text)]
            results.append(result(f"{name}: names of what is proved", found))
    documents = [root / "README.md", *sorted((root / "docs").glob("*.md"))]
    documents += [path for crate in crates if (path := root / f"crates/{crate}/README.md").is_file()]
    for path in documents:
        found = [f"crates.txt has no {it}" for it in gone_crates(crates, path.read_text(encoding="utf-8"))]
        results.append(result(f"{path.relative_to(root)}: crates in tables of crates", found))
    if (root / PROMISES).is_file():
        found = untrue_places(root, (root / PROMISES).read_text(encoding="utf-8"))
        results.append(result(f"{PROMISES}: places", found))
    else:
        results.append((f"{PROMISES}: places", False, "it is not there"))
    return results


def main():
    results = check(Path(__file__).resolve().parent.parent)
    for name, is_well, why in results:
        if not is_well:
            print(f"FAILED: {name}: {why}")
    failed = sum(not is_well for _, is_well, _ in results)
    print(f"{len(results) - failed} passed, {failed} failed")
    return 1 if failed else 0


if __name__ == "__main__":
    sys.exit(main())
