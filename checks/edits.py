"""Wrong bodies as they are written down, and the functions that they change.

An edit is a file `crates/NAME/wrong-bodies/WORDS.edit` with lines `file: PATH` below the crate's folder, and pairs of
lines `old: TEXT` and `new: TEXT`; each old text stands in its file once. A line `goal: NAME` names the function whose
goal is false with it, where that is not the one that it stands in, as for a constant.
"""
import functools
import os
import re
from dataclasses import dataclass, field


@dataclass
class Edit:
    crate: str
    name: str
    # (path in the crate, old text, new text)
    pairs: list = field(default_factory=list)
    # the functions that are named as those with the false goal
    goals: list = field(default_factory=list)

    def __str__(self):
        return f"{self.crate}/{self.name}"


class Unfit(Exception):
    """An edit that cannot be applied."""


def read(crate, path):
    """The edit of this file."""
    edit, file, old = Edit(crate, os.path.basename(path)), None, None
    with open(path, encoding="utf-8") as lines:
        for line in lines.read().split("\n"):
            word, colon, text = line.partition(":")
            text = text[1:] if text.startswith(" ") else text
            if word == "file" and colon:
                file = text.strip()
                if os.path.normpath(file) != file or not file.startswith(("src/", "specs/", "proofs/")):
                    raise Unfit(f"{edit}: {file} is no file below src/, specs/ or proofs/")
            elif word == "old" and colon:
                old = text
            elif word == "new" and colon:
                if not file or not old:
                    raise Unfit(f"{edit}: a new text without a file and an old one")
                edit.pairs.append((file, old, text))
                old = None
            elif word == "goal" and colon:
                edit.goals.append(text.strip())
            elif line.strip() and not line.startswith("#"):
                raise Unfit(f"{edit}: a line that says nothing: {line[:60]}")
    if not edit.pairs:
        raise Unfit(f"{edit}: no old and new text")
    return edit


def of_crate(root, crate):
    """The edits of a crate, by their names."""
    folder = f"{root}/crates/{crate}/wrong-bodies"
    names = sorted(os.listdir(folder)) if os.path.isdir(folder) else []
    odd = [name for name in names if not name.endswith((".edit", ".md"))]
    if odd:
        raise Unfit(f"{crate}/{odd[0]}: its name does not end in .edit")
    return [read(crate, f"{folder}/{name}") for name in names if name.endswith(".edit")]


def apply(edits, folder):
    """The texts of the files that these edits change together, by their path in the crate; an old text that is not
    there once is an Unfit."""
    texts, were = {}, {}
    for edit in edits:
        for path, old, new in edit.pairs:
            if path not in texts:
                if not os.path.isfile(f"{folder}/{path}"):
                    raise Unfit(f"{edit}: there is no file {path}")
                with open(f"{folder}/{path}", encoding="utf-8") as it:
                    texts[path] = were[path] = it.read()
            count = texts[path].count(old)
            if count != 1:
                raise Unfit(f"{edit}: an old text stands in {path} {count} times, and not once")
            texts[path] = texts[path].replace(old, new)
    if texts == were:
        raise Unfit(f"{edits[0]}: it changes nothing")
    return texts


# Comments and texts in quotes, in which braces and words mean nothing.
QUIET = re.compile(
    r"//[^\n]*|/\*.*?\*/|b?r(#*)\".*?\"\1|b?\"(?:\\.|[^\"\\])*\"|b?'(?:\\(?:x[0-9a-fA-F]{2}|u\{[^}]*\}|.)|[^\\'\n])'",
    re.DOTALL,
)
CLAUSE = re.compile(r"(?:\b(?:requires|ensures)\*?(?:\s+\w+)?|\bghost\s+\w+\s*:)\s*\Z")
BLOCK = re.compile(r"(?m)^[ \t]*(?:unsafe\s+)?(?:pub(?:\([^)]*\))?\s+)?(impl|trait|mod)\b([^{;]*)\{")


def closing(text, opening):
    """Where the brace closes that opens here."""
    depth = 0
    for at in range(opening, len(text)):
        depth += {"{": 1, "}": -1}.get(text[at], 0)
        if depth == 0:
            return at
    return len(text)


@dataclass
class Function:
    # its path from the crate's name on
    name: str
    # of a method the type
    of: str
    start: int
    end: int


def impl_parts(header):
    """The trait of an `impl`, or its type, then whether it has a trait, and the type."""
    header = re.sub(r"\bwhere\b.*", "", header, flags=re.DOTALL)
    header = without_generics(header.strip()) if header.lstrip().startswith("<") else header.strip()
    return header.partition(" for ")


def impl_type(header):
    """The type of an `impl`."""
    trait, word, kind = impl_parts(header)
    return base_name(kind if word else trait)


def impl_name(header):
    """How rattle names what an `impl` writes: the type, then the trait with its arguments."""
    trait, word, kind = impl_parts(header)
    if not word:
        return base_name(trait)
    arguments = re.search(r"<(.*)>\s*\Z", trait, re.DOTALL)
    given = "".join(base_name(it) for it in split_top(arguments[1])) if arguments else ""
    return base_name(kind) + base_name(trait) + given


def without_generics(text):
    """The text behind the parameters that it begins with."""
    depth = 0
    for at, sign in enumerate(text):
        depth += {"<": 1, ">": -1}.get(sign, 0)
        if depth == 0:
            return text[at + 1 :]
    return text


def split_top(text):
    """The arguments of a list, by the commas that stand in no brackets."""
    parts, depth = [""], 0
    for sign in text:
        depth += {"<": 1, "(": 1, "[": 1, ">": -1, ")": -1, "]": -1}.get(sign, 0)
        if sign == "," and depth == 0:
            parts.append("")
        else:
            parts[-1] += sign
    return [it.strip() for it in parts if it.strip() and not it.strip().startswith("'")]


def base_name(text):
    """The last word of a type's path, without its arguments."""
    path = re.sub(r"<.*", "", text.strip().lstrip("&").strip(), flags=re.DOTALL)
    found = re.findall(r"\w+", path)
    return found[-1] if found else ""


def module_of(crate, path):
    """The module of a file of src/."""
    parts = re.sub(r"\.rt\Z", "", path).split("/")[1:]
    if parts[-1] in ("lib", "main", "mod"):
        parts.pop()
    return [crate, *parts]


def quieted(text):
    """The text with blanks in place of comments and of texts in quotes."""
    return QUIET.sub(lambda found: re.sub(r"[^\n]", " ", found[0]), text)


@functools.lru_cache(maxsize=256)
def functions(crate, path, text):
    """The functions with a body that a file of src/ has, those of a type as if it were declared there."""
    quiet = quieted(text)
    blocks = [(it.end() - 1, closing(quiet, it.end() - 1), it[1], it[2].strip()) for it in BLOCK.finditer(quiet)]
    found = []
    for it in re.finditer(r"\bfn\s+(\w+)", quiet):
        body = body_of(quiet, it.end())
        if body is None:
            continue
        names, of = module_of(crate, path), ""
        for start, end, kind, header in blocks:
            if start <= it.start() <= end:
                names.append(impl_name(header) if kind == "impl" else base_name(header.partition(":")[0]))
                of = impl_type(header) if kind == "impl" else of
        found.append(Function("::".join([*names, it[1]]), of, it.start(), closing(quiet, body)))
    return found


def body_of(quiet, at):
    """Where the body of the function begins whose name ends here, if it has one: behind its clauses."""
    start = at
    while True:
        found = re.compile(r"[{;]").search(quiet, at)
        if not found:
            return None
        before = quiet[start : found.start()]
        if found[0] == ";":
            # the length of an array stands in brackets
            if before.count("[") > before.count("]"):
                at = found.end()
                continue
            return None
        head = before.rstrip()
        if CLAUSE.search(head):
            at = closing(quiet, found.start()) + 1
            continue
        return found.start()


@functools.lru_cache(maxsize=8)
def types_of(folder):
    """The modules in which the crate's types are declared, by their names, without the crate's."""
    found = {}
    for at, _, names in os.walk(f"{folder}/src"):
        for name in sorted(names):
            with open(f"{at}/{name}", encoding="utf-8") as it:
                quiet = quieted(it.read())
            for kind in re.findall(r"(?m)^\s*(?:pub(?:\([^)]*\))?\s+)?(?:struct|enum|trait)\s+(\w+)", quiet):
                found.setdefault(kind, module_of("", os.path.relpath(f"{at}/{name}", folder))[1:])
    return found


def rattle_name(function, header_type, folder):
    """The function's name as rattle has it: a method stands where its type is declared."""
    parts = function.split("::")
    home = types_of(folder).get(header_type)
    return "::".join([parts[0], *home, *parts[-2:]]) if home is not None else function


def changed(edit, folder):
    """The names of the functions in which the edit changes something, or of those that it names, or None where it changes
    something else too, as a type or a constant, and names none, or a definition, which lemmas may rest on."""
    if any(not path.startswith("src/") for path, _, _ in edit.pairs):
        return None
    if edit.goals:
        return set(edit.goals)
    found, texts = set(), {}
    for path, old, new in edit.pairs:
        if path not in texts:
            with open(f"{folder}/{path}", encoding="utf-8") as it:
                texts[path] = it.read()
        text = texts[path]
        at = text.find(old)
        inside = [it for it in functions(edit.crate, path, text) if it.start <= at <= it.end]
        texts[path] = text.replace(old, new)
        if inside:
            function = max(inside, key=lambda it: it.start)
            found.add(rattle_name(function.name, function.of, folder))
        elif at < 0 or not is_import(quieted(text), at):
            return None
    return found or None


def is_import(quiet, at):
    """Whether a `use` item stands at this place."""
    return any(it.start() <= at <= it.end() for it in re.finditer(r"(?m)^[ \t]*(?:pub(?:\([^)]*\))?[ \t]+)?use\b[^;]*;", quiet))
