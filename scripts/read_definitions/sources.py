"""A file of Rust, and the functions in it with their contracts."""
import os
import re

from .texts import ROOT, imports, text_of


def rust_files(crate):
    for at, folders, files in os.walk(f"{ROOT}/crates/{crate}/src"):
        folders.sort()
        for name in sorted(files):
            if name.endswith(".rt"):
                yield os.path.relpath(f"{at}/{name}", ROOT)


def rust_code(text):
    """Returns a Rust text of which comments and attributes are blank."""
    text = re.sub(r"//[^\n]*", lambda it: " " * len(it[0]), text)
    return re.sub(r"^[ ]*#!?\[[^\n]*\]$", lambda it: " " * len(it[0]), text, flags=re.M)


def block_end(text, at):
    """Returns the place behind the bracket that closes the one at this place."""
    depth = 0
    for place in range(at, len(text)):
        if text[place] in "{([":
            depth += 1
        elif text[place] in "})]":
            depth -= 1
            if not depth:
                return place + 1
    return len(text)


class Source:
    """A file of Rust: its text with its comments, and without them at the same places, and where its names come from."""

    def __init__(self, path):
        self.path = path
        self.crate = path.split("/")[1]
        self.whole = text_of(path)
        self.text = rust_code(self.whole)
        self.names = {}
        for it in re.findall(r"ghost use [^;]*;", self.text):
            self.names.update(imports(it))
        self.types = {}
        for it in re.findall(r"^\s*(?:pub(?:\(crate\))? )?use ([^;]*);", self.text, re.M):
            self.types.update(rust_use(it))


def rust_use(text):
    """Returns the names that a Rust `use` brings, each with the crate that it comes from."""
    crate = text.strip().split("::")[0]
    names = re.findall(r"(\w+)(?: as (\w+))?\s*(?=[,}]|$)", text)
    return {other or name: (crate, name) for name, other in names}


class Clause:
    """A clause of a contract: its word, its name, its text, and where in its file it begins and ends."""

    def __init__(self, text, found):
        self.word = found[1]
        # (a clause may have no name, and then it is called by its word)
        self.name = found[2] or found[1]
        self.start = found.start(1)
        self.end = block_end(text, found.end() - 1)
        self.text = text[found.end() : self.end - 1]


class Function:
    """A function with its contract: where it stands, its signature, and its clauses, one by one and by name."""

    def __init__(self, source, owner, name, at):
        self.source = source
        self.owner = owner
        self.name = name
        self.at = at
        self.signature, self.stated, _ = contract(source.text, at)
        self.clauses = {}
        for it in self.stated:
            self.clauses[it.name] = self.clauses.get(it.name, "") + "\n" + it.text


def contract(text, at):
    """Returns of the function that begins at a place of a text: its signature, its clauses, and where its body begins."""
    stop = re.compile(r"\b(?:ensures|requires)\b|[{;]").search(text, block_end(text, text.index("(", at)))
    if not stop:
        return text[at:], [], len(text)
    clauses, place = [], stop.start()
    word = re.compile(r"\s*(ensures|requires)\s*(\w*)\s*\{")
    found = word.match(text, place)
    while found:
        clauses.append(Clause(text, found))
        place = clauses[-1].end
        found = word.match(text, place)
    return text[at : stop.start()], clauses, place


def functions(source):
    """Yields the functions of a file that have clauses."""
    return (it for it in all_functions(source) if it.clauses)


def all_functions(source):
    """Yields the functions of a file, each with the type or trait that it stands in and the head of that."""
    owners = []
    for it in re.finditer(r"^(?:pub(?:\(crate\))? )?(?:impl|trait)\b[^{;]*\{", source.text, re.M):
        head = it[0].rstrip("{").strip()
        owners.append((it.start(), block_end(source.text, it.end() - 1), owner_name(head), head))
    for it in re.finditer(r"\bfn (\w+)\b", source.text):
        owner = [own[2:] for own in owners if own[0] <= it.start() < own[1]]
        yield Function(source, owner[-1] if owner else ("", ""), it[1], it.start())


def impls_of(trait, text):
    """Yields each `impl` of a trait in a text: what it is of, and where it begins and ends."""
    for it in re.finditer(rf"^impl\b[^{{;]*\b{trait}(?:<[^{{;]*>)? for ([^{{;]*?)\s*\{{", text, re.M):
        yield re.sub(r"<.*>", "", it[1]), it.start(), block_end(text, it.end() - 1)


def owner_name(head):
    """Returns what a trait is called, or what an `impl` is of."""
    trait = re.search(r"\btrait (\w+)", head)
    if trait:
        return trait[1]
    depth, rest = 0, ""
    for letter in head.partition("impl")[2]:
        depth += letter == "<"
        rest += letter if not depth else ""
        depth -= letter == ">"
    name = re.search(r"\w+", re.sub(r"&\s*('\w+)?\s*(mut\b)?", "", rest.partition(" for ")[2] or rest))
    return name[0] if name else ""
