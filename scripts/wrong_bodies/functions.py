"""The functions of the sources, each with the place where its text begins and ends, and found by their names."""
import re

from read_definitions.sources import Function, block_end, contract, owner_name, rust_files

from .spelling import plain, spelled

OWNER = re.compile(r"^(?:pub(?:\(crate\))? )?(?:unsafe )?(?:impl|trait)\b[^{;]*\{", re.M)
CONSTANT = re.compile(r"^\s*(?:pub(?:\(crate\))? )?(?:const|static) ([A-Z]\w*)\s*:", re.M)
GHOST = re.compile(r"\bghost (?!use\b)\w+\s*[:=]\s*\{")


class Place:
    """A function where it stands: from its first attribute to the end of its body, with the `impl` or the trait around it."""

    def __init__(self, source, code, owner, found):
        name, head, self.ghosts = owner
        self.source = source
        self.crate = source.crate
        self.name = found[1]
        self.owner = name
        self.head = head
        self.function = Function(source, (name, head), found[1], found.start())
        self.body = contract(code, found.start())[2]
        opens = re.compile(r"\s*\{").match(code, self.body)
        self.end = block_end(code, opens.end() - 1) if opens else code.find(";", self.body) + 1
        self.start = start_of(source.whole, found.start())
        self.code = code[self.body : self.end]

    def text(self):
        """Returns all of the function with the head that it stands in."""
        return f"{spelled(self.head)} {spelled(self.source.whole[self.start : self.end])}"

    def heading(self):
        """Returns the function's signature and its clauses, with the head that they stand in."""
        return f"{spelled(self.head)} {spelled(self.source.whole[self.start : self.body])}"

    def trait(self):
        """Returns the trait of which this function is an `impl`'s, or nothing."""
        found = re.match(r"\s*(?:\w+::)*(\w+)\s*(?:<[^{;]*>)?\s+for\b", behind_generics(self.head.partition("impl")[2]))
        return found[1] if found else ""


def behind_generics(text):
    """Returns the text behind the brackets that an `impl` begins with."""
    depth = 0
    for at, letter in enumerate(text):
        depth += (letter == "<") - (letter == ">" and text[at - 1] != "-")
        if not depth and letter != "<" and (letter == ">" or at == 0):
            return text[at + 1 :] if letter == ">" else text
    return text


def start_of(text, at):
    """Returns where the line of a function begins, or the first of the attributes above it."""
    start = text.rfind("\n", 0, at) + 1
    while True:
        above = text.rfind("\n", 0, max(start - 1, 0)) + 1
        if start == 0 or not re.match(r"\s*#\[", text[above:start]):
            return start
        start = above


def places_in(source):
    """Yields the functions of a file."""
    code = plain(source.whole)
    owners = []
    for it in OWNER.finditer(code):
        end = block_end(code, it.end() - 1)
        head = it[0].rstrip("{").strip()
        owners.append((it.start(), end, (owner_name(head), head, ghosts_of(source, code, it.end(), end))))
    for it in re.finditer(r"\bfn (\w+)\b", code):
        within = [own[2] for own in owners if own[0] <= it.start() < own[1]]
        yield Place(source, code, within[-1] if within else ("", "", ""), it)


def ghosts_of(source, code, start, end):
    """Returns what an `impl` or a trait says in its ghost members, which contracts in it may name."""
    found, it = [], GHOST.search(code, start, end)
    while it:
        close = block_end(code, it.end() - 1)
        found.append(spelled(source.whole[it.start() : close]))
        it = GHOST.search(code, close, end)
    return " ".join(found)


def constants_in(source):
    """Yields the constants of a file, each with its text."""
    code = plain(source.whole)
    for it in CONSTANT.finditer(code):
        end = it.end()
        while end < len(code) and code[end] != ";":
            end = block_end(code, end) if code[end] in "([{" else end + 1
        yield it[1], spelled(source.whole[it.start() : end + 1])


class Functions:
    """The functions and constants of all crates, read as they are asked for, and found by name."""

    def __init__(self, tree):
        self.tree = tree
        self.files = {}
        self.by_crate = {}
        self.constants = {}
        self.in_files = {}

    def in_file(self, path):
        if path not in self.files:
            self.files[path] = list(places_in(self.tree.source(path)))
        return self.files[path]

    def named(self, crate, name):
        """Returns the crate's functions of this name."""
        if crate not in self.by_crate:
            found = self.by_crate[crate] = {}
            for path in rust_files(crate):
                for it in self.in_file(path):
                    found.setdefault(it.name, []).append(it)
        return self.by_crate[crate].get(name, [])

    def constants_of(self, path):
        """Returns the names and the texts of a file's constants."""
        if path not in self.in_files:
            self.in_files[path] = list(constants_in(self.tree.source(path))) if path.endswith(".rt") else []
        return self.in_files[path]

    def constant(self, crate, name):
        """Returns the texts of the crate's constants of this name."""
        if crate not in self.constants:
            found = self.constants[crate] = {}
            for path in rust_files(crate):
                for own, text in self.constants_of(path):
                    found.setdefault(own, []).append(text)
        return self.constants[crate].get(name, [])
