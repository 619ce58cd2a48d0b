"""The functions of a crate with their contracts: which of them users can reach, and the promises of each in the words of its comments."""
import re

from read_definitions.sources import all_functions

from .faces import Face, module_of


class Promise:
    """A comment in a contract, and the clauses that it covers; without a comment, a clause by itself."""

    def __init__(self, words, clauses):
        self.words = words
        self.clauses = clauses

    def names(self):
        return list(dict.fromkeys(it.name for it in self.clauses))


class Call:
    """A function: where it stands, what the check calls it, what a user calls it, and what it promises."""

    def __init__(self, face, function):
        self.function = function
        self.crate = face.crate
        self.module = module_of(function.source.path)
        self.name = function.name
        self.owner, self.head = function.owner
        # the check calls a function of an `impl` by the type, with the trait behind it
        self.parts = parts_of(self.head)
        self.is_public = is_public(face, function, self.module, self.parts)
        self.promises = promises_of(function)
        self.title = titled(self.owner, self.parts, self.name)

    @property
    def word(self):
        """What scripts/definitions calls it."""
        return "::".join(it for it in (self.crate, self.owner, self.name) if it)

    def ensured(self):
        """Returns the names of what it ensures."""
        return [it.name for it in self.function.stated if it.word == "ensures"]

    def conditions(self):
        return [it for it in self.function.stated if it.word == "requires"]

    def place_of(self, clause):
        """Returns where a clause of it stands, and its name."""
        line = self.function.source.text.count("\n", 0, clause.start) + 1
        return f"{self.function.source.path}:{line} {self.word}.{clause.name}"

    def comment(self):
        """Returns the paragraphs of the comment above the function, and the items of its lists."""
        lines = []
        for it in reversed(self.function.source.whole[: self.function.at].split("\n")[:-1]):
            if not it.strip().startswith(("///", "#[")):
                break
            lines.insert(0, it.strip()[len("///") :].strip() if "///" in it else "")
        return [it.replace("\n", " ") for it in re.split(r"\n\n+|\n(?=- )", "\n".join(lines).strip()) if it]


def titled(owner, parts, name):
    """Returns what a user calls a function of these: by its type, and as a function of which trait where it is an `impl`'s."""
    if len(parts) < 2:
        return f"{owner}::{name}" if owner else name
    of = f"<{', '.join(parts[2:])}>" if parts[2:] else ""
    return f"<{parts[0]} as {parts[1]}{of}>::{name}"


def parts_of(head):
    """Returns the words that the check makes the name of an `impl` or a trait of: the type, the trait, and what the trait is applied to."""
    trait = re.search(r"\btrait (\w+)", head)
    if trait or not head:
        return [trait[1]] if trait else []
    start, depth = head.index("impl") + len("impl"), 0
    for at in range(start, len(head)):
        depth += (head[at] == "<") - (head[at] == ">")
        if not depth:
            break
    generic = re.findall(r"(?:^|,)\s*(\w+)\b", head[start + 1 : at])
    trait, of, kind = head[at:].lstrip(">").partition(" for ")
    kind, trait = (kind, trait) if of else (trait, "")
    kind = re.sub(r"&\s*(?:'\w+\s*)?mut\b", "RefMut ", kind.partition("<")[0])
    return [it for it in re.findall(r"\b[A-Z]\w*", f"{kind} {trait}") if it not in generic]


def is_public(face, function, module, parts):
    """Returns whether a user of the crate can reach a function."""
    owner, head = function.owner
    if not owner:
        return (module, function.name) in face.own
    is_of_trait = " for " in head or re.search(r"\btrait \w+", head)
    return is_reached(face, owner, head, parts) and bool(is_of_trait or is_marked(function))


def is_reached(face, owner, head, parts):
    """Returns whether a user of the crate can reach a trait, or what an `impl` is of, by the head of either."""
    if " for " not in head:
        return face.has(owner)
    # (what another crate defines can be reached, and so can a reference)
    return all(face.has(it) or not face.defines(it) for it in parts[:2])


def is_marked(function):
    line = function.source.text[: function.at].rpartition("\n")[2]
    return bool(re.match(r"\s*pub (?!\()", line))


def promises_of(function):
    """Returns what a function ensures, by the comments of its contract: a comment covers the clauses below it, up to the next comment, the
    next blank line, or a condition."""
    found, open_one, place = [], None, function.at
    for clause in function.stated:
        lines = function.source.whole[place : clause.start].split("\n")
        words = comment_of(lines)
        if words or clause.word == "requires" or any(not it.strip() for it in lines[1:-1]):
            open_one = None
        place = clause.end
        if clause.word == "requires":
            continue
        if open_one and not words:
            open_one.clauses.append(clause)
            continue
        found.append(Promise(words, [clause]))
        open_one = found[-1] if words else None
    return found


def comment_of(lines):
    """Returns the words of the comment that stands directly above a clause, of the lines between it and the clause before."""
    words = []
    for it in reversed(lines[1:-1]):
        if not it.strip().startswith("//"):
            break
        words.insert(0, it.strip().lstrip("/").strip())
    return " ".join(words)


def calls_of(tree, crate):
    """Returns the crate's face and its functions, in the order of its modules."""
    face = Face(tree, crate)
    return face, [Call(face, it) for source in face.files() for it in all_functions(source)]
