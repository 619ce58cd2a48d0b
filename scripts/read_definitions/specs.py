"""A file of definitions, cut into what it defines."""
import re

from .texts import imports, text_of

SIGNATURE = re.compile(r"^((?:(?:abbrev|pub|unfoldable) )*)(\S+) :(?=\s|$)")


class Item:
    """A definition, or a law: where it stands, its lines by their numbers, and what it cites."""

    def __init__(self, path, name, is_law):
        self.path = path
        self.name = name
        self.is_law = is_law
        self.lines = {}
        # .. of which these begin an equation, a field or a constructor
        self.starts = []
        # the header of the module that it stands in, and the first and the last line of what it stands within, a module or `mutual`
        self.header = []
        self.within = None
        self.kind = "signature"
        # whether it is a trait of Rust
        self.is_trait = False
        self.cites = None

    def __lt__(self, other):
        return (self.path, min(self.lines), self.name) < (other.path, min(other.lines), other.name)


def code(line):
    """Returns a line without its comment."""
    return re.sub(r"(^|\s)--(\s.*)?$", "", line)


def chunks(lines):
    """Returns the lines, as (number, text), in lists that begin where a text isn't indented."""
    found = []
    for number, line in lines:
        if not line.strip():
            continue
        if line[0] == " " or re.match(r"[}\])]", line):
            if found:
                found[-1].append((number, line))
        else:
            found.append([(number, line)])
    return found


class Definitions:
    """A file of specs/: its items by name, the types that its constructors belong to, and where other names come from."""

    def __init__(self, path):
        self.path = path
        self.items = {}
        self.constructors = {}
        self.names = {}
        self.lines = text_of(path).split("\n")
        self.read([(at, code(line)) for at, line in enumerate(self.lines, 1)], [], None, False)

    def read(self, lines, header, within, is_seen):
        """Reads lines, which stand behind the header of a module and within a module or `mutual`, and what is there is seen or not."""
        last = None
        for chunk in chunks(lines):
            first = chunk[0][1]
            inner = [(at, line[2:]) for at, line in chunk[1:]]
            if re.match(r"(pub )?use ", first):
                self.names.update(imports(" ".join(line.strip() for _, line in chunk)))
            elif first.startswith("module "):
                end = next(it for it, (_, line) in enumerate(chunk, 1) if line.rstrip().endswith("where"))
                place = (chunk[0][0], chunk[end - 1][0])
                self.read([(at, line[2:]) for at, line in chunk[end:]], header + chunk[:end], place, is_seen)
            elif re.match(r"(abbrev )?mutual$", first):
                self.read(inner, header, (chunk[0][0], chunk[0][0]), first.startswith("abbrev"))
            elif re.match(r"infix|(pub )?mod ", first):
                continue
            else:
                last = self.add(chunk, last)
                if last:
                    last.header, last.within, last.is_law = header, within, last.is_law and not is_seen

    def add(self, chunk, last):
        """Adds a record, data, a signature, or an equation of the last signature."""
        first = chunk[0][1]
        named = re.match(r"(?:pub )?(record|data) (\S+)", first)
        signature = SIGNATURE.match(first)
        if named:
            last = self.items[named[2]] = Item(self.path, named[2], False)
            last.kind = named[1]
            for _, line in chunk[1:]:
                constructor = re.match(r"  (\S+) :", line)
                if named[1] == "data" and constructor:
                    self.constructors[constructor[1]] = last
        elif signature:
            seen = "abbrev" in signature[1] or "unfoldable" in signature[1]
            last = self.items[signature[2]] = Item(self.path, signature[2], not seen)
        if last:
            last.starts.append(chunk[0][0])
            last.lines.update(dict(chunk))
        return last
