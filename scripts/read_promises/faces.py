"""What a user of a crate can reach: the names that its src/lib.rt exports, each with the file that it stands in."""
import re

ITEM = r'^pub (?:const )?(?:extern "C" )?(?:fn|struct|enum|trait|type|const|static) (\w+)'


def public_crates(tree):
    """Returns the crates that have a face: all but tests, and what only tests use."""
    return [it for it in tree.crates if not re.search("_tests$|^orc_test_", it)]


def module_of(path):
    """Returns the module that a file is, as the names on the way to it from its crate."""
    parts = path.split("/src/")[1][: -len(".rt")].split("/")
    return tuple(parts[:-1] if parts[-1] in ("lib", "main", "mod") else parts)


def leaves(text):
    """Yields what a `use` tree brings: for each name the way to it, and what it is called there."""
    head, brace, rest = text.strip().partition("{")
    if not brace:
        path, _, other = head.partition(" as ")
        path = tuple(path.strip().split("::"))
        yield path, other.strip() or path[-1]
        return
    depth, part = 0, ""
    for letter in rest.rpartition("}")[0] + ",":
        depth += (letter == "{") - (letter == "}")
        if letter != "," or depth:
            part += letter
        elif part.strip():
            for path, name in leaves(part):
                yield tuple(it for it in head.strip().split("::") if it) + path, name
            part = ""
        else:
            part = ""


class Face:
    """The names that a crate exports: its own, each by its module, and those that it hands on from other crates."""

    def __init__(self, tree, crate):
        self.crate = crate
        self.sources = {module_of(path): tree.source(path) for path in tree.paths(crate)}
        self.own = set()
        # what a `pub use` names and no source has
        self.missing = []
        # for each other crate the names that are handed on from it, each with what it is called here
        self.handed_on = {}
        if () in self.sources:
            self.export(())

    def files(self):
        """Returns the crate's files in the order of their modules, each behind the one that it is a part of."""
        return [self.sources[it] for it in sorted(self.sources)]

    def export(self, module):
        """Adds what a module has that can be reached from outside of it."""
        text = self.sources[module].text
        for name in re.findall(ITEM, text, re.M) if module else []:
            self.own.add((module, name))
        for name in re.findall(r"^pub mod (\w+)", text, re.M):
            self.export((*module, name))
        for tree in re.findall(r"^pub use ([^;]*);", text, re.M):
            for path, name in leaves(tree):
                self.bring(module, path, name)

    def bring(self, module, path, name):
        """Adds what a `pub use` of a module brings."""
        if len(path) > 1 and path[0] not in ("crate", "self", "super") and (*module, path[0]) not in self.sources:
            self.handed_on.setdefault(path[0], []).append((path[-1], name))
            return
        found = self.find(self.start(module, path), path[-1])
        if found:
            self.own.add(found)
        else:
            self.missing.append("::".join(path))

    def start(self, module, path):
        """Returns the module that the way to a name leads to."""
        way = list(path[:-1])
        at = () if way[:1] == ["crate"] else module[:-1] if way[:1] == ["super"] else module
        return at + tuple(it for it in way if it not in ("crate", "super", "self"))

    def find(self, module, name):
        """Returns the module in which a name stands that another one brings, with the name there."""
        if module not in self.sources:
            return None
        text = self.sources[module].text
        if name in re.findall(ITEM, text, re.M):
            return module, name
        for tree in re.findall(r"^pub use ([^;]*);", text, re.M):
            for path, other in leaves(tree):
                if other == name:
                    return self.find(self.start(module, path), path[-1])
        return None

    def has(self, name):
        """Returns whether a type or a trait of this name is exported. (No crate has two of one name.)"""
        return any(own == name for _, own in self.own)

    def defines(self, name):
        """Returns whether a type or a trait of this name stands in the crate, exported or not."""
        declared = re.compile(rf"^(?:pub(?:\(crate\))? )?(?:struct|enum|trait|type) {name}\b", re.M)
        return any(declared.search(it.text) for it in self.sources.values())
