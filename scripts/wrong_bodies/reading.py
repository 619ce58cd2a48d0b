"""The definitions and types of the repository, as scripts/definitions reads them, with what was found once kept."""
import re

from read_definitions.sources import impls_of, rust_files
from read_definitions.tree import Tree

from .spelling import spelled


class Reading(Tree):
    """A tree that keeps what it was asked for: the same types and words come up for many edits."""

    def __init__(self):
        super().__init__()
        self.impls = {}
        self.rust_names = {}
        self.texts = {}

    def paths(self, crate):
        """Returns a crate's source files."""
        return rust_files(crate)

    def rust_name(self, source, word):
        key = (source.path, word)
        if key not in self.rust_names:
            self.rust_names[key] = super().rust_name(source, word)
        return self.rust_names[key]

    def impls_of(self, trait):
        """Returns each `impl` of a trait outside of tests: its file, what it is of, and where it begins and ends."""
        if trait not in self.impls:
            crates = [it for it in self.crates if not re.search("_tests$|^orc_test_", it)]
            paths = [path for it in crates for path in rust_files(it) if trait in self.source(path).text]
            self.impls[trait] = [(path, *it) for path in paths for it in impls_of(trait, self.source(path).text)]
        return self.impls[trait]

    def words_in(self, text, items):
        named, found = set(re.findall(r"\w+", text)), set()
        for trait in [it for it in items if it.is_trait]:
            words = named & set(re.findall(r"\bghost (\w+)\s*:", "\n".join(trait.lines.values())))
            for path, owner, start, end in self.impls_of(trait.name) if words else []:
                found.update(self.say(path, owner, start, end, words))
        return found

    def text(self, item):
        """Returns an item's text with its crate, without comments and line breaks."""
        if item not in self.texts:
            lines = [line for _, line in item.header] + [item.lines[it] for it in sorted(item.lines)]
            text = "\n".join(lines)
            text = spelled(text) if item.path.endswith(".rt") else " ".join(text.split())
            self.texts[item] = f"{item.path.split('/')[1]} {item.name} {text}"
        return self.texts[item]
