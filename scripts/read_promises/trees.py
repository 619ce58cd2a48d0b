"""Where sources are read: in the working tree, and in an older commit."""
import re

from read_definitions.sources import Source, rust_code, rust_files
from read_definitions.texts import crates


class WorkingTree:
    """The sources as they stand in the folders, read as they are asked for."""

    def __init__(self):
        self.crates = crates()
        self.sources = {}

    def paths(self, crate):
        return list(rust_files(crate))

    def source(self, path):
        if path not in self.sources:
            self.sources[path] = Source(path)
        return self.sources[path]


class OlderSource:
    """A file of Rust of an older commit: its text with its comments, and without them at the same places."""

    def __init__(self, path, text):
        self.path = path
        self.crate = path.split("/")[1]
        self.whole = text
        self.text = rust_code(text)


class OlderTree:
    """The sources of an older commit, made of the texts of its files by their paths."""

    def __init__(self, texts):
        self.crates = re.findall(r"^(\w+)[^:#\n]*:", texts.get("crates.txt", ""), re.M)
        self.sources = {path: OlderSource(path, text) for path, text in texts.items() if path.endswith(".rt")}

    def paths(self, crate):
        return sorted(it for it in self.sources if it.startswith(f"crates/{crate}/src/"))

    def source(self, path):
        return self.sources[path]
