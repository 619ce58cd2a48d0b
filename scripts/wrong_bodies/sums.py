"""The sums over what the refusal of an edit depends on.

 edit         the edit's file
 function     the function that it changes, with its contract and the head of the `impl` or the trait around it
 heads        signatures and clauses of the functions that this one calls, the types that these texts name, and the constants: those of
              the edit's own crate, and those of the crates below it
 definitions  the definitions of specs/ that the contracts and the types rest on: likewise of the crate, and of those below it

Comments and line breaks are left out. What is called is found by names, so there may be more heads than the function calls. The body of
a function that is called has no part: an edit is refused for what that function promises."""
import os
import re

from read_definitions.sources import rust_files
from read_definitions.texts import ROOT, text_of

from .calls import Calls
from .crates import all_below, libraries
from .functions import Functions
from .reading import Reading
from .spelling import Names, spelled, sum_of

PARTS = ("edit", "function", "heads", "heads_below", "definitions", "definitions_below")


class Sources:
    """The sources as edits depend on them: functions with what they call, and what their contracts rest on."""

    def __init__(self):
        self.tree = Reading()
        self.functions = Functions(self.tree)
        named = libraries()
        self.below = {it: all_below(it, named) for it in named}
        self.calls = Calls(self.functions, self.below)
        self.rests = {}
        self.parts = {}

    def changed(self, edit):
        """Returns the functions in whose text an edit's `old:` texts stand, and what it changes outside of functions: texts of constants,
        with the functions that name these, or else of whole files. (A `use` line changes nothing by itself.)"""
        found, texts = {}, []
        for path, old, _ in edit.pairs:
            path = f"crates/{edit.crate}/{path}"
            places = self.at(path, old)
            if not places and not old.startswith("use "):
                constant = self.constant_at(path, old)
                places = self.naming(edit.crate, constant[0]) if constant else []
                texts.append(constant[1] if constant else self.of_file(path))
            found.update({(it.source.path, it.start): it for it in places})
        return [found[it] for it in sorted(found)], texts

    def constant_at(self, path, old):
        """Returns the name and the text of the constant in whose text a text stands, and nothing if there is none."""
        found = [it for it in self.functions.constants_of(path) if spelled(old) in it[1]]
        return found[0] if found else None

    def naming(self, crate, name):
        """Returns the crate's functions whose bodies name a constant."""
        word = re.compile(rf"\b{name}\b")
        return [it for path in rust_files(crate) for it in self.functions.in_file(path) if word.search(it.code)]

    def at(self, path, old):
        """Returns the functions of a file in whose text a text stands, the innermost ones."""
        if path not in rust_files(path.split("/")[1]):
            return []
        start = self.tree.source(path).whole.find(old)
        if start < 0:
            return []
        inner = [it for it in self.functions.in_file(path) if it.start < start + len(old) and start < it.end]
        return [it for it in inner if not any(it.start < other.start and other.end <= it.end for other in inner)]

    def rest(self, place):
        """Returns the items that a function's contract rests on."""
        key = (place.source.path, place.start)
        if key not in self.rests:
            cited = self.tree.clause_names(place.function, list(place.function.clauses))
            self.rests[key] = self.near_items(place.crate, cited)
        return self.rests[key]

    def near_items(self, crate, cited):
        """Returns these items of a crate and of those below it, with all that they rest on."""
        near = set(self.calls.near(crate))
        closed = self.tree.closure(it for it in cited if it.path.split("/")[1] in near)
        return frozenset(it for it in closed if it.path.split("/")[1] in near)

    def about(self, place):
        """Returns the heads, as pairs of a crate and a text, and the items that a function's proof depends on."""
        key = (place.source.path, place.start)
        if key not in self.parts:
            called = self.calls.called(place)
            heads = {(it.crate, it.heading()) for it in called} | set(self.calls.constants(place))
            heads.update({(place.crate, place.ghosts)} if place.ghosts else ())
            named = self.near_items(place.crate, self.tree.named_in(place.source, place.code))
            self.parts[key] = (heads, frozenset().union(self.rest(place), named, *(self.rest(it) for it in called)))
        return self.parts[key]

    def of_file(self, path):
        """Returns a file's text as a whole."""
        return spelled(text_of(path)) if os.path.isfile(f"{ROOT}/{path}") else path


class Sums:
    """Reckons the sums of edits, of texts in which each new name of a list is read as the old one."""

    def __init__(self, sources, names=None):
        self.sources = sources
        self.names = names or Names()
        self.texts = {}

    def turned(self, text):
        """Returns a short sum over one text."""
        if text not in self.texts:
            self.texts[text] = sum_of(self.names.turned_back(text))
        return self.texts[text]

    def of(self, edit):
        """Returns the sums of an edit by the names of PARTS."""
        places, others = self.sources.changed(edit)
        heads, items = set(), set()
        for it in places:
            more_heads, more_items = self.sources.about(it)
            heads |= more_heads
            items |= more_items
        texts = [it.text() for it in places] + others
        heads |= {(it.path.split("/")[1], self.sources.tree.text(it)) for it in items if it.path.endswith(".rt")}
        definitions = {(it.path.split("/")[1], self.sources.tree.text(it)) for it in items if it.path.endswith(".antt")}
        found = {"edit": sum_of(self.names.turned_back(edit.text)), "function": self.sum_of_all(texts)}
        for word, all_texts in (("heads", heads), ("definitions", definitions)):
            found[word] = self.sum_of_all(text for crate, text in all_texts if crate == edit.crate)
            found[f"{word}_below"] = self.sum_of_all(f"{crate} {text}" for crate, text in all_texts if crate != edit.crate)
        return found

    def sum_of_all(self, texts):
        return sum_of(*sorted(self.turned(it) for it in texts))


def whole(sums):
    """Returns the one sum over the text that an edit was tried on: function, heads and definitions."""
    return sum_of(*(sums[it] for it in PARTS[1:]))
