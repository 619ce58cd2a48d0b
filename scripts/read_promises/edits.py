"""Wrong bodies: which function each changes, and which of its clauses refused it."""
import os
import re

from read_definitions.texts import ROOT, text_of
from wrong_bodies import edits as files
from wrong_bodies.clauses import Broken
from wrong_bodies.records import record_of

# the goals that are clauses of the function itself (in a ring of functions a goal begins with its function's name)
RETURNS = re.compile(r"^(?:\w+-)?returns\b")


class Edit:
    """A wrong body: its name, the function that it changes, the clause that refused it, and of which `impl` it is."""

    def __init__(self, crate, file, path, goal):
        function, _, name = file[: -len(".edit")].partition(".")
        self.crate = crate
        self.file = file
        self.function = function
        self.name = name
        self.path = path
        self.goal = goal
        # the clause that it says to break, with its function; a condition of another function isn't one of this function's clauses
        self.broken = None
        self.clause = None
        self.of = ""

    def printed(self):
        of = " of a reference" if self.of == "RefMut" else f" of `{self.of}`" if self.of else ""
        return f"`{self.name}`{of}"

    def folder(self):
        return f"crates/{self.crate}/wrong-bodies"


def edits_of(crate):
    """Returns a crate's wrong bodies that its record says to be refused."""
    lines = record_of(crate).lines
    return [recorded(it, lines[it.file]) for it in files.edits_of(crate) if it.file in lines and not it.is_control]


def recorded(edit, line):
    """Returns an edit with the first goal that its record says to have been left open, and the first clause that it says to break."""
    path, goal = line.goals[0] if line.goals else ("", "")
    found = Edit(edit.crate, edit.file, path, goal)
    found.broken = Broken(edit.breaks[0]) if edit.breaks else None
    return found


def place_edits(calls, edits):
    """Returns for each call the wrong bodies that it refuses, and those whose function isn't found."""
    placed, lost = {}, []
    for it in edits:
        changed = changed_by(it, calls)
        if changed:
            placed.setdefault(promising(it, changed, calls), []).append(it)
        else:
            lost.append(it)
    return placed, lost


def changed_by(edit, calls):
    """Returns the function that an edit changes, and nothing where none is found."""
    modules, name = edit.path.split("::")[1:-1], edit.path.rpartition("::")[2]
    named = [it for it in calls if it.name == name]
    # (a method is called by its type's module, wherever the `impl` stands)
    found = [it for it in named if it.parts and "".join(it.parts) == (modules or [""])[-1]]
    found = found or [it for it in named if not it.parts and list(it.module) == modules]
    return found[0] if found else at_place(edit, calls)


def at_place(edit, calls):
    """Returns the function in whose text stands what an edit takes away."""
    text = text_of(f"{edit.folder()}/{edit.file}")
    path = f"crates/{edit.crate}/" + re.search(r"^file: (.*)$", text, re.M)[1].strip()
    old = re.search(r"^old: (.*)$", text, re.M)[1]
    at = text_of(path).find(old) if os.path.isfile(f"{ROOT}/{path}") else -1
    found = [it for it in calls if it.function.source.path == path and it.function.at < at]
    return max(found, key=lambda it: it.function.at) if found else None


def promising(edit, changed, calls):
    """Returns the function whose clause refused an edit: the one that it changes, or the trait's of which this is an `impl`."""
    named = clause_of(edit)
    edit.clause = named
    for it in [changed, *of_trait(changed, calls)]:
        own = it.ensured()
        # (where there is one clause the goal doesn't name it)
        if not named and not edit.broken and len(own) == 1 and RETURNS.search(edit.goal):
            edit.clause = own[0]
        if edit.clause in own or (own and not edit.clause):
            edit.of = "" if it is changed else changed.parts[0]
            return it
    return changed


def clause_of(edit):
    """Returns the clause of its function that an edit says to break, or else the one that the first open goal names."""
    if edit.broken:
        return None if edit.broken.is_condition else edit.broken.clause
    named = re.search(r"-clause-(\w+)$", edit.goal) if RETURNS.search(edit.goal) else None
    return named[1] if named else None


def of_trait(changed, calls):
    """Returns the function of the trait of which a function is an `impl`'s, in a list, where the crate has that trait."""
    return [it for it in calls if len(changed.parts) > 1 and it.parts == changed.parts[1:2] and it.name == changed.name]
