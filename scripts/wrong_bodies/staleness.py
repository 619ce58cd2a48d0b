"""Which records are of the present text, and why the others aren't."""
from .edits import edits_of
from .records import record_of
from .sums import PARTS

OWN = {"edit": "the edit", "function": "its function", "heads": "a function or type that it names", "definitions": "a definition"}
# how many edits may be stale by a floor below
MOST_BELOW = 300
BELOW = {"heads_below": "a function or type of a crate below", "definitions_below": "a definition of a crate below"}


class State:
    """What the record of an edit is worth: nothing differs, or which sums do."""

    def __init__(self, edit, sums, line, is_of_kit):
        self.edit = edit
        self.sums = sums
        self.line = line
        self.is_of_kit = is_of_kit
        self.differs = [it for it in PARTS if line and line.sums[it] != sums[it]]

    @property
    def is_valid(self):
        return bool(self.line) and self.is_of_kit and not self.differs

    @property
    def is_stale_below(self):
        """Whether nothing but what stands below the edit's crate has changed: runs of the gate try such edits first, and don't fail."""
        return bool(self.line) and self.is_of_kit and bool(self.differs) and all(it in BELOW for it in self.differs)

    @property
    def is_stale(self):
        """Whether it has to be tried before the crate can land."""
        return not self.is_valid and not self.is_stale_below

    def why(self):
        if not self.line:
            return "no record says that it was tried"
        if not self.is_of_kit:
            return "its record is of a kit of another logic"
        names = [{**OWN, **BELOW}[it] for it in self.differs]
        return f"{' and '.join(names)} changed since it was tried"


def states_of(crate, sums, kit):
    """Returns the states of a crate's edits."""
    record = record_of(crate)
    is_of_kit = bool(record.lines) and record.is_of(kit)
    return [State(it, sums.of(it), record.lines.get(it.file), is_of_kit) for it in edits_of(crate)]


def all_states(crates, sums, kit):
    return [state for it in crates for state in states_of(it, sums, kit)]
