"""The record of a crate's edits, crates/CRATE/wrong-bodies/tried.

Its first line is the kit's: its name and its logic, which refused the edits. Then each edit has a line:

 FILE edit=S function=S heads=S,S definitions=S,S tried=S seconds=N open=FUNCTION: GOAL; GOAL

 edit, function, heads, definitions   the sums of sums.py; the first of two is over the edit's own crate, the second over those below it
 tried      one sum over the text on which the edit was really tried: function, heads and definitions. If it is the sum over the present
            text, the edit was tried on it. Else the line was carried over from that text. `carried-from-S` is the older form of a text's
            sum, over a whole crate: which edits were tried on it isn't known.
 seconds    processor seconds of the trial, or the edit's share if several were tried together; `?` if they weren't counted
 open       the goals that the check left open and that are clauses, each function's behind its name. If none was a clause: what a loop
            or a type keeps true, or else `no clause`.

A control has `proved=FUNCTION` in place of `open=`: the function whose proof the check accepted."""
import os

from read_definitions.texts import ROOT

from .kit import logic_of
from .sums import PARTS, whole

NO_CLAUSE = "no clause"


class Line:
    """What a record says of one edit."""

    def __init__(self, file, sums, tried, seconds, goals=(), proved=None):
        self.file = file
        self.sums = sums
        self.tried = tried
        self.seconds = seconds
        # pairs of a function and a goal
        self.goals = list(goals)
        self.proved = proved

    def printed(self):
        sums = self.sums
        words = [
            self.file,
            f"edit={sums['edit']}",
            f"function={sums['function']}",
            f"heads={sums['heads']},{sums['heads_below']}",
            f"definitions={sums['definitions']},{sums['definitions_below']}",
            f"tried={self.tried}",
            f"seconds={'?' if self.seconds is None else round(self.seconds)}",
            f"open={goals_printed(self.goals)}" if self.proved is None else f"proved={self.proved}",
        ]
        return " ".join(words)

    @property
    def is_tried_here(self):
        """Whether the edit was tried on the text that these sums are over."""
        return self.tried == whole(self.sums)

    def functions(self):
        """Returns the functions that the check named, each once."""
        return [self.proved] if self.proved else list(dict.fromkeys(it for it, _ in self.goals if it))


def goals_printed(goals):
    """Returns goals as a record has them: each function's behind its name."""
    words, last = [], None
    for function, goal in goals:
        words.append(goal if function == last else f"{function}: {goal}")
        last = function
    return "; ".join(words) or NO_CLAUSE


def goals_read(text):
    """Returns the pairs of functions and goals that such a text has."""
    found, function = [], ""
    for it in text.split("; ") if text != NO_CLAUSE else []:
        head, colon, goal = it.partition(": ")
        function = head if colon else function
        found.append((function, goal if colon else head))
    return found


def line_read(text):
    """Returns what a line says, and nothing if it has another form."""
    file, *words = text.split(" ", 7)
    said = dict(it.partition("=")[::2] for it in words)
    if len(words) != 7 or [*said][:6] != ["edit", "function", "heads", "definitions", "tried", "seconds"]:
        return None
    pairs = [said["heads"].partition(",")[::2], said["definitions"].partition(",")[::2]]
    sums = dict(zip(PARTS, [said["edit"], said["function"], *pairs[0], *pairs[1]]))
    seconds = int(said["seconds"]) if said["seconds"].isdigit() else None
    return Line(file, sums, said["tried"], seconds, goals_read(said.get("open", NO_CLAUSE)), said.get("proved"))


def record_file(crate):
    return f"{ROOT}/crates/{crate}/wrong-bodies/tried"


class Record:
    """A crate's record: the line of the kit, and what it says of each edit by the edit's file."""

    def __init__(self, crate, kit, lines=()):
        self.crate = crate
        self.kit = kit
        self.lines = {it.file: it for it in lines}

    def is_of(self, kit):
        """Returns whether a kit of the same logic wrote it."""
        return logic_of(self.kit) == logic_of(kit)

    def write(self):
        # (a record that is replaced is whole at any moment)
        path = record_file(self.crate)
        with open(f"{path}.new", "w", encoding="utf-8") as file:
            file.write("\n".join([self.kit, *(self.lines[it].printed() for it in sorted(self.lines))]) + "\n")
        os.replace(f"{path}.new", path)


def record_of(crate):
    """Returns a crate's record, and an empty one if it has none."""
    if not os.path.isfile(record_file(crate)):
        return Record(crate, "")
    with open(record_file(crate), encoding="utf-8") as file:
        kit, *lines = file.read().splitlines() or [""]
    return Record(crate, kit, [it for it in map(line_read, lines) if it])
