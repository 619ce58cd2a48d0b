"""A crate's public calls with their promises, as scripts/promises CRATE prints them; rows and conditions are the page's, too."""
import re

from read_definitions.texts import wrapped

from .calls import calls_of
from .comments import premise_and_promise

COLUMNS = "| If | Promise | Clauses |\n|---|---|---|\n"
NO_COMMENT = "(no comment)"


def code(words):
    return ", ".join(f"`{it}`" for it in words)


def row(*cells):
    return "|" + "".join(f" {it} |" if it else " |" for it in (it.replace("|", "\\|") for it in cells))


def condition(clause):
    """Returns a condition as it is printed: its name, and its text if that is short."""
    text = " ".join(clause.text.split())
    name = "" if clause.name == clause.word else f"`{clause.name}`"
    return ": ".join(it for it in (name, f"`{text}`" if len(text) <= 60 or not name else "") if it)


def conditions(call):
    """Returns the paragraph on a call's conditions, in a list."""
    found = "; ".join(condition(it) for it in call.conditions())
    return [wrapped(f"Requires {found}.")] if found else []


def table(call):
    """Returns the table of a call's promises."""
    rows = [row(*premise_and_promise(it.words or NO_COMMENT), code(it.names())) for it in call.promises]
    return COLUMNS + "\n".join(rows)


class Section:
    """A crate's face and its public calls."""

    def __init__(self, tree, crate):
        self.crate = crate
        self.face, self.calls = calls_of(tree, crate)
        self.public = [it for it in self.calls if it.is_public and it.promises]

    def uncovered(self):
        """Returns the public clauses that have no comment, each with its call."""
        return [(call, clause) for call in self.public for it in call.promises if not it.words for clause in it.clauses]

    def number_of_clauses(self):
        return sum(len(it.ensured()) for it in self.public)

    def text(self):
        parts = [f"## {self.crate}", wrapped(self.head()), *self.handed_on()]
        parts += [] if self.public else ["No call of it has a clause."]
        for call in self.public:
            comment = [wrapped(it, "  " if it.startswith("- ") else "") for it in call.comment()]
            parts += [f"### `{call.title}`", *comment, *conditions(call), table(call)]
        return "\n\n".join(parts) + "\n"

    def head(self):
        """Returns what the crate says of itself."""
        lines = re.match(r"(?://!.*\n)*", self.face.sources[()].whole)[0].splitlines()
        return " ".join(it[len("//!") :].strip() for it in lines)

    def hands_on(self, name):
        """Returns whether the crate exports something of another crate under this name."""
        return any(other == name for names in self.face.handed_on.values() for _, other in names)

    def handed_on(self):
        """Returns what the crate exports of others, in a list."""
        found = []
        for crate, names in self.face.handed_on.items():
            words = [f"`{name}`" if name == own else f"`{own}` as `{name}`" for own, name in names]
            found.append(f"of {crate} {', '.join(words)}")
        return [wrapped(f"It exports {'; '.join(found)}.")] if found else []
