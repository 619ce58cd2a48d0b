"""What edits have to say and be, beside being refused: faults of their form, which show without a trial."""
import os

from read_definitions.texts import ROOT
from read_promises.calls import calls_of

from .clauses import Broken, clause_fault, ensured, is_of
from .missing import Words

# how many edits of the old form may be refused for no clause
MOST_FOR_NO_CLAUSE = 30
LEAST_CONTROLS = 2
NAMED = "scripts/kept/named-wrong-bodies"


class Forms:
    """Looks at edits of the present sources."""

    def __init__(self, sources):
        self.sources = sources
        self.words = Words(sources)
        self.public = {}

    def faults(self, edit):
        """Returns what is wrong with an edit, as texts."""
        fault = edit.form_fault() or edit.texts(f"{ROOT}/crates/{edit.crate}")[1]
        if fault:
            return [f"BAD EDIT: {fault}"]
        missing = self.words.missing(edit)
        if missing:
            return [f"BAD EDIT: it names what isn't there: {', '.join(missing)}"]
        places, _ = self.sources.changed(edit)
        found = [clause_fault(Broken(it), places, self.sources) for it in edit.breaks]
        found += [self.public_fault(it) for it in edit.public]
        if edit.breaks and not edit.public and places and not any(self.is_public(it) for it in places):
            found.append("no user reaches the function that it changes, and no 'for:' line names a public clause that rests on it")
        return [f"BAD EDIT: {it}" for it in found if it]

    def is_public(self, place):
        return (place.source.path, place.function.at) in self.public_places(place.crate)

    def public_places(self, crate):
        """Returns where the functions begin that a user of the crate can reach."""
        if crate not in self.public:
            self.public[crate] = {(it.function.source.path, it.function.at) for it in calls_of(self.sources.tree, crate)[1] if it.is_public}
        return self.public[crate]

    def public_fault(self, text):
        """Returns why a `for:` line names no public clause, and nothing if it does."""
        crate, _, rest = text.partition("::")
        if crate not in self.sources.below or not rest:
            return f"{text}: no crate of crates.txt is named {crate}"
        broken = Broken(rest)
        found = [it for it in self.sources.functions.named(crate, broken.name) if is_of(broken, it) and self.is_public(it)]
        if not found:
            return f"{text}: {crate} has no such function that a user reaches"
        names = [name for it in found for name in ensured(it, self.sources)]
        return None if broken.clause in names else f"{text}: its clauses are {', '.join(names)}"

    def crate_faults(self, crate, edits):
        """Returns what a crate with wrong bodies of the new form lacks, as texts."""
        wrong = [it for it in edits if it.breaks]
        if not wrong:
            return []
        changed = {(place.source.path, place.start) for it in wrong for place in self.sources.changed(it)[0]}
        controls = [it for it in edits if it.is_control]
        there = [it for it in controls if any((place.source.path, place.start) in changed for place in self.sources.changed(it)[0])]
        if len(there) >= LEAST_CONTROLS:
            return []
        return [f"crates/{crate} has {len(there)} controls at functions that its wrong bodies change, and needs {LEAST_CONTROLS}"]


def named_faults():
    """Returns which wrong bodies that the kept list names aren't there."""
    if not os.path.isfile(f"{ROOT}/{NAMED}"):
        return []
    with open(f"{ROOT}/{NAMED}", encoding="utf-8") as file:
        lines = [it.split() for it in file if it.strip() and not it.startswith("#")]
    return [f"{NAMED}: {it[0]}: there is no {it[-1]}" for it in lines if len(it) != 2 or not os.path.isfile(f"{ROOT}/{it[1]}")]


def reason_faults(edits):
    """Returns which edits say that no clause refuses them, if there are too many."""
    found = [str(it) for it in edits if it.why]
    if len(found) <= MOST_FOR_NO_CLAUSE:
        return []
    return [f"refused for no clause, {len(found)} of {MOST_FOR_NO_CLAUSE} at most: {' '.join(found)}"]
