"""The trial of edits: what the check says of a crate with an edit in it, and whether that is what the edit says of itself."""
from read_definitions.texts import text_of

from .clauses import not_open
from .goals import NOT_PROVED, PROVED, UNPROVED, UNREAD, all_left, moved_answers, open_in
from .naming import known_name
from .records import Line
from .sums import whole
from .trees import put

# how many edits a check takes at most
TOGETHER = 8
NO_CLAUSE = "REFUSED FOR NO CLAUSE"


class Outcome:
    """What came of an edit: the goals that were left open, or the function whose proof stood, or why it counts for nothing."""

    def __init__(self, edit, seconds, goals=(), proved=None, why=None, is_final=True):
        self.edit = edit
        # whether moving answers can't change it
        self.is_final = is_final
        self.seconds = seconds
        self.goals = goals
        self.proved = proved
        self.why = why

    def line(self, sums):
        return Line(self.edit.file, sums, whole(sums), self.seconds, self.goals, self.proved)


class Tester:
    """Tries edits in a tree of their crate's."""

    def __init__(self, checker, sources):
        self.checker = checker
        self.sources = sources

    def body_names(self, edit, known):
        """Returns what the check calls the functions whose bodies alone an edit changes, and none if it may change more."""
        places, others = self.sources.changed(edit)
        if others or not all(self.is_in_body(it, edit) for it in places):
            return []
        return [known_name(it, self.sources.tree, known) for it in places]

    def is_in_body(self, place, edit):
        """Returns whether what an edit changes in a function is part of its body."""
        path = place.source.path.partition(f"{edit.crate}/")[2]
        starts = [place.source.whole.find(old) for file, old, _ in edit.pairs if file == path]
        return all(it > place.body for it in starts if place.start <= it < place.end)

    def batches(self, edits, known):
        """Returns edits in lists that one check takes: in each, every edit changes the body of a function of its own."""
        found, alone = [], []
        for edit in edits:
            names = self.body_names(edit, known)
            if len(names) != 1:
                alone.append([edit])
                continue
            fits = [it for it in found if len(it) < TOGETHER and names[0] not in it]
            if not fits:
                fits = [{}]
                found += fits
            fits[0][names[0]] = edit
        return [list(it.values()) for it in found] + alone

    def apply(self, edit, folder):
        """Changes the files of a tree as an edit says, and returns why that can't be."""
        why = edit.form_fault() or self.changed_meanwhile(edit, folder)
        texts, fault = (None, why) if why else edit.texts(folder)
        if not fault:
            put(folder, texts)
        return fault

    def changed_meanwhile(self, edit, folder):
        """Returns whether the text that an edit's sums are over isn't the tree's, as a reason."""
        for path in {it[0] for it in edit.pairs if it[0].endswith(".rt")}:
            source = self.sources.tree.sources.get(f"crates/{edit.crate}/{path}")
            try:
                with open(f"{folder}/{path}", encoding="utf-8") as file:
                    differs = source and file.read() != source.whole
            except OSError:
                continue
            if differs:
                return f"{path} was changed while edits were tried"
        return "the edit was changed while it was tried" if text_of(edit.path) != edit.text else None

    def judged(self, edit, goals):
        """Returns why an edit isn't refused for what it says, and nothing if it is."""
        if not edit.is_new_form:
            return None if goals else NO_CLAUSE
        missing = not_open(edit, goals, self.sources.changed(edit)[0], self.sources)
        return f"REFUSED FOR ANOTHER CLAUSE, and not for {', '.join(missing)}" if missing else None

    def alone(self, tree, edit, known):
        """Tries one edit in a tree, and returns its outcome. If answers only have to move, they are moved, and the check decides again."""
        folder = f"{tree}/crates/{edit.crate}"
        why = self.apply(edit, folder)
        if why:
            return Outcome(edit, 0, why=f"BAD EDIT: {why}")
        names, seconds = self.body_names(edit, known), 0
        for _ in range(2):
            said = self.check(tree, edit.crate, names)
            seconds += said.seconds
            outcome = self.outcome(edit, names, said, folder)
            moved = {} if outcome.is_final else moved_answers(said.text, self.unproved(edit, names, said.text), folder)
            if not moved:
                break
            put(folder, moved)
        if edit.why and (outcome.why or "").startswith(NO_CLAUSE):
            outcome = Outcome(edit, 0)
        outcome.seconds = seconds
        return outcome

    def check(self, tree, crate, names):
        """Checks a crate, or these functions alone; where the check knows none of such a name, the whole crate."""
        said = self.checker.check(tree, crate, names)
        if names and said.status not in (0, 1):
            said = self.checker.check(tree, crate)
        return said

    @staticmethod
    def unproved(edit, names, said):
        """Returns the functions that aren't proved and that an edit changes; of the old form, any if none of those is among them."""
        failed = list(dict.fromkeys(UNPROVED.findall(said)))
        own = [it for it in failed if it in names] if names else failed
        return own if own or edit.is_new_form else failed

    def outcome(self, edit, names, said, folder):
        """Returns what a check says of the edit that is in its tree."""
        unread = UNREAD.search(said.text)
        if unread:
            return Outcome(edit, 0, why=f"BAD EDIT: its text can't be read: {unread.group(0)[:200]}")
        if said.status == 0:
            proved = ",".join(names) or edit.function
            return Outcome(edit, 0, proved=proved) if edit.is_control else Outcome(edit, 0, why=f"NOT REFUSED: {proved} is proved with it")
        if said.status != 1 or not NOT_PROVED.search(said.text):
            return Outcome(edit, 0, why=f"BAD EDIT: it didn't reach the prover: {said.text[-300:]}")
        own = self.unproved(edit, names, said.text)
        goals = open_in(said.text, own, folder)
        left = all_left(said.text, own, folder)
        if edit.is_control:
            return Outcome(edit, 0, goals, why=f"CONTROL NOT PROVED: {left}", is_final=False)
        why = self.judged(edit, goals)
        return Outcome(edit, 0, goals, why=why and f"{why}: {left}", is_final=not why)

    def together(self, tree, edits, known):
        """Applies edits to a tree, and returns the outcomes of those that one check decides, and which are left."""
        crate, folder = edits[0].crate, f"{tree}/crates/{edits[0].crate}"
        if any([self.apply(it, folder) for it in edits]):
            return [], edits
        names = {it: self.body_names(it, known)[0] for it in edits}
        said = self.checker.check(tree, crate, list(names.values()))
        if said.status not in (0, 1) or UNREAD.search(said.text) or (said.status and not NOT_PROVED.search(said.text)):
            return [], edits
        found = []
        for it in edits:
            outcome = self.one_of(it, names[it], said, folder)
            found += [outcome] if outcome else []
            if outcome:
                outcome.seconds = said.seconds / len(edits)
        decided = [it.edit for it in found]
        return found, [it for it in edits if it not in decided]

    def one_of(self, edit, name, said, folder):
        """Returns what came of one edit of several in a check, and nothing if it has to be tried alone."""
        if edit.is_control:
            return Outcome(edit, 0, proved=name) if said.status == 0 or name in PROVED.findall(said.text) else None
        if name not in UNPROVED.findall(said.text):
            return None
        goals = open_in(said.text, [name], folder)
        return Outcome(edit, 0, goals) if goals and not self.judged(edit, goals) else None
