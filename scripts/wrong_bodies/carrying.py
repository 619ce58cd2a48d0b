"""Carries records over to a text that says the same in other words.

A line is carried over if the edit, the function that it changes with its contract, and the heads of what this calls are word for word
what they were, each name of scripts/kept/names-turned-back read as the old one. Definitions may differ, and an edit of the old form may
have become one of the new form, if the check left open what it says to break. The line gets the new sums, and keeps its `tried=`, which
says on which text the edit was really tried. Where crates were cut, an older commit says which heads these were (older.py)."""
from .clauses import not_open
from .edits import edits_of
from .older import Older
from .records import Line, Record, record_of
from .spelling import kept_names, sum_of
from .sums import Sums

SAME = {"edit": "the edit", "function": "its function", "heads": "a head", "heads_below": "a head of a crate below"}


def carried(line, sums, names):
    """Returns a record's line with new sums, and its goals by their new names."""
    goals = [(names.brought_forward(function), names.brought_forward(goal)) for function, goal in line.goals]
    proved = names.brought_forward(line.proved) if line.proved else line.proved
    return Line(line.file, sums, line.tried, line.seconds, goals, proved)


def carry(crates, sources, kit, rev=None):
    """Carries over what it can of these crates' records, and returns how many lines it carried, and why it couldn't carry others."""
    names = kept_names()
    present, turned = Sums(sources), Sums(sources, names)
    older = Older(rev, sources, names) if rev else None
    count, refused = 0, []
    for crate in crates:
        old = record_of(crate)
        if not old.lines:
            continue
        if not old.is_of(kit):
            refused.append(f"{crate}: its record is of a kit of another logic")
            continue
        record = Record(crate, old.kit, old.lines.values())
        for edit in edits_of(crate):
            line, why = carried_line(edit, old, present, turned, names, older)
            if line:
                record.lines[edit.file] = line
                count += 1
            refused += [f"{edit}: {why}"] if why else []
        record.lines = {it.file: record.lines[it.file] for it in edits_of(crate) if it.file in record.lines}
        if [it.printed() for it in record.lines.values()] != [it.printed() for it in old.lines.values()]:
            record.write()
    return count, refused


def differing(line, sums):
    return [words for it, words in SAME.items() if line.sums[it] != sums[it]]


def is_named_since(edit, line, present):
    """Returns whether an edit was tried in the old form, and has only said since then what it breaks, which the trial left open."""
    if not edit.breaks or line.sums["edit"] != sum_of(present.names.turned_back(edit.text_of_old_form())):
        return False
    return not not_open(edit, line.goals, present.sources.changed(edit)[0], present.sources)


def carried_line(edit, old, present, turned, names, older=None):
    """Returns the line that is carried over for an edit, or why none is, or neither if its line is of the present text."""
    line = old.lines.get(edit.file) or old.lines.get(names.turned_back(edit.file))
    if not line:
        return None, "no record says that it was tried"
    sums = present.of(edit)
    if line.file == edit.file and line.sums == sums:
        return None, None
    # (a line may be of a text after the names were changed, or before)
    differs = min((differing(line, it) for it in (sums, turned.of(edit))), key=len)
    if SAME["edit"] in differs and is_named_since(edit, line, present):
        differs.remove(SAME["edit"])
    if differs and older:
        differs = older.differing(edit, line)
    if differs:
        return None, f"{' and '.join(differs)} isn't word for word what it was"
    line = carried(line, sums, names)
    line.file = edit.file
    return line, None
