"""Compares records with the text, which takes seconds."""
import os

from .forms import Forms, named_faults, reason_faults
from .picking import MOST_STALE, command, too_many
from .staleness import MOST_BELOW


def print_stale(states):
    """Prints each edit whose record is of another text, with the command that mends it."""
    for it in states:
        if it.is_stale:
            only_definitions = all(part.startswith("definitions") for part in it.differs) and it.line and it.is_of_kit
            carry = f" (or scripts/try-wrong-bodies --carry {it.edit.crate})" if only_definitions else ""
            print(f"{it.edit}: {it.why()}: scripts/try-wrong-bodies {it.edit.crate}{carry}")


def form_faults(states, sources, crates):
    """Returns the faults of edits and crates, as lines."""
    forms = Forms(sources)
    edits = [it.edit for it in states]
    found = [f"{it}: {fault}" for it in edits for fault in forms.faults(it)]
    for crate in crates:
        found += forms.crate_faults(crate, [it for it in edits if it.crate == crate])
    return found + named_faults() + reason_faults(edits)


def compare(states, sources, crates):
    """Prints what is stale and what has a fault, and how many edits stand, and returns the exit status."""
    print_stale(states)
    faults = form_faults(states, sources, crates)
    for it in faults:
        print(it)
    old = [it for it in states if not it.edit.is_new_form]
    tried = [it for it in states if it.is_valid and it.line.is_tried_here]
    print(f"{len(tried)} of {len(states)} tried on this text")
    below = [it for it in states if it.is_stale_below]
    print(f"{len(old)} of the old form")
    print(f"{len(below)} stale by a floor below")
    if len(below) > MOST_BELOW:
        faults.append(f"more than {MOST_BELOW} are stale by a floor below: {command(below)}")
        print(faults[-1])
    count(states, crates)
    stale = [it for it in states if it.is_stale]
    if len(stale) > MOST_STALE:
        print(too_many(stale, MOST_STALE))
    print(f"{len(states) - len(stale)} passed, {len(stale) + len(faults)} failed")
    # (the gate goes on if all that is wrong is some stale edits, which it tries)
    return 1 if faults or len(stale) > MOST_STALE else 3 if stale else 0


def count(states, crates):
    """Adds how many wrong bodies of each crate are refused to the file of counts, if there is one."""
    path = os.environ.get("COUNTED")
    if not path:
        return
    with open(path, "a", encoding="utf-8") as file:
        for crate in crates:
            refused = sum(not it.is_stale and not it.edit.is_control for it in states if it.edit.crate == crate)
            file.write(f"wrong-bodies {crate} {refused}\n")
