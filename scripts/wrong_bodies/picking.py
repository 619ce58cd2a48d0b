"""Which edits a run of the gate tries: some, by the commit's hash, and those whose record is of another text."""
import hashlib

from .records import Line
from .trying import run

# the processor seconds that a trial takes, if no record has counted them
USUAL_SECONDS = 70
MOST_STALE = 60


def seconds_of(state):
    """Returns the processor seconds that the trial of an edit takes, by its record."""
    return state.line.seconds if state.line and state.line.seconds is not None else USUAL_SECONDS


def picked(states, key, minutes):
    """Returns as many edits as fit so many processor minutes, those that are stale by a floor below first, in an order that a key gives, with
    the controls of their crates."""
    left = minutes * 60
    found, crates = [], set()
    wrong = [it for it in states if not it.edit.is_control and not it.is_stale]
    for it in sorted(wrong, key=lambda it: (not it.is_stale_below, hashlib.sha256(f"{key} {it.edit}".encode()).hexdigest())):
        with_it = [other for other in states if other.edit.is_control and other.edit.crate == it.edit.crate]
        with_it = [it, *(with_it if it.edit.crate not in crates else [])]
        cost = sum(seconds_of(one) for one in with_it)
        if cost <= left:
            left -= cost
            found += with_it
            crates.add(it.edit.crate)
    return found


def try_some(states, key, minutes, checker, sources):
    """Tries some edits, and returns the exit status. Nothing is written but in a folder of its own."""
    chosen = picked(states, key, minutes)
    benches = run(chosen, checker, sources, lambda bench, outcome: None, with_base=False)
    well, seconds = 0, 0
    for it in benches:
        seconds += sum(one.seconds for one in it.outcomes)
        # (what a control that fails vouches for counts for nothing)
        well += 0 if it.control_failed else sum(not one.why for one in it.outcomes)
    here = {str(it.edit) for it in states if it.is_valid and it.line.is_tried_here}
    here |= {str(one.edit) for it in benches if not it.control_failed for one in it.outcomes if not one.why}
    print(f"{len(here)} of {len(states)} tried on this text, {len(chosen)} of them in this run, in {seconds / 60:.1f} processor minutes")
    print(f"{well} passed, {len(chosen) - well} failed")
    return 0 if well == len(chosen) else 1


def command(stale):
    """Returns the command that tries stale edits and writes their records."""
    return f"scripts/try-wrong-bodies {' '.join(dict.fromkeys(it.edit.crate for it in stale))}"


def too_many(stale, most):
    """Returns what is said of more stale edits than a run of the gate tries."""
    minutes = sum(seconds_of(it) for it in stale) / 60
    return f"{len(stale)} edits are stale, more than {most}: {command(stale)} takes {minutes:.0f} processor minutes"


def try_stale(states, most, checker, sources):
    """Tries the edits whose records are of another text, prints their new lines, and returns the exit status: each fails as stale."""
    stale = [it for it in states if it.is_stale]
    if len(stale) > most:
        print(too_many(stale, most))
        print(f"0 passed, {len(stale)} failed")
        return 1
    by_name = {str(it.edit): it for it in stale}
    lines = []

    def keep(bench, outcome):
        line = None if outcome.why else outcome.line(by_name[str(outcome.edit)].sums)
        if isinstance(line, Line):
            lines.append(f"crates/{bench.crate}/wrong-bodies/tried: {line.printed()}")

    if stale:
        run(stale, checker, sources, keep, with_base=False)
        print("\n".join(sorted(lines)))
        print(f"stale: write their records by {command(stale)}")
    print(f"0 passed, {len(stale)} failed")
    return 1 if stale else 0

