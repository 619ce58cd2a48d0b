"""The wrong bodies beside the clauses that they break, as scripts/promises --wrong-bodies prints them."""
from .edits import edits_of, place_edits

WITHIN = "(refused within)"


def printed(edits):
    return ", ".join(dict.fromkeys(it.printed().replace("`", "") for it in sorted(edits, key=lambda it: (it.of, it.name))))


def called(call):
    """Returns how a function is called in a line: as scripts/definitions does, and by its modules if users can't reach it."""
    return call.word if call.is_public else "::".join([call.crate, *call.module, call.title])


def by_clause(edits):
    """Returns wrong bodies of a function by the clause that each breaks, or by what stands for a clause if none is known."""
    found = {}
    for it in edits:
        found.setdefault(f".{it.clause}" if it.clause else f" {WITHIN}", []).append(it)
    return found


def print_refused(sections):
    """Prints for each function and clause the wrong bodies that break it, and last how many there are."""
    number, covered, is_lost = 0, set(), False
    for section in sections:
        placed, lost = place_edits(section.calls, edits_of(section.crate))
        for call in [it for it in section.calls if it in placed]:
            for clause, edits in sorted(by_clause(placed[call]).items()):
                print(f"{called(call)}{clause}: {printed(edits)}")
                covered.update([(call, clause)] if call.is_public and clause[0] == "." else [])
            number += len(placed[call])
        for it in lost:
            print(f"crates/{it.crate}: the function of {it.file} isn't found")
            is_lost = True
    total = sum(len({clause.name for it in call.promises for clause in it.clauses}) for section in sections for call in section.public)
    print(f"{number} wrong bodies, and {len(covered)} of {total} public clauses have one")
    return 1 if is_lost else 0
