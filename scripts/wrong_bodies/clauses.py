"""The clauses that edits break, by the names that scripts/definitions uses, and which goals of a check stand for them."""
import re

REQUIRES = re.compile(r"^(\w+)(?:-\w+)*?-requires\b")
CLAUSE_START = re.compile(r"^returns\b|^\w+(?:-\w+)*?-requires\b|^(?:loop|invariant_of)-")


class Broken:
    """What a line `breaks: CALL.CLAUSE` names: a function by its type and name, whether it is a condition, and the clause."""

    def __init__(self, text):
        call, _, clause = text.partition(".")
        self.text = text
        self.is_condition = clause == "requires" or clause.startswith("requires.")
        self.clause = clause.partition(".")[2] if self.is_condition else clause
        *owner, self.name = call.split("::")
        self.owner = owner[-1] if owner else ""


def ensured(place, sources):
    """Returns the names of what a function ensures, with what the trait's function ensures if it is an `impl`'s."""
    return [it.name for one in (place, *of_trait(place, sources)) for it in one.function.stated if it.word == "ensures"]


def of_trait(place, sources):
    """Returns the functions of the trait that a function of an `impl` stands for."""
    named = sources.calls.all_named(place.crate, place.name) if place.trait() else []
    return [it for it in named if it.owner == place.trait() and "trait" in it.head]


def is_of(broken, place):
    """Returns whether a function is the one that is named: by its type, or by the trait that it is an `impl` of."""
    return place.name == broken.name and broken.owner in (place.owner, place.trait())


def clause_fault(broken, places, sources):
    """Returns why there is no such clause of these functions, or of those that they call, and nothing if there is one."""
    if broken.is_condition:
        called = [it for place in places for it in [place, *sources.calls.called(place)] if is_of(broken, it)]
        called += [other for it in called for other in of_trait(it, sources)]
        conditions = [it.name for place in called for it in place.function.stated if it.word == "requires"]
        if not conditions:
            return f"{broken.text}: no function of that name is called that requires something"
        return None if not broken.clause or broken.clause in conditions else f"{broken.text}: its conditions are {', '.join(conditions)}"
    found = [it for it in places if is_of(broken, it)]
    if not found:
        return f"{broken.text} is no clause of the function that the edit changes"
    names = [name for it in found for name in ensured(it, sources)]
    return None if broken.clause in names else f"{broken.text}: its clauses are {', '.join(names)}"


def goal_of(goal, name):
    """Returns a goal without the name of its function, which it begins with in a ring of functions."""
    rest = goal[len(name) + 1 :] if goal.startswith(f"{name}-") else goal
    return rest if CLAUSE_START.search(rest) else goal


def stands_for(goal, broken, place, sources):
    """Returns whether an open goal of a function stands for a clause."""
    rest = goal_of(goal, place.name)
    named = re.search(r"-clause-(\w+)$", rest)
    if broken.is_condition:
        found = REQUIRES.match(rest)
        return bool(found) and found[1] == broken.name and (not broken.clause or not named or named[1] == broken.clause)
    if not re.match(r"returns\b", rest) or not is_of(broken, place):
        return False
    # (if there is one clause, the goal doesn't name it)
    return named[1] == broken.clause if named else ensured(place, sources) == [broken.clause]


def not_open(edit, goals, places, sources):
    """Returns the clauses that an edit says to break and that none of these goals, pairs of a function and a goal, stands for."""
    missing = []
    for text in edit.breaks:
        broken = Broken(text)
        own = [(place, goal) for place in places for function, goal in goals if function.rpartition("::")[2] == place.name]
        if not any(stands_for(goal, broken, place, sources) for place, goal in own):
            missing.append(text)
    return missing
