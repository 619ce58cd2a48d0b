"""What a check says: which functions it proved, which goals it left open, and which of these are clauses."""
import difflib
import os
import re

from .naming import head_words, modules_of

# what the check says of a text that it can't read, or that doesn't compile: such an edit tries no contract
UNREAD = re.compile(
    r"^(?:\./)?(?:src|specs)/\S+:\d+:\d+: error(?:\[[\w-]+\]: .*"
    r"|: .*(?:is not in scope|has no field|is no name|operand is missing|expected the end|cannot continue).*)",
    re.M,
)
# a function that is proved
PROVED = re.compile(r"^fn (\S+): proved$", re.M)
# a function that isn't proved for a reason of its own, beside those that aren't since they call one that isn't
UNPROVED = re.compile(r"^fn (\S+): (?:not proved|no proof: expected answers in .*)$", re.M)
# a goal that the check left open: in the line of its function, and at its place in the text
LEFT_OPEN = re.compile(r"^fn (\S+): no proof: expected answers in \S+ `search` did not prove (.*)$", re.M)
LEFT_AT = re.compile(r"^note: (src/\S+?):(\d+):\d+: it is not proved that .* \(`(\S+)`\)", re.M)
# an answer that isn't one to its goal any more, and one whose goal is gone
NO_ANSWER = re.compile(r"^\./(proofs/\S+)/Answers\.antt:\d+:\d+: error: `(\S+)`: (.*)$", re.M)
GONE = re.compile(r"`goal\.\S+`: .* has no `")
# .. only because it names what the edit took away
ONLY_NAMES = re.compile(r"has no field|is not in scope|has no `|admitted")
# the goals that are clauses: what a function ensures where it returns, and what one that it calls requires; what a loop
# or a type keeps true, which clauses rest on (a loop with a label has its name; in a ring of functions a goal begins with its function's)
CLAUSE = re.compile(r"^(\w+-)?returns\b|-requires\b")
KEPT = re.compile(r"^(\w+-)?(loop|invariant_of)-|^(\w+-)?\w+-(init|preserved)\b")
# a line with which an `impl` or a trait begins
HEAD = re.compile(r"(?:pub(?:\(crate\))? )?(?:unsafe )?(?:impl|trait)\b")
# what a check ends with that reached the prover and didn't prove everything: of a crate, or of some of its functions
NOT_PROVED = re.compile(r"^(logic=not-proved|only=\d)", re.M)


def functions_at(said, folder, file, line):
    """Returns those of the functions that aren't proved in whose text a line may stand: of several with one name the one of that file and
    of the type or the trait around the line, or if the check calls none so, each of them."""
    with open(f"{folder}/{file}", encoding="utf-8") as it:
        lines = it.readlines()[: int(line)]
    name = re.findall(r"\bfn (\w+)", "".join(lines))[-1:]
    around = [it for it in lines if HEAD.match(it) or it.startswith("}")][-1:]
    owner = "".join(head_words(around[0])) if around and HEAD.match(around[0]) else ""
    path = modules_of(f"{os.path.basename(folder)}/{file}")
    named = [it for it in dict.fromkeys(UNPROVED.findall(said)) if it.split("::")[-1:] == name]
    here = [it for it in named if it.split("::")[1 : 1 + len(path)] == path] or named
    return [it for it in here if it.split("::")[1:] == [*path, *([owner] if owner else []), *name]] or here


def is_proof_of(function, place, goal):
    """Returns whether a goal of the proof in that folder is of the function: a ring of functions has one proof, in which a goal begins
    with its function's name unless the ring is one function."""
    *modules, name = function.split("::")[1:]
    above, _, last = place.rpartition("/")
    ring = last.startswith("+") and goal.startswith(f"{name}-")
    return above == "/".join(["proofs", *modules]) and (last.lstrip("+") == name or ring)


def goals_left(said, function, folder):
    """Returns the goals of a function's proof that the check left open, and of the answers that are kept for goals that are gone in which
    folder each stands. A goal that is akin to such an answer may only have moved, and isn't among them."""
    unfit = [it for it in NO_ANSWER.findall(said) if is_proof_of(function, it[0], it[1])]
    gone = {goal: place for place, goal, why in unfit if GONE.search(why)}
    found = [goal for _, goal, why in unfit if not ONLY_NAMES.search(why)] + goals_asked(said, function, folder)
    return [it for it in dict.fromkeys(found) if not akin(it, gone)], gone


def goals_asked(said, function, folder):
    """Returns the goals of a function's proof that have no answer, and that the search left open."""
    found = [it for left, goals in LEFT_OPEN.findall(said) if left == function for it in re.findall(r"`(\S+)`", goals)]
    return found + [goal for file, line, goal in LEFT_AT.findall(said) if function in functions_at(said, folder, file, line)]


def akin(goal, answers):
    """Returns the answers that are for goals of the same clause, the likest first."""
    end = re.search(r"(-clause-.*|-requires.*)?$", goal).group(0)
    found = [it for it in answers if it != goal and it.endswith(end) and bool(CLAUSE.search(it)) == bool(CLAUSE.search(goal))]
    return difflib.get_close_matches(goal, found, n=len(found) or 1, cutoff=0)


def open_in(said, functions, folder):
    """Returns the goals that are left in these functions' proofs, each with its function: all that are clauses, or if none is, what loops
    and types keep true."""
    left = [(it, goal) for it in functions for goal in goals_left(said, it, folder)[0]]
    clauses = [it for it in left if CLAUSE.search(it[1])]
    return clauses or [it for it in left if KEPT.search(it[1])]


def all_left(said, functions, folder):
    """Returns the goals that are left in these functions' proofs as a text."""
    return "; ".join(f"{it}: {', '.join(goals_left(said, it, folder)[0])}" for it in functions)


def copied(text, answer, goals):
    """Returns a text of answers with one of them copied for each of these goals, under its name."""
    blocks = re.split(r"\n\n+", text.strip("\n"))
    word = re.compile(rf"(?<![\w-]){re.escape(answer)}(?![\w-])")
    copies = []
    for it in blocks:
        is_answer = re.match(rf"(--.*\n)*(pub )?{re.escape(answer)} : ", it)
        copies += [word.sub(lambda _, to=goal: to, it) for goal in goals] if is_answer else [it]
    return "\n\n".join(copies) + "\n"


def moved_answers(said, functions, folder):
    """Returns the files of answers, with their new text, in which each answer whose goal is gone is brought to the goals of the same clause
    that the check left open."""
    texts = {}
    for it in functions:
        gone = goals_left(said, it, folder)[1]
        asked = dict.fromkeys(goals_asked(said, it, folder))
        for answer, place in gone.items():
            goals = [goal for goal in asked if akin(goal, gone)[:1] == [answer]]
            if goals:
                file = f"{place}/Answers.antt"
                if file not in texts:
                    with open(f"{folder}/{file}", encoding="utf-8") as at:
                        texts[file] = at.read()
                texts[file] = copied(texts[file], answer, goals)
    return texts
