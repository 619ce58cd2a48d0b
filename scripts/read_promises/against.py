"""The promises of the working tree beside those of an older commit: what is gone, what says something else, and what is asked for more."""
import collections
import re
import sys

from .commits import commit, has_repository, landed, tree_of
from .kept import TurnedBack, gone_since, taken_before, turned_back_to
from .stated import Stated

# how many words of a text are printed before and behind what differs, and how many of that
AROUND = 6
MOST = 40


class Difference:
    """Something that stands otherwise than in the older commit: what happened to it, its name, and both texts."""

    def __init__(self, what, name, was=None, now=None):
        self.what = what
        self.name = name
        self.was = was
        self.now = now

    @property
    def call(self):
        return re.split(r"[. ]", self.name)[0]

    def print(self, reason):
        print(f"{self.what}: {self.name}" + (f" (on purpose: {reason})" if reason else ""))
        for word, text in zip(("was", "is"), shortened(self.was, self.now)):
            if text:
                print(f"    {word}: {text}")


def shortened(was, now):
    """Returns two texts without most of the words that they share at their beginnings and ends; one alone is cut at its end."""
    texts = [it.split() if it else [] for it in (was, now)]
    first = shared(*texts) if all(texts) else 0
    last = shared(*(it[first:][::-1] for it in texts)) if all(texts) else 0
    return [cut(it, max(first - AROUND, 0), max(last - AROUND, 0)) for it in texts]


def shared(one, other):
    """Returns how many words two lists begin with both."""
    return next((at for at, (a, b) in enumerate(zip(one, other)) if a != b), min(len(one), len(other)))


def cut(words, first, last):
    inner = words[first : len(words) - last]
    left = [".."] if first else []
    return " ".join([*left, *inner[:MOST], *([".."] if last or inner[MOST:] else [])])


def clauses_gone(older, present):
    """Yields the clauses of an older tree that are gone or have another text."""
    for name, texts in older.clauses.items():
        stands = present.clauses.get(name, collections.Counter())
        instead = list((stands - texts).elements())
        what = "gone" if name.partition(".")[0] in present.reached else "out of reach"
        for text in (texts - stands).elements():
            now = instead.pop(0) if instead else None
            yield Difference("changed" if now else what, name, text, now)


def conditions_new(older, present):
    """Yields the conditions that are new or have another text, of calls that an older tree has."""
    for name, texts in present.conditions.items():
        stood = older.conditions.get(name, collections.Counter())
        before = list((stood - texts).elements())
        for text in (texts - stood).elements() if name.split(" ")[0] in older.reached else []:
            was = before.pop(0) if before else None
            yield Difference("changed condition" if was else "new condition", name, was, text)


def calls_gone(older, present):
    """Yields the calls without clauses of an older tree that users can't reach any more; of others each clause is told."""
    with_clauses = {it.partition(".")[0] for it in older.clauses}
    return (Difference("out of reach", it) for it in sorted(older.reached - present.reached - with_clauses))


def reason_for(difference, reasons, present):
    """Returns the reason that a difference has, by its name, or by its call's if users can't reach that any more."""
    found = reasons.get(difference.name)
    return found or (None if difference.call in present.reached else reasons.get(difference.call))


def compare_with(tree, rev):
    """Compares with a commit that somebody names."""
    found = commit(rev) if has_repository() else None
    if not found:
        print(f"there is no commit {rev} of this repository", file=sys.stderr)
        return 2
    return compare(tree, found)


def compare_with_landed(tree):
    found, why = landed()
    if not found:
        print(f"not compared: {why}\n1 passed, 0 failed")
        return 0
    return compare(tree, found)


def number_that_stand(older, present):
    """Returns how many clauses of an older tree stand as they stood."""
    return sum(sum((texts & present.clauses.get(name, collections.Counter())).values()) for name, texts in older.clauses.items())


def compare(tree, rev):
    turned_back, wrong_names = turned_back_to(rev)
    reasons, wrong_reasons = gone_since(rev)
    older, present = Stated(tree_of(rev), TurnedBack({})), Stated(tree, turned_back)
    wrong = wrong_names + taken_before(turned_back, older, rev) + wrong_reasons
    wrong += [] if older.clauses else ["that commit has no public clause, so nothing was compared"]
    passed, failed = number_that_stand(older, present), len(wrong)
    print(f"compared with {rev}")
    for it in [*clauses_gone(older, present), *calls_gone(older, present), *conditions_new(older, present)]:
        reason = reason_for(it, reasons, present)
        it.print(reason)
        passed, failed = (passed + 1, failed) if reason else (passed, failed + 1)
    for it in wrong:
        print(it)
    print(f"{passed} passed, {failed} failed")
    return 1 if failed else 0
