"""The files of scripts/kept that a comparison with an older commit reads: what went on purpose, and which names changed."""
import collections
import os
import re

from read_definitions.texts import ROOT, text_of

from .commits import defines, file_of

GONE = "scripts/kept/clauses-gone"
NAMES = "scripts/kept/names-turned-back"
CALL = r"\w+(?:::\w+)+"
# what went or changed, and the reason; what has another name, and the older one
A_REASON = re.compile(rf"({CALL} requires \w+|{CALL}(?:\.\w+)?(?! requires\b)) +(\S.*)")
A_NAME = re.compile(r"([\w:./-]+) +([\w:./-]+)")
# a word of a clause or of a name: what stands between brackets, dots and colons
WORD = re.compile(r"[^\s()\[\]{};,.:]+")


class TurnedBack:
    """Reads texts as an older commit would say them, by the older names of what has another name now."""

    def __init__(self, older):
        self.older = older

    def word(self, word):
        """Returns a word's older name: the first one, if its name changed several times."""
        seen = {word}
        while self.older.get(word, word) not in seen:
            word = self.older[word]
            seen.add(word)
        return word

    def text(self, text):
        return WORD.sub(lambda it: self.word(it[0]), text)

    def name(self, name):
        """Returns the older name of a call or a clause: the one that a line gives it or its call, else that of its words."""
        call, dot, rest = name.partition(".")
        if name in self.older:
            return self.word(name)
        if call in self.older:
            return self.word(call) + dot + self.text(rest)
        return self.text(name)


def lines_of(text):
    return [it.strip() for it in text.splitlines() if it.strip() and not it.startswith("#")]


def pairs_of(path, form, rev):
    """Returns the two parts of each line of a kept file which an older commit hasn't, and a line for each that is of another form."""
    stands = lines_of(text_of(path)) if os.path.isfile(f"{ROOT}/{path}") else []
    new = collections.Counter(stands) - collections.Counter(lines_of(file_of(rev, path)))
    found = [form.fullmatch(it) for it in new.elements()]
    return [it.groups() for it in found if it], [f"{path}: its head explains no such line: {it}" for it in stands if not form.fullmatch(it)]


def gone_since(rev):
    """Returns the reasons for what went or changed on purpose since a commit, by its name, and what is wrong with the lines."""
    pairs, wrong = pairs_of(GONE, A_REASON, rev)
    return dict(pairs), wrong


def turned_back_to(rev):
    """Returns what reads present texts as a commit would say them, and what is wrong with the lines that name the names."""
    pairs, wrong = pairs_of(NAMES, A_NAME, rev)
    newer = [it for it, _ in pairs]
    wrong += [f"{NAMES}: {it} has several older names" for it in dict.fromkeys(newer) if newer.count(it) > 1]
    return TurnedBack(dict(pairs)), wrong


def taken_before(turned_back, older, rev):
    """Returns a line for each newer name that a commit has for something: to read that as something else would hide what changed."""
    words = {it for text in older.texts() for it in WORD.findall(text)}
    names = {*words, *older.reached, *older.clauses}
    return [f"{NAMES}: {it} was a name before, of something else" for it in turned_back.older if it in names or defines(rev, it)]
