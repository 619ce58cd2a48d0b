"""What of a text is part of its sum: all but comments and line breaks."""
import hashlib
import os
import re

from read_definitions.texts import ROOT

# a literal may hold what looks like a comment
LITERAL = r'"(?:\\.|[^"\\])*"|\'(?:\\.|[^\'\\\n])\''
RUST = re.compile(LITERAL + r"|(?P<comment>//[^\n]*)", re.S)
DEFINITION = re.compile(r"(?:^|(?<=\s))(?P<comment>--(?:\s[^\n]*)?$)", re.M)
TURNED = "scripts/kept/names-turned-back"


def spelled(text):
    """Returns a Rust text without its comments, with one space for each gap between its words, so that a line may break anywhere."""
    # (the gaps within a literal stay what they are)
    text = RUST.sub(lambda found: " " if found["comment"] else found[0].replace(" ", "\0"), text)
    return " ".join(text.split())


def spelled_definition(text):
    return " ".join(DEFINITION.sub(" ", text).split())


def plain(text):
    """Returns a Rust text in which comments, and what stands in literals, are blank, so that each bracket is one of the code."""
    blank = re.compile(r"[^\n]")
    return RUST.sub(lambda found: blank.sub(" ", found[0]), text)


def sum_of(*texts):
    """Returns a short sum over texts: sixteen hexadecimal digits."""
    total = hashlib.sha256()
    for it in texts:
        total.update(f"{len(it)} {it}\n".encode())
    return total.hexdigest()[:16]


class Names:
    """The names that were changed: each new name reads as the old one, so that an older text can be compared with this one."""

    def __init__(self, old_of=None):
        self.old_of = old_of or {}
        words = "|".join(re.escape(it) for it in sorted(self.old_of, key=len, reverse=True))
        self.pattern = re.compile(rf"(?<![\w])(?:{words})(?![\w])") if words else None

    def turned_back(self, text):
        return self.pattern.sub(lambda found: self.old_of[found[0]], text) if self.pattern else text

    def brought_forward(self, text):
        """Returns a text of the old names in the new ones, as far as each old name has one new name."""
        new_of = {}
        for new, old in self.old_of.items():
            new_of.setdefault(old, new)
        return Names(new_of).turned_back(text)


def kept_names():
    """Returns the names of the kept list."""
    if not os.path.isfile(f"{ROOT}/{TURNED}"):
        return Names()
    with open(f"{ROOT}/{TURNED}", encoding="utf-8") as file:
        lines = [it.split() for it in file if it.strip() and not it.startswith("#")]
    return Names({it[0]: it[1] for it in lines if len(it) > 1})
