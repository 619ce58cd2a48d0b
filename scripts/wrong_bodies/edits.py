"""The files that hold wrong bodies and controls.

A file crates/CRATE/wrong-bodies/FUNCTION.what_it_does_wrong.edit has lines `file: PATH`, `old: TEXT` and `new: TEXT`, which may stand
several times. A wrong body of the new form has a line `breaks: CALL.CLAUSE` for each clause that it breaks, `for: CRATE::CALL.CLAUSE` if
the function that it changes isn't public, and `answer: TEXT` if the new text adds a `return`. A control has a line `right: WHY` instead.
An edit of the old form has none of these; `why: TEXT` says for what it is refused, if no clause refuses it."""
import os
import re

from read_definitions.texts import ROOT

WORDS = ("breaks", "for", "answer", "right", "why")


class Edit:
    """A wrong body or a control: the pairs of texts that it exchanges, and what its other lines say."""

    def __init__(self, crate, file):
        self.crate = crate
        self.file = file
        self.path = f"crates/{crate}/wrong-bodies/{file}"
        with open(f"{ROOT}/{self.path}", encoding="utf-8") as it:
            self.text = it.read()
        # (the path of the changed file, the old text, the new text)
        self.pairs = []
        self.fault = None
        self.said = {it: [] for it in WORDS}
        self.read()

    def __str__(self):
        return f"{self.crate}/{self.file}"

    @property
    def function(self):
        """The name of the changed function, by the file's name."""
        return self.file.partition(".")[0]

    @property
    def breaks(self):
        return self.said["breaks"]

    @property
    def public(self):
        """The public clauses that rest on what the edit breaks."""
        return self.said["for"]

    @property
    def is_control(self):
        return bool(self.said["right"])

    @property
    def is_new_form(self):
        return bool(self.breaks or self.is_control)

    @property
    def why(self):
        return "".join(self.said["why"][:1])

    def read(self):
        """Reads the lines of the file."""
        path, old = "", None
        for line in self.text.split("\n"):
            word, colon, rest = line.partition(":")
            rest = rest[1:] if rest.startswith(" ") else rest
            if word == "file" and colon:
                path = rest.strip()
            elif word == "old" and colon:
                old = rest
            elif word == "new" and colon:
                if not path or not old:
                    self.fault = "a 'new:' line stands before any 'file:' or 'old:' line"
                    return
                self.pairs.append((path, old, rest))
                old = None
            elif word in WORDS and colon:
                self.said[word].append(rest.strip())
        if not self.pairs:
            self.fault = "it has no 'old:' and 'new:' pair"

    def texts(self, folder):
        """Returns the files of a crate's folder that the edit changes, with their new text, or says why it can't be applied."""
        texts = {}
        for path, old, new in [] if self.fault else self.pairs:
            if path not in texts:
                if not os.path.isfile(f"{folder}/{path}"):
                    return None, f"there is no file {path}"
                with open(f"{folder}/{path}", encoding="utf-8") as file:
                    texts[path] = file.read()
            if texts[path].count(old) != 1:
                return None, f"an 'old:' text stands in {path} {texts[path].count(old)} times, and not once"
            texts[path] = texts[path].replace(old, new)
        return (None, self.fault) if self.fault else (texts, None)

    def form_fault(self):
        """Returns what the edit's own lines lack, and nothing if they lack nothing."""
        if self.fault:
            return self.fault
        if self.breaks and self.is_control:
            return "it has both a 'breaks:' and a 'right:' line"
        if self.breaks and self.adds_return() and not self.said["answer"]:
            return "its new text adds a `return`, and no 'answer:' line says what is wrong with the answer"
        return None

    def text_of_old_form(self):
        """Returns the edit's text without the lines that only an edit of the new form has."""
        return "".join(it for it in self.text.splitlines(keepends=True) if it.partition(":")[0] not in ("breaks", "for", "answer"))

    def adds_return(self):
        count = [sum(len(re.findall(r"\breturn\b", it[at])) for it in self.pairs) for at in (1, 2)]
        return count[1] > count[0]


def folder_of(crate):
    return f"{ROOT}/crates/{crate}/wrong-bodies"


def edits_of(crate):
    """Returns the crate's edits in the order of their names."""
    folder = folder_of(crate)
    names = sorted(os.listdir(folder)) if os.path.isdir(folder) else []
    return [Edit(crate, it) for it in names if it.endswith(".edit")]


def all_edits(crates):
    """Returns the edits of these crates."""
    return [edit for it in crates for edit in edits_of(it)]
