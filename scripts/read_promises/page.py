"""docs/PROMISES.md, made of the calls of the public surface and compared with the sources."""
import os
import re

from read_definitions.texts import ROOT, text_of, too_long, wrapped

from .comments import fault_of
from .edits import edits_of, place_edits
from .section import COLUMNS, conditions, table
from .surface import WITHOUT_CLAUSES, surface

PAGE = "docs/PROMISES.md"
# what stands above it is written by hand
MARK = "<!-- scripts/promises --write -->\n"


class Surface:
    """The calls of the page, looked up in the sections of their crates, and what is wrong with the table that names them."""

    def __init__(self, sections):
        self.sections = {it.crate: it for it in sections}
        self.parts = []
        self.wrong = []
        named = []
        for title, words, calls in surface():
            self.parts.append((title, words, [(f"{crate}::{name}", self.find(crate, name)) for crate, name in calls]))
            named += [f"{crate}::{name}" for crate, name in calls]
        twice = dict.fromkeys(it for it in named if named.count(it) > 1)
        self.wrong += [f"{it} stands in the table of the surface's calls twice" for it in twice]
        self.wrong += [f"{it} has a reason to have no clause, and isn't a call of the surface" for it in WITHOUT_CLAUSES if it not in named]

    def find(self, crate, name):
        """Returns a call with clauses that users can reach, and nothing if there is none; that there has to be one is noted."""
        word, section = f"{crate}::{name}", self.sections.get(crate)
        found = [it for it in section.calls if it.is_public and it.word == word] if section else []
        with_clauses = [it for it in found if it.promises]
        if word in WITHOUT_CLAUSES:
            if with_clauses:
                self.wrong.append(f"{word} has clauses, and the table of the surface's calls says why it has none")
            elif not found and not (section and section.hands_on(name)):
                self.wrong.append(f"{word} is a call of the surface that users can't reach")
        elif len(with_clauses) > 1:
            self.wrong.append(f"{word} stands for several calls of the surface")
        elif not with_clauses:
            why = "has no clause" if found else "users can't reach"
            self.wrong.append(f"{word} is a call of the surface that {why}")
        return with_clauses[0] if with_clauses and word not in WITHOUT_CLAUSES else None

    def calls(self):
        return [call for _, _, calls in self.parts for _, call in calls if call]

    def leaning(self):
        """Returns a line for each comment of a clause of the surface that makes no row which can be read alone."""
        found = [(call, it, fault_of(it.words)) for call in self.calls() for it in call.promises if it.words]
        return [f"{call.place_of(it.clauses[0])}: its comment {why}: {it.words}" for call, it, why in found if why]

    def text(self):
        blocks = []
        for title, words, calls in self.parts:
            blocks += [f"## {title}", wrapped(words)]
            for word, call in calls:
                blocks += [f"### `{word}`", *([*conditions(call), table(call)] if call else [wrapped(WITHOUT_CLAUSES.get(word, ""))])]
        return "\n" + "\n\n".join(blocks) + "\n"


def parts_of(text):
    """Returns the lines of a page by what they are about: a part, a call, and a clause."""
    found, key = {}, ""
    for line in text.splitlines():
        if line.startswith(("## ", "### ")):
            key = line.lstrip("# ").strip("`")
        cells = [it.strip() for it in re.split(r"(?<!\\)\|", line)[1:-1]]
        is_row = len(cells) == 3 and line + "\n" not in COLUMNS
        about = f"{key}.{cells[2].partition(',')[0]}".replace("`", "") if is_row else key
        found[about] = found.get(about, "") + line + "\n"
    return found


def compared(stands, should):
    """Returns how many parts of a page are as they should be, and which aren't."""
    stands, should = parts_of(stands), parts_of(should)
    keys = list(dict.fromkeys([*should, *stands]))
    wrong = [it for it in keys if stands.get(it) != should.get(it)]
    return len(keys) - len(wrong), wrong or ([] if list(stands) == list(should) else ["the order"])


def lines_of_uncovered(sections):
    return [f"{call.place_of(clause)} has no comment" for section in sections for call, clause in section.uncovered()]


def lines_of_lost(sections):
    """Returns a line for each wrong body whose function isn't found."""
    lost = [it for section in sections for it in place_edits(section.calls, edits_of(section.crate))[1]]
    return [f"crates/{it.crate}: the function of {it.file} isn't found" for it in lost]


def lines_of_missing(sections):
    return [f"{section.crate}: no source has {it}, which it exports" for section in sections for it in section.face.missing]


def print_uncovered(sections):
    lines = lines_of_uncovered(sections)
    for it in lines:
        print(it)
    print(f"{len(lines)} of {sum(it.number_of_clauses() for it in sections)} public clauses have no comment")
    return 1 if lines else 0


def count(sections):
    """Adds the number of each crate's public clauses to the file that COUNTED names."""
    if os.environ.get("COUNTED"):
        with open(os.environ["COUNTED"], "a", encoding="utf-8") as file:
            file.writelines(f"clauses {it.crate} {it.number_of_clauses()}\n" for it in sections if it.public)


def compare_page(sections, write):
    head, mark, stands = text_of(PAGE).partition(MARK)
    if not mark:
        print(f"{PAGE} has no line {MARK}0 passed, 1 failed")
        return 1
    calls = Surface(sections)
    should = calls.text()
    if write:
        with open(f"{ROOT}/{PAGE}", "w", encoding="utf-8") as file:
            file.write(head + MARK + should)
    passed, differing = compared(stands, should)
    wrong = calls.wrong + lines_of_missing(sections) + lines_of_uncovered(sections) + calls.leaning() + lines_of_lost(sections)
    wrong += [f"a line is too long: {it}" for it in too_long(head + should)]
    for it in differing:
        print(f"{'written anew' if write else 'differs'}: {it}")
    for it in wrong:
        print(it)
    passed += sum(it.number_of_clauses() - len(it.uncovered()) for it in sections) + (len(differing) if write else 0)
    failed = len(wrong) + (0 if write else len(differing))
    count(sections)
    print(f"{passed} passed, {failed} failed")
    return 1 if failed else 0
