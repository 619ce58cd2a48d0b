"""The edits of an older commit, for records that are carried over though their crates were cut: for each edit its sums there, and the texts of
the function that it changes and of the heads that this needs.

What a body calls is looked for by name in its crate and in all below, so a crate that was cut, or that names fewer crates, finds fewer
heads for the same body. Such a line is carried over if each head that the older commit found still stands, in whatever crate: word for
word, each name of scripts/kept/names-turned-back read as the old one."""
import json
import os
import re
import shutil
import subprocess
import sys
import tempfile

from read_definitions.sources import rust_files
from read_definitions.texts import ROOT
from read_promises.commits import git

from .crates import libraries
from .edits import edits_of
from .spelling import spelled

# what is run in a copy of the older commit's sources, with the present scripts
TELL = "from wrong_bodies.older import tell; tell()"
TYPE = r"^(?:pub(?:\(crate\))? )?(?:struct|enum|trait|type) (\w+)"


def texts_of(edit, sources):
    """Returns the texts of what an edit changes, and of the heads that these functions need."""
    places, others = sources.changed(edit)
    heads = set()
    for it in places:
        more, items = sources.about(it)
        heads |= {text for _, text in more}
        heads |= {without_crate(sources.tree.text(item)) for item in items if item.path.endswith(".rt")}
    return sorted(map(without_reach, [it.text() for it in places] + others)), sorted(map(without_reach, heads))


def without_crate(text):
    return text.partition(" ")[2]


def without_crates(text):
    """Returns an edit's text without the crates that its paths begin with."""
    return re.sub(r"\b(?:orc_\w+|crate(?:::[a-z_]+)*)::", "", spelled(text))


def without_reach(text):
    """Returns a text without the words that say who may call or name what it declares."""
    return re.sub(r"\bpub(?:\(crate\))? ", "", text)


def tell():
    """Prints what this tree says of its edits."""
    from .sums import Sources, Sums

    sources = Sources()
    sums = Sums(sources)
    found = []
    for crate in libraries():
        for edit in edits_of(crate):
            texts, heads = texts_of(edit, sources)
            found.append({"crate": crate, "file": edit.file, "text": edit.text, "sums": sums.of(edit), "texts": texts, "heads": heads})
    json.dump(found, sys.stdout)


def told_by(rev):
    """Returns what a commit says of its edits, by their files' names."""
    packed = git("archive", "--format=tar", rev, "crates.txt", "crates")
    found = {}
    with tempfile.TemporaryDirectory() as room:
        subprocess.run(["tar", "-xf", "-", "-C", room], input=packed, check=True)
        for it in ("common", "read_definitions", "read_promises", "wrong_bodies"):
            shutil.copytree(f"{ROOT}/scripts/{it}", f"{room}/scripts/{it}", ignore=shutil.ignore_patterns("__pycache__"))
        environment = {**os.environ, "PYTHONPATH": f"{room}/scripts", "PYTHONDONTWRITEBYTECODE": "1"}
        ran = subprocess.run([sys.executable, "-c", TELL], env=environment, cwd=room, stdout=subprocess.PIPE, check=True)
    for it in json.loads(ran.stdout):
        found.setdefault(it["file"], []).append(it)
    return found


class Older:
    """What an older commit says of its edits, beside the present tree, in which each new name is read as the old one."""

    def __init__(self, rev, sources, names):
        self.told = told_by(rev)
        self.sources = sources
        self.names = names
        self.standing = None

    def heads(self):
        """Returns every head, type and constant of the present tree by the older names."""
        if self.standing is None:
            functions, texts = self.sources.functions, set()
            for path in (path for crate in libraries() for path in rust_files(crate)):
                places = functions.in_file(path)
                texts.update(it.heading() for it in places)
                texts.update(it.ghosts for it in places if it.ghosts)
                texts.update(text for _, text in functions.constants_of(path))
            texts.update(without_crate(self.sources.tree.text(it)) for it in self.types())
            self.standing = {self.names.turned_back(without_reach(it)) for it in texts}
        return self.standing

    def types(self):
        """Returns every type of the present tree, and what each `impl` says of the ghost words of its trait."""
        tree, found = self.sources.tree, set()
        for crate in libraries():
            for path in rust_files(crate):
                names = re.findall(TYPE, tree.source(path).text, re.M)
                found.update(it for it in (tree.rust_type(crate, name) for name in names) if it)
        said = set()
        for it in found:
            if it.is_trait:
                said |= tree.words_in("\n".join(it.lines.values()), [it])
        return found | said

    def line_of(self, edit):
        """Returns what the older commit says of an edit: of the one of that name whose text is the same, by the older names."""
        name, text = self.names.turned_back(edit.file), self.names.turned_back(edit.text)
        found = self.told.get(name, []) + self.told.get(edit.file, [])
        return next((it for it in found if without_crates(it["text"]) == without_crates(text)), None)

    def differing(self, edit, line):
        """Returns what isn't word for word as it was, if the record's line is of the older commit, and else that it isn't."""
        old = self.line_of(edit)
        if not old:
            return ["the edit"]
        if line.sums != old["sums"]:
            return ["the older commit"]
        texts, _ = texts_of(edit, self.sources)
        found = [] if sorted(map(self.names.turned_back, texts)) == old["texts"] else ["its function"]
        return found + ([] if set(old["heads"]) <= self.heads() else ["a head"])
