"""docs/DEFINITIONS.md and the pages of docs/definitions/, compared with the sources."""
import os
import re

from .order import by_place
from .quotes import quote
from .texts import ROOT, text_of, too_long
from .tree import Tree, by_file, lines_of, rests_on

PAGE = "docs/DEFINITIONS.md"
PROOF = "docs/PROOF.md"
ROW = re.compile(r"^(\| \[([^\]|]*)\]\((definitions/[a-z-]+\.md)\) \| ([^|\n]*) \|)[^|\n]*\|[^|\n]*\|[^|\n]*\|[^|\n]*\|$", re.M)
SECTION = re.compile(r"^### `(\S+)`\n\n((?:(?!```|###).*\n)*)((?:(?!### `).*\n)*)", re.M)
NAMED = re.compile(r"`(orc_[a-z_]+::[A-Za-z_:.]+)`")
MARK = "<!-- scripts/definitions --page --write -->\n"


class Part:
    """A row of the table: what its clauses rest on, and what of this no row above it has, which its page quotes."""

    def __init__(self, tree, row, above):
        self.row, self.title, self.link, named = row.groups()
        self.path = f"docs/{self.link}"
        self.clauses = re.findall(r"`([^`]+)`", named)
        self.items, self.why = rests_on(tree, self.clauses)
        self.own = self.items - above
        self.files = by_place(tree, self.own, self.clauses)

    def counts(self):
        return f"{self.row} {len(self.items):,} | {lines_of(self.items):,} | {len(by_file(self.items))} | {len(self.own):,} |"


class Pages:
    """The pages as they stand, what the sources say that they should be, and what was compared."""

    def __init__(self, tree):
        self.tree = tree
        self.text = text_of(PAGE)
        self.parts, above = [], set()
        for row in ROW.finditer(self.text):
            self.parts.append(Part(tree, row, above))
            above.update(self.parts[-1].items)
        self.quoted = above
        self.should = {}
        # what differs: what the sources say in its place, and what only who writes the page can mend
        self.old = []
        self.wrong = []
        self.compared = 0

    def compare(self, what, stands, should):
        self.compared += 1
        if stands != should:
            self.old.append(what)

    def hold(self, what, holds):
        self.compared += 1
        if not holds:
            self.wrong.append(what)

    def quotes(self):
        """Makes each part's page: what was written by hand stays above its file's quote, and on the first page that has one."""
        stood = {it.path: stands(it.path) for it in self.parts}
        words = {(path, file): it for path, (_, files) in stood.items() for file, (it, _) in files.items() if it}
        for part in self.parts:
            head, files = stood[part.path]
            made = [head or f"# {part.title}\n"]
            for path, items in part.files:
                file = path[len("crates/") :]
                kept = words.pop((part.path, file), None) or first_of(words, file, self.parts)
                text = f"```{'antt' if file.endswith('.antt') else 'rust'}\n{quote(self.tree, items)}```\n"
                self.compare(f"{part.path}: {file}", files.get(file, (None, None))[1], text)
                made.append(f"### `{file}`\n\n{kept}{text}")
            self.should[part.path] = "\n".join(made)
        for (path, file), it in words.items():
            self.hold(f"{path} has no quote of {file}, above which stood: {it.strip()}", False)

    def table(self):
        """Puts each part's counts into the table, and the files and definitions of each page behind the mark."""
        before, _, after = self.text.partition(MARK)
        for part in self.parts:
            self.hold(part.why, not part.why)
            row = next(it[0] for it in ROW.finditer(before) if it[3] == part.link)
            self.compare(f"the counts of {part.title}", row, part.counts())
            before = before.replace(row, part.counts())
        lists = "".join(self.listed(it) for it in self.parts)
        self.compare("the lists of files", after, lists)
        self.should[PAGE] = before + MARK + lists

    def listed(self, part):
        lines = [f"\n### {part.title}\n\n| File | Definitions |\n|---|---|\n"]
        for path, items in part.files:
            file = path[len("crates/") :]
            anchor = re.sub(r"[^a-z0-9_-]", "", file.lower())
            lines.append(f"| [`{file}`]({part.link}#{anchor}) | {', '.join(f'`{it.name}`' for it in items)} |\n")
        return "".join(lines)

    def whole(self):
        """Compares which definitions the clauses rest on that the page on proofs names, and which pages there are."""
        for word in sorted(set(NAMED.findall(text_of(PROOF)))):
            items, why = rests_on(self.tree, [word])
            self.hold(why or f"{PROOF} names {word}, which rests on what no page quotes: {names(items - self.quoted)}", items <= self.quoted)
        there = {f"docs/definitions/{it}" for it in os.listdir(f"{ROOT}/docs/definitions")}
        self.hold(f"pages that no row names: {sorted(there - set(self.should))}", there <= set(self.should))
        self.hold(f"words that stand for nothing: {sorted(self.tree.unknown)}", not self.tree.unknown)
        for path, text in self.should.items():
            for it in too_long(text):
                self.hold(f"a line of {path} is too long: {it}", False)


def stands(path):
    """Returns what a page has above its first quote, and by files the words above each quote and the quote."""
    if not os.path.isfile(f"{ROOT}/{path}"):
        return "", {}
    text = text_of(path)
    head = text.partition("\n### `")[0]
    return head, {it[1]: (it[2], it[3].rstrip("\n") + "\n") for it in SECTION.finditer(text)}


def first_of(words, file, parts):
    """Takes the words about a file that stood on a page which quotes nothing of it any more."""
    for path, named in list(words):
        page = next(it for it in parts if it.path == path)
        if named == file and not any(it.path == f"crates/{file}" for it in page.own):
            return words.pop((path, named))
    return ""


def names(items):
    return ", ".join(it.name for it in sorted(items))


def compare_page(write):
    """Compares the pages with the sources, or writes them anew, prints what differs, and returns the exit status."""
    pages = Pages(Tree())
    os.makedirs(f"{ROOT}/docs/definitions", exist_ok=True)
    pages.quotes()
    pages.table()
    pages.whole()
    for path, text in pages.should.items():
        pages.compare(path, text_of(path) if os.path.isfile(f"{ROOT}/{path}") else "", text)
        if write:
            with open(f"{ROOT}/{path}", "w", encoding="utf-8") as file:
                file.write(text)
    for it in pages.old:
        print(f"{'written anew' if write else 'differs'}: {it}")
    for it in pages.wrong:
        print(f"differs: {it}")
    failed = len(pages.wrong) + (0 if write else len(pages.old))
    print(f"{pages.compared - failed} passed, {failed} failed")
    return 1 if failed else 0
