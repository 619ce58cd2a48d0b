"""What the users of all crates can rely on, as texts by their names: clauses, conditions, and what ghost words of traits say."""
import collections
import re

from read_definitions.sources import block_end, owner_name
from read_definitions.texts import TOKEN

from .calls import calls_of, is_reached, parts_of
from .faces import public_crates

BLOCK = re.compile(r"^(?:pub(?:\(crate\))? )?(?:impl|trait)\b[^{;]*\{", re.M)
GHOST = re.compile(r"\bghost (\w+)\s*[:=]\s*\{")


def ghost_words(face):
    """Yields the ghost words of each trait and `impl` that users can reach: of what each is, its name, and its text."""
    for source in face.files():
        for block in BLOCK.finditer(source.text):
            head, end = block[0].rstrip("{").strip(), block_end(source.text, block.end() - 1)
            parts = parts_of(head)
            for it in GHOST.finditer(source.text, block.end(), end) if is_reached(face, owner_name(head), head, parts) else []:
                before = source.text[block.end() : it.start()]
                # (one in a body of a function is that body's own)
                if before.count("{") == before.count("}"):
                    text = source.text[it.end() : block_end(source.text, it.end() - 1) - 1]
                    yield "::".join([face.crate, *parts]), it[1], text


class Stated:
    """The statements of a tree: by each name its texts, of which there are several if calls or clauses share it."""

    def __init__(self, tree, turned_back):
        self.turned_back = turned_back
        # calls, traits, and what an `impl` is of
        self.reached = set()
        self.clauses = {}
        self.conditions = {}
        for crate in public_crates(tree):
            face, calls = calls_of(tree, crate)
            for call in calls:
                if call.is_public:
                    self.add_call(call)
            for owner, word, text in ghost_words(face):
                self.reached.add(turned_back.name(owner))
                self.add(self.clauses, turned_back.name(f"{owner}.{word}"), text)

    def add_call(self, call):
        word = self.turned_back.name(call.word)
        self.reached.add(word)
        for it in call.function.stated:
            if it.word == "ensures":
                self.add(self.clauses, self.turned_back.name(f"{call.word}.{it.name}"), it.text)
            else:
                self.add(self.conditions, f"{word} requires {self.turned_back.text(it.name)}", it.text)

    def add(self, texts, name, text):
        """Adds a text under a name, with one space between its words and brackets, wherever its lines break."""
        texts.setdefault(name, collections.Counter())[self.turned_back.text(" ".join(TOKEN.findall(text)))] += 1

    def texts(self):
        """Yields all names and texts."""
        for statements in (self.clauses, self.conditions):
            for name, texts in statements.items():
                yield name
                yield from texts
