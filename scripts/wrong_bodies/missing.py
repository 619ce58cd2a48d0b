"""Names in an edit's new text that stand for nothing, as far as the text shows. (The check says it, too, but only when it is asked.)"""
import re

from read_definitions.sources import rust_files

from .spelling import plain

FIELD = re.compile(r"\.\s*([a-z_]\w*)\b(?!\s*(?:\(|::))")
# a word that begins a path or stands alone
BARE = re.compile(r"(?<![\w.:'\"])([a-z]\w+)\b(?!\s*[:!])")
BINDERS = re.compile(r"\b(?:let|for|if let|while let)\s+([^=]*?)(?:=|\bin\b)|\|([^|]*)\||([^{},]*)=>|\bfn (\w+)\(([^)]*)\)")
KEYWORDS = set(
    "as break const continue crate else enum false fn for if impl in let loop match mod move mut pub ref return self static struct super"
    " trait true type unsafe use where while u8 u16 u32 u64 u128 usize i8 i16 i32 i64 i128 isize bool char str prove _".split()
)


class Words:
    """The words and the fields of the crates that an edit can name."""

    def __init__(self, sources):
        self.sources = sources
        self.of_crates = {}
        self.of_near = {}

    def of(self, crate):
        """Returns a crate's words, and the names that stand for fields in it."""
        if crate not in self.of_crates:
            text = " ".join(plain(self.sources.tree.source(it).whole) for it in rust_files(crate))
            fields = FIELD.findall(text) + re.findall(r"\b([a-z_]\w*)\s*:", text)
            self.of_crates[crate] = (set(re.findall(r"\w+", text)), set(fields))
        return self.of_crates[crate]

    def near(self, crate):
        """Returns the words and fields of a crate and of those below it."""
        if crate not in self.of_near:
            found = [self.of(it) for it in self.sources.calls.near(crate)]
            self.of_near[crate] = tuple(set().union(*(it[at] for it in found)) for at in (0, 1))
        return self.of_near[crate]

    def missing(self, edit):
        """Returns the names in an edit's new texts that are neither in its old ones nor anywhere in the crate or below it."""
        words, fields = self.near(edit.crate)
        found = []
        for _, old, new in edit.pairs:
            code = plain(new)
            known = set(re.findall(r"\w+", old)) | bound_in(code) | KEYWORDS
            found += [f".{it}" for it in FIELD.findall(code) if it not in known | fields]
            found += [it for it in BARE.findall(code) if it not in known | words]
        return list(dict.fromkeys(found))


def bound_in(code):
    """Returns the words of the patterns in a text, which may bind them."""
    return set(re.findall(r"\w+", " ".join(it for found in BINDERS.findall(code) for it in found)))
