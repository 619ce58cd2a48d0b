"""Vectors at the limits, and beyond: too large to be kept, so they are made where they are tried. Some of them are a
tail behind a hole, a terabyte that takes no room on a disk."""
from dataclasses import dataclass

from .fields import block
from .file import File
from .merged import Merged
from .of_merges import MOST_ROWS, NO_ENCODING, Merge, told_rows
from .of_tails import told_stripe
from .of_types import kind, types_file
from .rows import STRUCT
from .stripe import Stripe
from .vector import Vector

MOST_BYTES = 1 << 40
LIMIT = "file 11 Limit"


@dataclass
class Holed:
    """The bytes of a file, and how many zeros stand between them, behind the first so many."""

    content: bytes
    hole: int
    front: int = 3

    def write(self, path):
        """Writes the file; what is passed over takes no room, where the disk can leave it out."""
        with path.open("wb") as out:
            out.write(self.content[: self.front])
            out.seek(self.hole, 1)
            out.write(self.content[self.front :])


class Refused:
    """A file of which nothing but its fault is meant."""

    def __init__(self, name, content, fault):
        self.name, self.content, self.fault = name, content, fault

    def parts(self):
        """The files of the vector, by what follows its name."""
        return {".orc": self.content, ".fault": self.fault + "\n"}


class WithHole:
    """A file, as it is meant and with its hole, and which answers are asked, by what follows the vector's name."""

    def __init__(self, name, file, content, asked):
        self.name, self.meant, self.content, self.asked = name, read(name, file), content, asked

    def parts(self):
        """The files of the vector, by what follows its name."""
        meant = self.meant.parts()
        return {".orc": self.content, **{end: meant[end] for end in self.asked}}


def read(name, file, fault=None):
    """A file whose tail is read."""
    return Vector(name, "", "", file, fault=fault)


def joined(name, files, names):
    """Inputs whose stripes have no bytes, and what they become."""
    return Merge(name, "", "", names, read(name, Merged([files[each] for each in names]), NO_ENCODING))


def not_joined(name, names, fault):
    """Inputs that are refused."""
    return Merge(name, "", "", names, fault=f"merge {fault}")


def told_bytes(*stripes):
    """A file whose stripes are told to have so many bytes of index, data and footer, one stripe behind the other: as it
    is meant, and with a hole in their place."""
    laid, offset = [], 3
    for index, data, footer in stripes:
        told = {"offset": offset, "index": index, "data": data, "footer": footer}
        laid.append(Stripe([], footer=lambda text: b"", told=told))
        offset += index + data + footer
    file = File("struct<>", laid)
    return file, Holed(file.content, offset - 3)


def gap_of(length):
    """A file with a gap of so many bytes between two stripes: as it is meant, and with a hole."""
    rows = [{"n": 1}, {"n": 2}]
    front = 3 + len(File("struct<n:int>", [rows]).laid[0].content)
    file = File("struct<n:int>", [rows, Stripe([{"n": 3}], told={"offset": front + length})])
    return file, Holed(file.content, length, front)


def tried():
    """What is read and merged as the vectors that are kept."""
    names = [f"c{at}" for at in range(1, 4096)]
    columns = File(f"struct<{','.join(name + ':int' for name in names)}>", [[{names[0]: -1, names[-1]: 1}]])
    root = kind(STRUCT, *range(1, 4097), names=[*names, "c4096"])
    stripes = File("struct<>", [], footer=lambda parts: parts.update(stripes=block(3, told_stripe(0)) * 65537))
    _, bytes_of_one = told_bytes((1, MOST_BYTES - 1, 1))
    _, bytes_of_two = told_bytes((MOST_BYTES >> 1, 0, 0), (0, MOST_BYTES >> 2, (MOST_BYTES >> 2) + 1))
    told = {
        "stripe": told_rows(1),
        "4096-stripes": told_rows(*[1] * 4096),
        "512-rows": told_rows(512),
        "513-rows": told_rows(513),
        "256-stripes-of-most-rows": told_rows(*[MOST_ROWS] * 256),
    }
    gap, with_gap = gap_of(MOST_BYTES << 1)
    many, rows = ["4096-stripes"] * 16, ["256-stripes-of-most-rows"] * 2
    return [
        read("4096-types", columns),
        Refused("4097-types", types_file(root, *[kind(4)] * 4096).content, "file 8 BadTypes: type 4 TooMany"),
        Refused("too-many-stripes", stripes.content, LIMIT),
        Refused("too-many-rows", told_rows(*[MOST_ROWS] * 512, 513).content, LIMIT),
        Refused("too-many-bytes", bytes_of_one, LIMIT),
        Refused("too-many-bytes-of-two", bytes_of_two, LIMIT),
        *(read(name, file, NO_ENCODING) for name, file in told.items()),
        WithHole("gap", gap, with_gap, (".json", ".show", ".check")),
        Merge("no-gap", "", "", ["gap"], read("no-gap", Merged([gap]))),
        joined("most-stripes", told, many),
        joined("most-rows", told, [*rows, "512-rows"]),
        not_joined("refused-stripes", [*many, "stripe"], "9 Limit(16)"),
        not_joined("refused-stripes-behind-one", ["stripe", *many], "9 Limit(16)"),
        not_joined("refused-rows", [*rows, "513-rows"], "9 Limit(2)"),
        not_joined("refused-rows-behind-some", ["513-rows", *rows], "9 Limit(2)"),
        not_joined("refused-stripes-of-one-file", ["stripe", "too-many-stripes"], f"2 File(1): {LIMIT}"),
        not_joined("refused-bytes-of-one-file", ["stripe", "too-many-bytes"], f"2 File(1): {LIMIT}"),
    ]


def shown():
    """Stripes of 2^40 bytes together, the most, of half as many, and of one more than that: the tails are right, and
    stripes of these are more than a memory holds."""
    half = MOST_BYTES >> 1
    told = {
        "most-bytes": told_bytes((half, half >> 1, 0), (1, 2, (half >> 1) - 3)),
        "half": told_bytes((1, half - 2, 1)),
        "half-and-one": told_bytes((1, 1, half - 1)),
    }
    return [WithHole(name, *both, [".show"]) for name, both in told.items()]


def files():
    """What is made of them: names, and bytes, some with a hole."""
    found = {}
    for folder, vectors in (("tried", tried()), ("shown", shown())):
        for vector in vectors:
            for end, content in vector.parts().items():
                name = f"{folder}/{vector.name}{end}"
                assert name not in found, name
                found[name] = content.encode() if isinstance(content, str) else content
    return found
