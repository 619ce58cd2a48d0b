"""Vectors of stripes: their parts, directories, encodings and footers, and stripes that tell of more than they have."""
from . import fields
from .file import File
from .runs import UNSIGNED, data_of, integers, v1_literals, v1_run
from .stripe import (
    BLOOM_FILTER,
    BLOOM_FILTER_UTF8,
    DATA,
    DICTIONARY_COUNT,
    DICTIONARY_DATA,
    LENGTH,
    PRESENT,
    ROW_INDEX,
    SECONDARY,
    Entry,
    Stripe,
)
from .vector import Vector

ONE = "struct<n:int>"
TWO = "struct<n:int,s:string>"
# the greatest number of 32 bits
GREATEST = (1 << 32) - 1


def rows(*values):
    """Rows of one number."""
    return [{"n": value} for value in values]


def pairs(*values):
    """Rows of a number and a text."""
    return [{"n": value, "s": f"t{value}"} for value in values]


def good(name, rules, shows, file):
    return Vector(f"stripes/{name}", rules, shows, file)


def refused(name, rules, shows, file, fault, good_stripes=0):
    fault = f"file 12 Stripe({good_stripes}): stripe {fault}"
    return Vector(f"stripes/{name}", rules, shows, file, fault=fault, good_stripes=good_stripes)


def one(values=(1, 2, 3), **choices):
    """A file of one stripe of one column."""
    return File(ONE, [Stripe(rows(*values), **choices)])


def with_more(*more):
    """Puts streams behind those of the columns."""
    return lambda entries: entries + [Entry(*each) for each in more]


def good_stripes():
    """Stripes that are read."""
    old = {"dictionaries": {2: ["t5"]}, "encodings": {2: 1}}
    return [
        good("none", "tail-counts", "a file of no rows has no stripe", File(ONE, [])),
        good(
            "of-no-rows",
            "stripe-parts",
            "a stripe of no rows between others: it has a footer alone",
            File(ONE, [rows(1, 2), [], rows(3)]),
        ),
        good(
            "several",
            "stripe-parts",
            "stripes of different numbers of rows",
            File(TWO, [pairs(1), pairs(2, 3, 4), pairs(5, 6)]),
        ),
        good(
            "gaps",
            "stripe-gaps",
            "bytes before, between and behind the stripes that belong to none",
            File(ONE, [Stripe(rows(1), gap=b"before"), Stripe(rows(2), gap=bytes(30))], filler=b"behind"),
        ),
        good(
            "directory-in-any-order",
            "stripe-directory",
            "the directory's order is that of the bytes, whatever it is",
            File(TWO, [Stripe(pairs(1, 2), arrange=lambda entries: entries[::-1])]),
        ),
        good(
            "kinds-that-no-column-uses",
            "stripe-directory",
            "streams of kinds that a column doesn't use are stepped over, and so are kinds that nobody knows",
            File(
                TWO,
                [
                    Stripe(
                        pairs(1, 2),
                        {
                            (0, DATA): b"xx",
                            (1, LENGTH): b"yyy",
                            (1, DICTIONARY_DATA): b"z",
                            (2, SECONDARY): b"",
                            (2, 9): b"w",
                        },
                        arrange=lambda entries: [Entry(1, DICTIONARY_COUNT, b"v"), *entries],
                    )
                ],
            ),
        ),
        good(
            "kinds-of-no-column",
            "stripe-directory",
            "a stream of a kind that nobody knows, of a column that isn't there",
            one(arrange=with_more((77, 100, b"who"), (5, SECONDARY, b"?"))),
        ),
        good(
            "numbers-of-32-bits",
            "stripe-directory messages-range",
            "the greatest number of 32 bits as a stream's kind, as its column, as a direct column's number of entries",
            one(
                arrange=with_more((GREATEST, GREATEST, b"?"), (77, GREATEST, b"who"), (1, GREATEST, b"")),
                footer=lambda own: own[:-4] + fields.block(2, fields.number(1, 2) + fields.number(2, GREATEST)),
            ),
        ),
        good(
            "bloom-filters",
            "stripe-directory",
            "Bloom filters stand among the indexes, and are stepped over",
            one(
                arrange=lambda entries: [
                    Entry(1, BLOOM_FILTER, bytes(9)),
                    Entry(1, BLOOM_FILTER_UTF8, b"\x0a\x00"),
                    *entries,
                ]
            ),
        ),
        good(
            "bytes-behind-the-streams",
            "stripe-directory",
            "bytes of the data that no stream has",
            one(filler=b"to spare"),
        ),
        good(
            "unknown-fields",
            "stripe-footer messages-unknown",
            "the time zone of the writer and unknown fields of the stripe's footer are passed over",
            one(
                footer=lambda text: fields.number(99, 5)
                + text
                + fields.block(3, "UTC")
                + fields.eight(7, 1)
                + fields.four(8, 1)
            ),
        ),
        good(
            "encodings-before-streams",
            "stripe-footer",
            "the footer's fields in another order: columns first",
            one(footer=lambda text: text[-8:] + text[:-8]),
        ),
        good(
            "stream-without-column",
            "stripe-footer messages-missing",
            "a stream that names neither column nor length is of column 0 and of no bytes",
            one(footer=lambda text: fields.block(1, fields.number(1, PRESENT)) + text),
        ),
        good(
            "dictionary-size-of-a-direct-column",
            "stripe-footer encodings",
            "the size of a dictionary means nothing where there is none",
            one(footer=lambda text: text[:-4] + fields.block(2, fields.number(1, 2) + fields.number(2, 9))),
        ),
        good(
            "columns-of-both-versions",
            "encodings",
            "one column in version 1, another in version 2",
            File(TWO, [Stripe(pairs(5, 6, 7), encodings={1: 0, 2: 2})]),
        ),
        good(
            "stripes-of-both-versions",
            "encodings",
            "a stripe in version 1, another in version 2",
            File(TWO, [Stripe(pairs(5, 5), encodings={1: 0}, **{"dictionaries": {2: ["t5"]}}), Stripe(pairs(5, 6, 7))]),
        ),
        good(
            "dictionary-in-version-1",
            "encodings strings-dictionary",
            "a dictionary of version 1 beside numbers of version 2",
            File(TWO, [Stripe(pairs(5, 5), **old)]),
        ),
        good(
            "version-of-the-file-means-nothing",
            "tail-version",
            "runs of version 2 in a file of version 0.11",
            File(ONE, [rows(1, 2)], (0, 11), runs=2),
        ),
    ]


def bad_directories():
    """Stripes that are refused for their directory or their encodings."""
    text = fields.block(2, fields.number(1, 0))
    directory = "1 BadDirectory"
    return [
        refused(
            "streams-too-long",
            "bad-directory",
            "the streams are longer together than index and data",
            one(arrange=lambda entries: [Entry(1, DATA, entries[0].content, 9)]),
            directory,
        ),
        refused(
            "streams-past-64-bits",
            "bad-directory",
            "lengths of streams that are 2^64 together",
            one(arrange=with_more((1, SECONDARY, b"", (1 << 63)), (1, 9, b"", 1 << 63))),
            directory,
        ),
        refused(
            "kind-twice", "bad-directory", "two DATA of one column", one(arrange=with_more((1, DATA, b""))), directory
        ),
        refused(
            "unknown-kind-twice",
            "bad-directory",
            "two streams of one column and one kind that nobody knows",
            one(arrange=with_more((1, 99, b""), (1, 99, b""))),
            directory,
        ),
        refused(
            "data-of-no-column",
            "bad-directory",
            "DATA of a column that isn't there",
            one(arrange=with_more((2, DATA, b""))),
            directory,
        ),
        *(
            refused(
                f"{name}-of-no-column",
                "bad-directory",
                f"{kind} of a column that isn't there",
                one(arrange=with_more((2, at, b""))),
                directory,
            )
            for name, kind, at in (
                ("present", "PRESENT", PRESENT),
                ("length", "LENGTH", LENGTH),
                ("entries", "DICTIONARY_DATA", DICTIONARY_DATA),
            )
        ),
        refused(
            "index-of-no-column",
            "bad-directory",
            "ROW_INDEX of a column that isn't there",
            one(arrange=lambda entries: [Entry(2, ROW_INDEX, b""), *entries]),
            directory,
        ),
        refused(
            "encoding-missing",
            "encodings",
            "two columns, and one encoding",
            one(footer=lambda own: own[:-4]),
            "2 BadEncoding(1)",
        ),
        refused(
            "encoding-too-many",
            "encodings",
            "two columns, and three encodings",
            one(footer=lambda own: own + text),
            "2 BadEncoding(2)",
        ),
        refused("encoding-unknown", "encodings", "an encoding of kind 4", one(encodings={1: 4}), "2 BadEncoding(1)"),
        refused(
            "dictionary-of-numbers",
            "encodings",
            "a column of INT by dictionary",
            one(encodings={1: 3}),
            "2 BadEncoding(1)",
        ),
        *(
            refused(
                f"dictionary-of-{name}",
                "encodings",
                f"a column of {name} by dictionary, in version {2 if encoding == 3 else 1}",
                File(f"struct<n:{kind}>", [Stripe([{"n": None}], encodings={1: encoding})]),
                "2 BadEncoding(1)",
            )
            for name, kind, encoding in (
                ("bytes", "tinyint", 1),
                ("dates", "date", 3),
                ("lists", "array<int>", 1),
                ("maps", "map<int,int>", 3),
                ("structs", "struct<x:int>", 1),
            )
        ),
        refused(
            "dictionary-of-booleans",
            "encodings",
            "a BOOLEAN by dictionary",
            File("struct<t:boolean>", [Stripe([{"t": True}], encodings={1: 1})]),
            "2 BadEncoding(1)",
        ),
        refused("dictionary-of-rows", "encodings", "a STRUCT by dictionary", one(encodings={0: 1}), "2 BadEncoding(0)"),
    ]


def bad_footers():
    """Stripes whose footers are no messages."""
    return [
        refused(
            "footer-cut",
            "stripe-footer messages",
            "the footer ends within a field",
            one(footer=lambda own: own[:-1]),
            "9 Wire: wire 1 Short at 12",
        ),
        refused(
            "footer-of-a-group",
            "stripe-footer messages",
            "a field of wire type 3",
            one(footer=lambda own: b"\x23" + own),
            "9 Wire: wire 3 BadWireType at 0",
        ),
        refused(
            "footer-varint",
            "stripe-footer messages varint",
            "a varint that goes on past 64 bits",
            one(footer=lambda own: fields.key(9, 0) + b"\xff" * 9 + b"\x02" + own),
            "9 Wire: wire 2 BadVarint at 0",
        ),
        refused(
            "stream-without-kind",
            "stripe-footer messages-required",
            "a stream that doesn't say its kind",
            one(footer=lambda own: own + fields.block(1, fields.number(2, 1))),
            "9 Wire: wire 6 Missing at 0",
        ),
        refused(
            "encoding-without-kind",
            "stripe-footer messages-required",
            "an encoding that doesn't say its kind",
            one(footer=lambda own: own[:-4] + fields.block(2, b"")),
            "9 Wire: wire 6 Missing at 0",
        ),
        refused(
            "column-of-33-bits",
            "stripe-footer messages-range",
            "a stream's column is 2^32",
            one(footer=lambda own: fields.block(1, fields.number(1, 9) + fields.number(2, 1 << 32)) + own),
            "9 Wire: wire 4 ValueRange at 4",
        ),
        refused(
            "stream-of-33-bits",
            "stripe-footer messages-range",
            "a stream's kind is 2^32",
            one(footer=lambda own: fields.block(1, fields.number(1, GREATEST + 1)) + own),
            "9 Wire: wire 4 ValueRange at 2",
        ),
        refused(
            "encoding-of-33-bits",
            "stripe-footer messages-range",
            "an encoding's kind is 2^32",
            one(footer=lambda own: own[:-4] + fields.block(2, fields.number(1, GREATEST + 1))),
            "9 Wire: wire 4 ValueRange at 14",
        ),
        refused(
            "entries-of-33-bits",
            "stripe-footer messages-range",
            "a direct column tells of 2^32 entries",
            one(footer=lambda own: own[:-4] + fields.block(2, fields.number(1, 2) + fields.number(2, GREATEST + 1))),
            "9 Wire: wire 4 ValueRange at 16",
        ),
        refused(
            "encoding-of-32-bits",
            "encodings messages-range",
            "an encoding of the greatest number of 32 bits, which there isn't",
            one(encodings={1: GREATEST}),
            "2 BadEncoding(1)",
        ),
        refused(
            "second-of-three",
            "stripe-parts run-count",
            "the second stripe is bad: the rows of the first stand",
            File(ONE, [rows(1, 2), Stripe(rows(3), {(1, DATA): data_of(integers([3, 4], 2))}), rows(5)]),
            "3 Run(1, DATA): run 9 TooMany at 0",
            good_stripes=1,
        ),
    ]


def told(name, rules, shows, file, fault):
    """A file that tells of much and has little."""
    return Vector(f"tells-of-much/{name}", rules, shows, file, fault=f"file 12 Stripe(0): stripe {fault}")


def much():
    """A few bytes of data that tell of so many values: nothing is to be set aside for a number that is read."""
    found = []
    for name, many in (("67108864", 1 << 26), ("2147483647", (1 << 31) - 1)):
        found += [told(f"{kind}-{name}", *rest) for kind, *rest in values_of(many) + entries_of(many) + items_of(many)]
    return found


def told_rows(kind, many, content, version=(0, 11)):
    """A file whose stripe tells of so many rows, and has these streams."""
    streams = {(1, stream): text for stream, text in content.items()}
    dictionaries = {1: ["abc"]} if DICTIONARY_DATA in content else {}
    stripe = Stripe([], streams, dictionaries=dictionaries, told={"rows": many})
    return File(f"struct<n:{kind}>", [stripe], version, tells_stripes=False, tells_file=False)


def values_of(many):
    """Rows of values."""
    few, seven = "run-count tells-of-much", data_of(v1_run(7, 0, 3))
    abc = {DATA: b"abc", LENGTH: data_of(v1_run(1, 0, 3, UNSIGNED))}
    indexes = {DATA: bytes.fromhex("ff00"), LENGTH: data_of(v1_literals([3], UNSIGNED)), DICTIONARY_DATA: b"abc"}
    return [
        (
            "booleans",
            few,
            "rows of a boolean",
            told_rows("boolean", many, {DATA: bytes.fromhex("ff80")}),
            "3 Run(1, DATA): run 8 TooFew at 2",
        ),
        (
            "bytes",
            few,
            "rows of a byte",
            told_rows("tinyint", many, {DATA: bytes.fromhex("fd010203")}),
            "3 Run(1, DATA): run 8 TooFew at 4",
        ),
        (
            "numbers",
            few,
            "rows of a number in version 1",
            told_rows("bigint", many, {DATA: seven}),
            "3 Run(1, DATA): run 8 TooFew at 3",
        ),
        (
            "numbers-2",
            few,
            "rows of a number in version 2",
            told_rows("bigint", many, {DATA: bytes.fromhex("0a2710")}, (0, 12)),
            "3 Run(1, DATA): run 8 TooFew at 3",
        ),
        (
            "no-numbers",
            few,
            "rows of a number, and no stream",
            told_rows("bigint", many, {}),
            "3 Run(1, DATA): run 8 TooFew at 0",
        ),
        (
            "nulls",
            few,
            "rows of nulls",
            told_rows("bigint", many, {PRESENT: bytes.fromhex("7f00")}),
            "3 Run(1, PRESENT): run 8 TooFew at 2",
        ),
        ("texts", few, "rows of a text", told_rows("string", many, abc), "3 Run(1, LENGTH): run 8 TooFew at 3"),
        (
            "indexes",
            few,
            "rows of a dictionary's entry",
            told_rows("string", many, indexes),
            "3 Run(1, DATA): run 8 TooFew at 2",
        ),
    ]


def entries_of(many):
    """A dictionary of entries, an entry of bytes, a text of bytes."""
    size = fields.block(2, fields.number(1, 1) + fields.number(2, many))
    streams = {(1, DATA): bytes.fromhex("ff00"), (1, DICTIONARY_DATA): b"abc"}
    three = {**streams, (1, LENGTH): data_of(v1_run(1, 0, 3, UNSIGNED))}
    long = data_of(v1_literals([many], UNSIGNED))
    root, row = "struct<s:string>", [{"s": "abc"}]
    quiet = {"version": (0, 11), "tells_stripes": False, "tells_file": False}
    sized = Stripe(row, three, dictionaries={1: ["abc"]}, footer=lambda own: own[:-6] + size)
    entry = Stripe(row, {**streams, (1, LENGTH): long}, dictionaries={1: ["abc"]})
    return [
        (
            "entries",
            "run-count tells-of-much",
            "a dictionary's entries",
            File(root, [sized], **quiet),
            "3 Run(1, LENGTH): run 8 TooFew at 3",
        ),
        (
            "bytes-of-an-entry",
            "strings-lengths tells-of-much",
            "the bytes of an entry",
            File(root, [entry], **quiet),
            "6 LengthSum(1, DICTIONARY_DATA)",
        ),
        (
            "bytes-of-a-text",
            "strings-lengths tells-of-much",
            "the bytes of a text",
            File(root, [Stripe(row, {(1, LENGTH): long})], **quiet),
            "6 LengthSum(1, DATA)",
        ),
    ]


def items_of(many):
    """A list or a map of items."""
    long = data_of(v1_literals([many], UNSIGNED))
    quiet = {"version": (0, 11), "tells_stripes": False, "tells_file": False}
    few, seven, ones = "run-count tells-of-much", data_of(v1_run(7, 0, 3)), data_of(v1_run(1, 0, 3, UNSIGNED))

    def listed(kind, streams, cell=()):
        below = {(at, stream): text for (at, stream), text in streams.items()}
        return File(f"struct<a:{kind}>", [Stripe([{"a": list(cell)}], {(1, LENGTH): long, **below})], **quiet)

    return [
        (
            "booleans-of-a-list",
            few,
            "a list's booleans",
            listed("array<boolean>", {(2, DATA): bytes.fromhex("ff80")}),
            "3 Run(2, DATA): run 8 TooFew at 2",
        ),
        (
            "bytes-of-a-list",
            few,
            "a list's bytes",
            listed("array<tinyint>", {(2, DATA): bytes.fromhex("fd010203")}),
            "3 Run(2, DATA): run 8 TooFew at 4",
        ),
        (
            "numbers-of-a-list",
            few,
            "a list's numbers",
            listed("array<bigint>", {(2, DATA): seven}),
            "3 Run(2, DATA): run 8 TooFew at 3",
        ),
        (
            "no-numbers-of-a-list",
            few,
            "a list's numbers, and no stream of these",
            listed("array<bigint>", {}),
            "3 Run(2, DATA): run 8 TooFew at 0",
        ),
        (
            "texts-of-a-list",
            few,
            "a list's texts",
            listed("array<string>", {(2, DATA): b"abc", (2, LENGTH): ones}),
            "3 Run(2, LENGTH): run 8 TooFew at 3",
        ),
        (
            "lists-of-a-list",
            few,
            "a list's lists",
            listed("array<array<bigint>>", {(2, LENGTH): bytes.fromhex("ff00")}),
            "3 Run(2, LENGTH): run 8 TooFew at 2",
        ),
        (
            "pairs-of-a-map",
            few,
            "a map's pairs",
            listed("map<bigint,bigint>", {(2, DATA): seven, (3, DATA): seven}),
            "3 Run(2, DATA): run 8 TooFew at 3",
        ),
    ]


def vectors():
    """The vectors of these folders."""
    return good_stripes() + bad_directories() + bad_footers() + much()
