"""Vectors of bytes and booleans, texts, and nulls."""
from .file import File
from .runs import (
    SIGNED,
    UNSIGNED,
    bits,
    byte_literals,
    byte_repeat,
    data_of,
    delta,
    direct,
    short_repeat,
    v1_literals,
)
from .stripe import DATA, DICTIONARY_DATA, LENGTH, PRESENT, Stripe
from .vector import Vector


def good(name, rules, shows, file):
    return Vector(name, rules, shows, file)


def refused(name, rules, shows, file, fault):
    return Vector(name, rules, shows, file, fault=f"file 12 Stripe(0): stripe {fault}")


def column(name, kind, cells, version=(0, 12), **streams):
    """A file of one column of these cells, with streams by the names of their kinds."""
    kinds = {"present": PRESENT, "data": DATA, "length": LENGTH, "entries": DICTIONARY_DATA}
    given = {(1, kinds[stream]): runs for stream, runs in streams.items() if stream in kinds}
    rest = {key: value for key, value in streams.items() if key not in kinds}
    return File(f"struct<{name}:{kind}>", [Stripe([{name: cell} for cell in cells], given, **rest)], version)


def of_bytes():
    """Vectors of runs of bytes, in columns of BYTE."""

    def signed(values):
        return [value % 256 for value in values]

    mixed = [1, 2, 2, 2, 3]
    return [
        good(
            "bytes/literals",
            "byte-runs",
            "control `fd`: three bytes by themselves; from 128 on a byte stands for itself less 256",
            column("b", "tinyint", [-128, 127, -1], data=byte_literals(signed([-128, 127, -1]))),
        ),
        good(
            "bytes/run-of-3",
            "byte-runs",
            "control 0: three times a byte",
            column("b", "tinyint", [5] * 3, data=byte_repeat(5, 3)),
        ),
        good(
            "bytes/run-of-130",
            "byte-runs",
            "control 127: 130 times a byte",
            column("b", "tinyint", [0] * 130, data=byte_repeat(0, 130)),
        ),
        good(
            "bytes/literals-of-128",
            "byte-runs",
            "control `80`: 128 bytes by themselves",
            column("b", "tinyint", range(-64, 64), data=byte_literals(signed(range(-64, 64)))),
        ),
        good(
            "bytes/runs-in-turn",
            "byte-runs",
            "runs and literals one after the other: `ff 01 00 02 ff 03`",
            column("b", "tinyint", mixed, data=byte_literals([1]) + byte_repeat(2, 3) + byte_literals([3])),
        ),
        good(
            "bytes/literals-where-a-run-fits",
            "byte-runs",
            "equal bytes as literals: the choice is the writer's",
            column("b", "tinyint", [9] * 5, data=byte_literals([9] * 5)),
        ),
        good(
            "bytes/two-versions",
            "byte-runs encodings",
            "a BYTE column has runs of bytes with DIRECT and with DIRECT_V2",
            File(
                "struct<a:tinyint,b:tinyint>",
                [Stripe([{"a": n, "b": -n} for n in range(4)], encodings={1: 0, 2: 2})],
            ),
        ),
        good(
            "bytes/many-runs",
            "byte-runs",
            "a run of 130 and two bytes by themselves, twenty times: `7f 2a fe 01 02`",
            column(
                "b",
                "tinyint",
                ([42] * 130 + [1, 2]) * 20,
                data=(byte_repeat(42, 130) + byte_literals([1, 2])) * 20,
            ),
        ),
        refused(
            "bytes/run-cut",
            "byte-runs run-short",
            "a run without its byte",
            column("b", "tinyint", [0] * 100, data=b"\x61"),
            "3 Run(1, DATA): run 1 Short at 0",
        ),
        refused(
            "bytes/literals-cut",
            "byte-runs run-short",
            "three bytes by themselves, of which two are there",
            column("b", "tinyint", [0] * 3, data=bytes.fromhex("fd0102")),
            "3 Run(1, DATA): run 1 Short at 0",
        ),
        refused(
            "bytes/left-over",
            "byte-runs run-count",
            "behind all values a byte that is no run",
            column("b", "tinyint", [0] * 100, data=bytes.fromhex("610000")),
            "3 Run(1, DATA): run 1 Short at 2",
        ),
        refused(
            "bytes/literals-left-over",
            "byte-runs run-count",
            "behind all values the control of 128 bytes, and none of them",
            column("b", "tinyint", [9] * 3, data=bytes.fromhex("000980")),
            "3 Run(1, DATA): run 1 Short at 2",
        ),
        refused(
            "bytes/run-past-the-rows",
            "byte-runs run-count",
            "three rows, and a run of three behind a byte by itself",
            column("b", "tinyint", [7, 9, 9], data=bytes.fromhex("ff070009")),
            "3 Run(1, DATA): run 9 TooMany at 2",
        ),
        refused(
            "bytes/one-run-left-over",
            "byte-runs run-count",
            "behind all values a whole run",
            column("b", "tinyint", [5] * 3, data=data_of(byte_repeat(5, 3) * 2)),
            "3 Run(1, DATA): run 9 TooMany at 2",
        ),
        refused(
            "bytes/run-too-long",
            "byte-runs run-count",
            "three rows, a run of four bytes, and another one behind it",
            column("b", "tinyint", [14] * 3, data=data_of(byte_repeat(14, 4) + byte_repeat(14, 3))),
            "3 Run(1, DATA): run 9 TooMany at 0",
        ),
        refused(
            "bytes/too-many",
            "byte-runs run-count",
            "one row, and two bytes",
            column("b", "tinyint", [68], data=bytes.fromhex("fe4445")),
            "3 Run(1, DATA): run 9 TooMany at 0",
        ),
        refused(
            "bytes/too-few",
            "byte-runs run-count",
            "three rows, and two bytes",
            column("b", "tinyint", [68, 69, 0], data=bytes.fromhex("fe4445")),
            "3 Run(1, DATA): run 8 TooFew at 3",
        ),
    ]


def of_booleans():
    """Vectors of booleans."""
    yes, no = True, False
    nine = [yes, yes, yes, no, yes, yes, yes, yes, yes]
    return [
        good("booleans/one", "boolean-runs", "one boolean is the highest bit of a byte", column("t", "boolean", [yes])),
        good(
            "booleans/eight",
            "boolean-runs",
            "eight booleans are a byte",
            column("t", "boolean", [yes, no, no, yes, yes, no, yes, no]),
        ),
        good("booleans/nine", "boolean-runs", "nine booleans are two bytes: `fe ef 80`", column("t", "boolean", nine)),
        good(
            "booleans/spare-bits",
            "boolean-runs spare-bits",
            "the bits left over may be anything: `fe ef ff`",
            column("t", "boolean", nine, data=byte_literals(bits(nine, 255))),
        ),
        good(
            "booleans/runs-of-bytes",
            "boolean-runs byte-runs",
            "the bytes are runs: 24 times true is `00 ff`",
            column("t", "boolean", [yes] * 24, data=byte_repeat(255, 3)),
        ),
        good(
            "booleans/part-of-a-run",
            "boolean-runs byte-runs spare-bits",
            "17 booleans in a run of three bytes",
            column("t", "boolean", [yes] * 17, data=byte_repeat(255, 3)),
        ),
        good(
            "booleans/many-runs",
            "boolean-runs byte-runs",
            "booleans go on from a run to the next",
            column(
                "t",
                "boolean",
                ([no] * 7 + [yes]) * 3 + [yes, no] * 12,
                data=byte_repeat(1, 3) + byte_literals([0xAA]) + byte_literals([0xAA, 0xAA]),
            ),
        ),
        good(
            "booleans/two-versions",
            "boolean-runs encodings",
            "a BOOLEAN column has the same runs with DIRECT and with DIRECT_V2",
            File("struct<a:boolean,b:boolean>", [Stripe([{"a": yes, "b": no}] * 3, encodings={1: 0, 2: 2})]),
        ),
        good(
            "booleans/all-null",
            "boolean-runs nulls",
            "no boolean that isn't null, and a DATA of no bytes",
            column("t", "boolean", [None, None], data=[]),
        ),
        good(
            "booleans/thousands",
            "boolean-runs byte-runs",
            "130 bytes of eight times true, as many of eight times false, three times: `7f ff 7f 00`",
            column(
                "t",
                "boolean",
                ([yes] * 1040 + [no] * 1040) * 3,
                data=(byte_repeat(255, 130) + byte_repeat(0, 130)) * 3,
            ),
        ),
        refused(
            "booleans/sixteen-of-24",
            "boolean-runs run-count",
            "sixteen booleans, and a run of three bytes",
            column("t", "boolean", [yes] * 16, data=bytes.fromhex("00ff")),
            "3 Run(1, DATA): run 9 TooMany at 0",
        ),
        refused(
            "booleans/nine-in-a-byte",
            "boolean-runs run-count",
            "nine booleans, and one byte by itself",
            column("t", "boolean", [yes] * 9, data=bytes.fromhex("ff80")),
            "3 Run(1, DATA): run 8 TooFew at 2",
        ),
        refused(
            "booleans/one-byte-more",
            "boolean-runs run-count",
            "nine booleans, and a run of three bytes: one more than they need",
            column("t", "boolean", [yes] * 9, data=bytes.fromhex("00ff")),
            "3 Run(1, DATA): run 9 TooMany at 0",
        ),
        refused(
            "booleans/one-byte-fewer",
            "boolean-runs run-count",
            "25 booleans, and a run of three bytes",
            column("t", "boolean", [yes] * 25, data=bytes.fromhex("00ff")),
            "3 Run(1, DATA): run 8 TooFew at 2",
        ),
        refused(
            "booleans/no-bytes",
            "boolean-runs run-count",
            "one boolean, and no stream of it",
            column("t", "boolean", [yes], data=None),
            "3 Run(1, DATA): run 8 TooFew at 0",
        ),
        refused(
            "booleans/cut",
            "boolean-runs run-short",
            "a run without its byte",
            column("t", "boolean", [yes] * 24, data=b"\x00"),
            "3 Run(1, DATA): run 1 Short at 0",
        ),
        refused(
            "booleans/one-run-left-over",
            "boolean-runs run-count",
            "three booleans in a byte, and a whole run behind it",
            column("t", "boolean", [yes, no, yes], data=bytes.fromhex("ffa0ffa0")),
            "3 Run(1, DATA): run 9 TooMany at 2",
        ),
        refused(
            "booleans/left-over",
            "boolean-runs run-count run-short",
            "three booleans in a byte, and behind it a byte that is no run",
            column("t", "boolean", [yes, no, yes], data=bytes.fromhex("ffa080")),
            "3 Run(1, DATA): run 1 Short at 2",
        ),
    ]


def of_strings():
    """Vectors of texts and bytes, as they are and by dictionary."""
    words = ["", "a", "ä", "日本", 'a"\\\n\t\x00\x7f', "a"]
    return [
        good(
            "strings/direct",
            "strings-direct",
            "texts one after the other, and their lengths in bytes",
            column("s", "string", words),
        ),
        good(
            "strings/direct-1",
            "strings-direct encodings",
            "the same with DIRECT: lengths are runs of version 1",
            column("s", "string", words, (0, 11)),
        ),
        good(
            "strings/empty",
            "strings-direct",
            "empty texts alone: DATA has no bytes and is left out",
            column("s", "string", ["", ""]),
        ),
        good(
            "strings/empty-listed",
            "strings-direct missing-streams",
            "the same with a DATA of no bytes in the directory",
            column("s", "string", ["", ""], data=b""),
        ),
        good(
            "strings/lengths-by-runs",
            "strings-direct v2-choice",
            "lengths as a short repeat and a delta",
            column(
                "s",
                "string",
                ["no", "to", "it", "a", "bcd"],
                length=short_repeat(2, 3, UNSIGNED) + delta([1, 3], UNSIGNED),
            ),
        ),
        good(
            "strings/binary",
            "strings-direct rows-json",
            "bytes of any value",
            column("v", "binary", [b"\x00\xff", b"", bytes(range(120, 136))]),
        ),
        good(
            "strings/dictionary",
            "strings-dictionary",
            "DATA has indexes, DICTIONARY_DATA the entries, LENGTH their lengths",
            column("s", "string", ["b", "a", "b", "c"], dictionaries={1: ["a", "b", "c"]}),
        ),
        good(
            "strings/dictionary-1",
            "strings-dictionary encodings",
            "DICTIONARY: indexes and lengths are runs of version 1",
            column("s", "string", ["a", "a"], (0, 11), dictionaries={1: ["a"]}),
        ),
        good(
            "strings/dictionary-in-any-order",
            "strings-dictionary",
            "entries that aren't sorted",
            column("s", "string", ["pear", "fig", "apple", "fig"], dictionaries={1: ["pear", "apple", "fig"]}),
        ),
        good(
            "strings/dictionary-entry-twice",
            "strings-dictionary",
            "two entries of one text, both named",
            column("s", "string", ["x", "x"], dictionaries={1: ["x", "x"]}, data=data_of(direct([0, 1], UNSIGNED))),
        ),
        good(
            "strings/dictionary-entry-unused",
            "strings-dictionary",
            "an entry that no cell names",
            column("s", "string", ["x", "z"], dictionaries={1: ["x", "y", "z"]}),
        ),
        good(
            "strings/dictionary-entry-no-text",
            "strings-dictionary strings-utf8",
            "an entry that is no UTF-8 and that no cell names",
            column("s", "string", ["x"], dictionaries={1: [b"\xff\xfe", "x"]}),
        ),
        good(
            "strings/dictionary-of-empty",
            "strings-dictionary missing-streams",
            "the only entry is the empty text: DICTIONARY_DATA has no bytes",
            column("s", "string", ["", ""], dictionaries={1: [""]}),
        ),
        good(
            "strings/dictionary-of-none",
            "strings-dictionary nulls",
            "no entry, and every cell null",
            column("s", "string", [None, None], dictionaries={1: []}),
        ),
        good(
            "strings/dictionary-with-nulls",
            "strings-dictionary nulls",
            "nulls have no index",
            column("s", "string", ["a", None, "b", None, "a"], dictionaries={1: ["a", "b"]}),
        ),
        good(
            "strings/dictionary-and-direct",
            "encodings strings-dictionary strings-direct",
            "of the same column one stripe is by dictionary, another is not",
            File(
                "struct<s:string>",
                [
                    Stripe([{"s": "one"}, {"s": "two"}], dictionaries={1: ["one", "two"]}),
                    Stripe([{"s": "three"}]),
                    Stripe([{"s": "two"}], dictionaries={1: ["two"]}, encodings={1: 1}),
                ],
            ),
        ),
        *bad_strings(),
    ]


def long_lengths(*more):
    """Two lengths of 2^63 - 1, and more."""
    return data_of(v1_literals([(1 << 63) - 1] * 2 + list(more), UNSIGNED))


def bad_strings():
    """Texts that are refused."""
    one = {"dictionaries": {1: ["a"]}}
    return [
        refused(
            "strings/no-text",
            "strings-utf8",
            "a text that is no UTF-8",
            column("s", "string", ["ab"], data=b"a\xff"),
            "4 NotUtf8(1, DATA)",
        ),
        refused(
            "strings/text-cut",
            "strings-utf8",
            "a sign of two bytes, cut by the lengths: each text is UTF-8 by itself",
            column("s", "string", ["ä", ""], length=data_of(direct([1, 1], UNSIGNED))),
            "4 NotUtf8(1, DATA)",
        ),
        refused(
            "strings/surrogate",
            "strings-utf8",
            "the three bytes of a surrogate are no UTF-8",
            column("s", "string", ["abc"], data=b"\xed\xa0\x80"),
            "4 NotUtf8(1, DATA)",
        ),
        refused(
            "strings/entry-no-text",
            "strings-utf8 strings-dictionary",
            "an entry that is no UTF-8, and a cell that names it",
            column("s", "string", ["a"], **one, entries=b"\xff"),
            "4 NotUtf8(1, DICTIONARY_DATA)",
        ),
        refused(
            "strings/index-past-the-entries",
            "strings-dictionary",
            "index 1 of a dictionary of one entry",
            column("s", "string", ["a", "a"], **one, data=data_of(direct([0, 1], UNSIGNED))),
            "5 BadIndex(1)",
        ),
        refused(
            "strings/index-past-the-entries-1",
            "strings-dictionary",
            "the same in version 1",
            column("s", "string", ["a", "a"], (0, 11), **one, data=data_of(v1_literals([0, 1], UNSIGNED))),
            "5 BadIndex(1)",
        ),
        refused(
            "strings/data-too-long",
            "strings-lengths",
            "a byte more than the lengths say",
            column("s", "string", ["ab", "c"], data=b"abcd"),
            "6 LengthSum(1, DATA)",
        ),
        refused(
            "strings/data-too-short",
            "strings-lengths",
            "a byte fewer than the lengths say",
            column("s", "string", ["ab", "c"], data=b"ab"),
            "6 LengthSum(1, DATA)",
        ),
        refused(
            "strings/binary-too-long",
            "strings-lengths",
            "a byte more than the lengths of bytes that are no texts say",
            column("v", "binary", [b""], (0, 11), data=b"a"),
            "6 LengthSum(1, DATA)",
        ),
        refused(
            "strings/entries-too-long",
            "strings-lengths strings-dictionary",
            "a byte more than the lengths of the entries say",
            column("s", "string", ["a", "a"], **one, entries=b"ab"),
            "6 LengthSum(1, DICTIONARY_DATA)",
        ),
        refused(
            "strings/entries-too-short",
            "strings-lengths strings-dictionary",
            "a byte fewer than the lengths of the entries say",
            column("s", "string", ["a", "a"], **one, entries=b""),
            "6 LengthSum(1, DICTIONARY_DATA)",
        ),
        refused(
            "strings/texts-too-long",
            "strings-lengths",
            "two texts of 2^63 - 1 bytes each, of which one byte is there",
            column("s", "string", ["a", ""], (0, 11), length=long_lengths(), data=b"a"),
            "6 LengthSum(1, DATA)",
        ),
        refused(
            "strings/lengths-that-wrap",
            "strings-lengths",
            "lengths of 2^64 + 1 bytes together, and one byte: their sum in 64 bits would be right",
            column("v", "binary", [b"a", b"", b""], (0, 11), length=long_lengths(3), data=b"a"),
            "6 LengthSum(1, DATA)",
        ),
        refused(
            "strings/lengths-of-entries-that-wrap",
            "strings-lengths strings-dictionary",
            "the same with the entries of a dictionary",
            column(
                "s", "string", ["a"], (0, 11), dictionaries={1: ["a", "b", "c"]}, length=long_lengths(3), entries=b"a"
            ),
            "6 LengthSum(1, DICTIONARY_DATA)",
        ),
        refused(
            "strings/lengths-too-few",
            "run-count strings-direct",
            "two texts, and one length",
            column("s", "string", ["ab", ""], length=data_of(direct([2], UNSIGNED))),
            "3 Run(1, LENGTH): run 8 TooFew at 3",
        ),
        refused(
            "strings/lengths-left-over",
            "run-count run-short strings-direct",
            "three empty texts, and behind their lengths a byte that is no run",
            column("s", "string", [""] * 3, (0, 11), length=bytes.fromhex("000000ff")),
            "3 Run(1, LENGTH): run 1 Short at 3",
        ),
        refused(
            "strings/lengths-of-entries-too-many",
            "run-count strings-dictionary",
            "one entry, and two lengths",
            column("s", "string", ["a"], **one, length=data_of(direct([1, 0], UNSIGNED))),
            "3 Run(1, LENGTH): run 9 TooMany at 0",
        ),
        refused(
            "strings/dictionary-of-binary",
            "encodings",
            "a BINARY column by dictionary",
            column("v", "binary", [b"a"], encodings={1: 3}),
            "2 BadEncoding(1)",
        ),
    ]


def of_numbers():
    """Vectors of the ranges of numbers and days."""
    return [
        good(
            "numbers/extremes",
            "column-ranges",
            "the least and the greatest number of each kind",
            File(
                "struct<b:tinyint,s:smallint,i:int,l:bigint>",
                [
                    [
                        {"b": -128, "s": -32768, "i": -(1 << 31), "l": -(1 << 63)},
                        {"b": 127, "s": 32767, "i": (1 << 31) - 1, "l": (1 << 63) - 1},
                    ]
                ],
            ),
        ),
        good(
            "numbers/days",
            "column-ranges dates rows-json",
            "days from 1970-01-01 on and before: leap days, the first and the last that has a text here, and the next",
            column("d", "date", [0, -1, 11016, 19782, -719162, 2932896, -719163, 2932897, -25567, -141428]),
        ),
        good(
            "numbers/days-extremes",
            "column-ranges dates",
            "the least and the greatest day",
            column("d", "date", [-(1 << 31), (1 << 31) - 1]),
        ),
        *(
            refused(
                f"numbers/{kind}-{name}",
                "column-ranges",
                f"{value} in a column of {kind}",
                column("n", kind, [0, 0], data=data_of(direct([0, value], SIGNED))),
                "12 OutOfRange(1)",
            )
            for kind, name, value in (
                ("smallint", "too-great", 32768),
                ("smallint", "too-small", -32769),
                ("int", "too-great", 1 << 31),
                ("int", "too-small", -(1 << 31) - 1),
                ("date", "too-great", 1 << 31),
                ("date", "too-small", -(1 << 31) - 1),
            )
        ),
    ]


def of_nulls():
    """Vectors of nulls."""
    nine = [5, 5, 5, None, 5, 5, 5, 5, 5]
    two = {"a": 1, "b": "x"}
    return [
        good("nulls/none", "nulls", "no PRESENT: nothing is null", column("n", "int", [1, 2])),
        good(
            "nulls/none-and-a-present",
            "nulls",
            "a PRESENT that says of all that they are there",
            column("n", "int", [1, 2, 3], present=byte_literals(bits([1, 1, 1]))),
        ),
        good(
            "nulls/none-and-an-empty-present",
            "nulls missing-streams",
            "a PRESENT of no bytes is none",
            column("n", "int", [1, 2, 3], present=[]),
        ),
        good("nulls/some", "nulls", "DATA has the values that aren't null alone", column("n", "int", nine)),
        good(
            "nulls/spare-bits",
            "nulls spare-bits",
            "the spare bits of PRESENT may be anything",
            column("n", "int", nine, present=byte_literals(bits([cell is not None for cell in nine], 255))),
        ),
        good(
            "nulls/all",
            "nulls missing-streams",
            "all cells are null, and there is no DATA",
            column("n", "int", [None] * 4),
        ),
        good(
            "nulls/all-listed",
            "nulls missing-streams",
            "the same with a DATA of no bytes",
            column("n", "int", [None] * 4, data=[]),
        ),
        good(
            "nulls/by-runs",
            "nulls byte-runs",
            "PRESENT by runs: 1,040 nulls, then one value",
            column("n", "int", [None] * 1040 + [7], present=byte_repeat(0, 130) + byte_literals([128])),
        ),
        good(
            "nulls/each-kind",
            "nulls",
            "a null in a column of each kind",
            File(
                "struct<t:boolean,b:tinyint,s:smallint,i:int,l:bigint,d:date,c:string,v:binary,"
                "a:array<int>,m:map<int,int>,r:struct<x:int>>",
                [
                    [
                        {},
                        {
                            "t": True,
                            "b": 1,
                            "s": 2,
                            "i": 3,
                            "l": 4,
                            "d": 5,
                            "c": "6",
                            "v": b"7",
                            "a": [8],
                            "m": [[9, 10]],
                            "r": {"x": 11},
                        },
                        {},
                    ]
                ],
            ),
        ),
        good(
            "nulls/rows",
            "nulls cells",
            "rows themselves are null: the columns below have no cell for them",
            File("struct<a:int,b:string>", [[two, None, {"a": None, "b": "y"}, None]]),
        ),
        good(
            "nulls/below-null-structs",
            "nulls cells",
            "a struct that is null has no cell in the columns below it",
            File("struct<s:struct<n:int>>", [[{"s": {"n": 1}}, {"s": None}, {"s": {"n": None}}]]),
        ),
        refused(
            "nulls/too-few",
            "nulls run-count",
            "nine rows, and a PRESENT of one byte",
            column("n", "int", nine, present=bytes.fromhex("ffef")),
            "3 Run(1, PRESENT): run 8 TooFew at 2",
        ),
        refused(
            "nulls/too-many",
            "nulls run-count",
            "eight rows, and a PRESENT of two bytes",
            column("n", "int", [1] * 8, present=bytes.fromhex("feffff")),
            "3 Run(1, PRESENT): run 9 TooMany at 0",
        ),
        refused(
            "nulls/value-for-a-null",
            "nulls run-count",
            "two cells of three are null, and DATA has two values",
            column("n", "int", [None, 1, None], data=data_of(direct([1, 2]))),
            "3 Run(1, DATA): run 9 TooMany at 0",
        ),
        refused(
            "nulls/present-cut",
            "nulls run-short",
            "a PRESENT of one byte, which is no run",
            column("n", "int", [None], present=b"\x05"),
            "3 Run(1, PRESENT): run 1 Short at 0",
        ),
        refused(
            "nulls/present-left-over",
            "nulls run-count run-short",
            "three nulls, and behind them a byte that is no run",
            column("n", "int", [None] * 3, present=bytes.fromhex("ff0005")),
            "3 Run(1, PRESENT): run 1 Short at 2",
        ),
        refused(
            "nulls/present-of-no-rows",
            "nulls run-count",
            "no row, and a PRESENT of one byte",
            column("t", "boolean", [], present=bytes.fromhex("ff00")),
            "3 Run(1, PRESENT): run 9 TooMany at 0",
        ),
        refused(
            "nulls/present-of-no-cells",
            "nulls run-count",
            "a column without cells, and a PRESENT of one byte",
            File("struct<a:array<int>>", [Stripe([{"a": []}], {(2, PRESENT): bytes.fromhex("ff80")})]),
            "3 Run(2, PRESENT): run 9 TooMany at 0",
        ),
        refused(
            "nulls/present-below-null-structs",
            "nulls cells run-count",
            "all structs are null, and the column below them has a PRESENT of one byte",
            File("struct<s:struct<n:int>>", [Stripe([{"s": None}] * 3, {(2, PRESENT): bytes.fromhex("ff80")})]),
            "3 Run(2, PRESENT): run 9 TooMany at 0",
        ),
    ]


def vectors():
    """The vectors of these folders."""
    return of_bytes() + of_booleans() + of_strings() + of_numbers() + of_nulls()
