"""Vectors of integer runs of version 1."""
from . import fields
from .file import File
from .runs import UNSIGNED, data_of, v1_literals, v1_run
from .stripe import DATA, LENGTH, Stripe
from .vector import Vector

V1 = (0, 11)
TOP, BOTTOM = (1 << 63) - 1, -(1 << 63)


def numbers(values):
    """Rows of one number."""
    return [{"n": value} for value in values]


def longs(streams, version=V1, kind="bigint"):
    """A file of one column of numbers, whose DATA is these runs."""
    values = [value for run in streams for value in run[1]]
    return File(f"struct<n:{kind}>", [Stripe(numbers(values), {(1, DATA): streams})], version)


def bad(content, count, version=V1):
    """A file of so many rows whose DATA is these bytes."""
    return File("struct<n:bigint>", [Stripe(numbers([0] * count), {(1, DATA): content})], version)


def at_data(text):
    """The fault of a run in DATA of column 1 in the only stripe."""
    return f"file 12 Stripe(0): stripe 3 Run(1, DATA): run {text}"


def lengths(runs):
    """A file of texts whose LENGTH is these runs."""
    texts = [{"s": "x" * value} for run in runs for value in run[1]]
    return File("struct<s:string>", [Stripe(texts, {(1, LENGTH): runs})], V1)


def good(name, rules, shows, file):
    return Vector(f"integers-1/{name}", rules, shows, file)


def refused(name, rules, shows, file, fault):
    return Vector(f"integers-1/{name}", rules, shows, file, fault=fault)


def vectors():
    """The vectors of this folder."""
    return [
        good("run-of-3", "v1-run", "control 0 is the shortest run: three values with one step", longs(v1_run(7, 0, 3))),
        good("run-of-130", "v1-run", "control 127 is the longest run: 130 values", longs(v1_run(-65, 1, 130))),
        good("step-127", "v1-run", "the step is a byte: 127 is the greatest", longs(v1_run(0, 127, 4))),
        good("step-minus-128", "v1-run", "the step has a sign: `80` is -128, the least", longs(v1_run(5, -128, 4))),
        good("literal-of-1", "v1-literals", "control `ff` is one literal", longs(v1_literals([42]))),
        good(
            "literals-of-128",
            "v1-literals",
            "control `80` is 128 literals",
            longs(v1_literals([i * i for i in range(128)])),
        ),
        good(
            "signs",
            "v1-literals zigzag",
            "a signed stream has zigzag numbers: 0, -1, 1, -2 stand as 0, 1, 2, 3",
            longs(v1_literals([0, -1, 1, -2, 2, -64, 64, -65])),
        ),
        good(
            "extremes",
            "v1-literals varint",
            "the least and the greatest number of 64 bits are varints of ten bytes",
            longs(v1_literals([TOP, BOTTOM, TOP - 1, BOTTOM + 1])),
        ),
        good(
            "runs-to-the-extremes",
            "v1-run",
            "runs that end at the greatest and at the least number",
            longs(v1_run(TOP - 254, 127, 3) + v1_run(BOTTOM + 256, -128, 3)),
        ),
        good(
            "literals-where-a-run-fits",
            "v1-choice",
            "equal values as literals, and a run after a run with the same step: the choice is the writer's",
            longs(v1_literals([7, 7, 7, 7]) + v1_run(7, 0, 3) + v1_run(7, 0, 4)),
        ),
        good(
            "many-runs",
            "v1-run v1-literals v1-choice",
            "runs and literals in turn",
            longs(
                v1_run(1, 1, 5)
                + v1_literals([100])
                + v1_run(6, -2, 3)
                + v1_literals([9, -9])
                + v1_literals([10])
                + v1_run(0, 0, 9)
            ),
        ),
        good(
            "long-varints",
            "varint v1-literals",
            "varints of more bytes than they need: `8e 80 00` is 14, which is 7",
            longs(v1_literals([7, 0, -1], length=3) + v1_run(-7, 2, 3, length=10)),
        ),
        good(
            "unsigned-lengths",
            "v1-run unsigned",
            "lengths have no sign and are no zigzag numbers: `05 ff 08` is 8, 7, .. 1",
            lengths(v1_run(8, -1, 8, UNSIGNED)),
        ),
        good(
            "unsigned-literals",
            "v1-literals unsigned",
            "lengths as literals: `fb 02 03 06 07 0b` is 2 3 6 7 11",
            lengths(v1_literals([2, 3, 6, 7, 11], UNSIGNED)),
        ),
        good(
            "kinds",
            "v1-run column-kinds",
            "SHORT, INT, LONG and DATE columns have the same streams",
            File(
                "struct<s:smallint,i:int,l:bigint,d:date>",
                [[{"s": n, "i": n * 1000, "l": n << 40, "d": n} for n in range(-2, 3)]],
                V1,
            ),
        ),
        refused(
            "run-cut",
            "run-short",
            "a run whose first value isn't there",
            bad(bytes.fromhex("0000"), 3),
            at_data("1 Short at 0"),
        ),
        refused(
            "literals-cut",
            "run-short",
            "five literals, of which four are there",
            bad(bytes.fromhex("fb0406060808"[:-2]), 5),
            at_data("1 Short at 0"),
        ),
        refused(
            "varint-cut",
            "run-short varint",
            "a literal whose last byte says that one more follows",
            bad(bytes.fromhex("000002ff80"), 4),
            at_data("1 Short at 3"),
        ),
        refused(
            "varint-of-11-bytes",
            "run-varint varint",
            "a varint goes on past ten bytes",
            bad(bytes.fromhex("ff" + "80" * 10 + "00"), 1),
            at_data("2 BadVarint at 0"),
        ),
        refused(
            "varint-past-64-bits",
            "run-varint varint",
            "a varint's tenth byte is above 1",
            bad(bytes.fromhex("ff" + "ff" * 9 + "02"), 1),
            at_data("2 BadVarint at 0"),
        ),
        refused(
            "run-past-the-greatest",
            "run-range",
            "a run whose last value is 2^63",
            bad(bytes([0, 1]) + fields.varint(fields.zigzag(TOP - 1)), 3),
            at_data("3 ValueRange at 0"),
        ),
        refused(
            "run-past-the-least",
            "run-range",
            "a run whose last value is below -2^63",
            bad(data_of(v1_run(3, 0, 3)) + bytes([0, 255]) + fields.varint(fields.zigzag(BOTTOM + 1)), 6),
            at_data("3 ValueRange at 3"),
        ),
        refused(
            "length-past-the-greatest",
            "run-range unsigned",
            "an unsigned number of 2^63",
            File("struct<s:string>", [Stripe([{"s": ""}], {(1, LENGTH): b"\xff" + fields.varint(1 << 63)})], V1),
            "file 12 Stripe(0): stripe 3 Run(1, LENGTH): run 3 ValueRange at 0",
        ),
        refused(
            "length-below-0",
            "run-range unsigned",
            "a run of lengths that goes below 0",
            File("struct<s:string>", [Stripe([{"s": ""}] * 3, {(1, LENGTH): bytes.fromhex("00ff01")})], V1),
            "file 12 Stripe(0): stripe 3 Run(1, LENGTH): run 3 ValueRange at 0",
        ),
        refused(
            "run-too-long",
            "run-count",
            "three rows, and a run of four values",
            bad(data_of(v1_run(7, 0, 4)), 3),
            at_data("9 TooMany at 0"),
        ),
        refused(
            "too-few",
            "run-count",
            "four rows, and runs of three values",
            bad(data_of(v1_run(7, 0, 3)), 4),
            at_data("8 TooFew at 3"),
        ),
        refused("no-runs", "run-count", "one row, and a stream of no bytes", bad(b"", 1), at_data("8 TooFew at 0")),
        refused(
            "too-many",
            "run-count",
            "four rows, and a run of three values and one of two",
            bad(data_of(v1_run(7, 0, 3) + v1_literals([1, 2])), 4),
            at_data("9 TooMany at 3"),
        ),
        refused(
            "one-run-left-over",
            "run-count",
            "three rows, and a run of one value behind the run of three",
            bad(data_of(v1_run(7, 0, 3) + v1_literals([1])), 3),
            at_data("9 TooMany at 3"),
        ),
        refused(
            "bytes-left-over",
            "run-count run-short",
            "three rows, and behind their run a byte that is no run",
            bad(data_of(v1_run(7, 0, 3)) + b"\x00", 3),
            at_data("1 Short at 3"),
        ),
        refused(
            "version-2-read-as-1",
            "encodings",
            "the encoding is DIRECT, the bytes are a run of version 2",
            bad(bytes.fromhex("0a2710"), 5),
            at_data("9 TooMany at 0"),
        ),
    ]
