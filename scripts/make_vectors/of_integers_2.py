"""Vectors of integer runs of version 2: short repeats, direct runs, deltas and patched bases."""
from . import fields
from .file import File
from .of_integers import BOTTOM, TOP, at_data
from .of_integers import bad as bad_of_one
from .of_integers import longs as longs_of_one
from .published import PRIMES, TENS
from .runs import UNSIGNED, WIDTHS, data_of, delta, direct, header, patched, short_repeat
from .stripe import DATA, LENGTH, Stripe
from .vector import Vector

V2 = (0, 12)


def longs(streams):
    """A file of one column of numbers, whose DATA is these runs."""
    return longs_of_one(streams, V2)


def bad(content, count):
    """A file of so many rows whose DATA is these bytes."""
    return bad_of_one(content, count, V2)


def side_by_side(streams):
    """A file of one column for each stream of as many values."""
    values = {name: [value for run in stream for value in run[1]] for name, stream in streams.items()}
    count = len(next(iter(values.values())))
    rows = [{name: column[row] for name, column in values.items()} for row in range(count)]
    root = f"struct<{','.join(f'{name}:bigint' for name in streams)}>"
    return File(root, [Stripe(rows, {(at + 1, DATA): stream for at, stream in enumerate(streams.values())})])


def good(name, rules, shows, file):
    return Vector(f"integers-2/{name}", rules, shows, file)


def refused(name, rules, shows, file, fault):
    return Vector(f"integers-2/{name}", rules, shows, file, fault=fault)


def as_signed(number):
    """The number whose zigzag number is this one."""
    return number // 2 if number % 2 == 0 else -(number + 1) // 2


def of_width(width):
    """Numbers of a direct run with this width: the greatest that it holds, the least, and two between."""
    greatest = (1 << width) - 1
    return direct([as_signed(number) for number in (greatest, 0, greatest // 3, greatest >> 1)], width=width)


def sizes_of_width(width):
    """Numbers whose later differences have this many bits: upwards, from below 0 on."""
    size = (1 << min(width, 62)) - 1
    return delta([-size // 2, -size // 2 + 1, -size // 2 + 1 + size, -size // 2 + 1 + size], width=width)


def of_widths(first, last, make):
    """Columns named by their width, each of one run of it."""
    return side_by_side({f"w{width}": make(width) for width in WIDTHS if first <= width <= last})


def short_repeats():
    """Vectors of short repeats."""
    return [
        good("short-repeat-3", "v2-short-repeat", "the shortest: three times a byte", longs(short_repeat(-1, 3))),
        good("short-repeat-10", "v2-short-repeat", "the longest: ten times a byte", longs(short_repeat(100, 10))),
        good(
            "short-repeat-sizes",
            "v2-short-repeat",
            "a value of 1 to 8 bytes, its high byte first",
            side_by_side(
                {f"b{size}": short_repeat(as_signed((1 << 8 * size) - 2), 4, size=size) for size in range(1, 9)}
            ),
        ),
        good(
            "short-repeat-wide",
            "v2-short-repeat v2-choice",
            "a value in more bytes than it needs",
            longs(short_repeat(3, 5, size=8) + short_repeat(0, 3, size=2)),
        ),
        good(
            "short-repeat-unsigned",
            "v2-short-repeat unsigned",
            "an unsigned value is no zigzag number: `08 01 00` is 256 three times",
            File("struct<v:binary>", [Stripe([{"v": b"z" * 256}] * 3, {(1, LENGTH): short_repeat(256, 3, UNSIGNED)})]),
        ),
        good(
            "short-repeat-extremes",
            "v2-short-repeat",
            "the greatest and the least number, in eight bytes",
            longs(short_repeat(TOP, 3) + short_repeat(BOTTOM, 3)),
        ),
    ]


def directs():
    """Vectors of direct runs."""
    return [
        good("direct-of-1", "v2-direct", "a run of one value", longs(direct([-3]))),
        good(
            "direct-of-512", "v2-direct", "the longest run: 512 values", longs(direct([i % 7 - 3 for i in range(512)]))
        ),
        good(
            "direct-of-258",
            "v2-direct",
            "the number of values has a ninth bit, in the first byte",
            longs(direct([1, -1, 0] * 86)),
        ),
        good(
            "direct-widths-1-to-8",
            "v2-direct widths",
            "each width of 1 to 8 bits, a column each",
            of_widths(1, 8, of_width),
        ),
        good("direct-widths-9-to-16", "v2-direct widths", "each width of 9 to 16 bits", of_widths(9, 16, of_width)),
        good("direct-widths-17-to-24", "v2-direct widths", "each width of 17 to 24 bits", of_widths(17, 24, of_width)),
        good(
            "direct-widths-26-to-64",
            "v2-direct widths",
            "the widths that the names 24 to 31 stand for: 26 28 30 32 40 48 56 64",
            of_widths(26, 64, of_width),
        ),
        good(
            "direct-wide", "v2-direct v2-choice", "a greater width than is needed", longs(direct([1, 2, 3], width=64))
        ),
        good(
            "direct-spare-bits",
            "v2-direct spare-bits",
            "the bits left over in the last byte may be anything",
            longs(direct([1, 2, 3], width=3, spare=255)),
        ),
        good(
            "direct-unsigned",
            "v2-direct unsigned",
            "unsigned values are no zigzag numbers",
            File(
                "struct<v:binary>",
                [Stripe([{"v": b"q" * n} for n in (5, 0, 9)], {(1, LENGTH): direct([5, 0, 9], UNSIGNED)})],
            ),
        ),
        good(
            "direct-extremes",
            "v2-direct",
            "the least and the greatest number",
            longs(direct([BOTTOM, TOP, BOTTOM, TOP])),
        ),
        refused(
            "direct-cut",
            "run-short v2-direct",
            "a run of 24 bits together, of which 16 are there",
            bad(data_of(direct([100, 101, 102], width=8))[:-1], 3),
            at_data("1 Short at 0"),
        ),
        refused("direct-header-cut", "run-short v2-direct", "half a header", bad(b"\x42", 1), at_data("1 Short at 0")),
    ]


def deltas():
    """Vectors of deltas."""
    return [
        good(
            "delta-of-1",
            "v2-delta",
            "one value: its first difference stands there, and means nothing",
            longs(delta([-9], first=7)),
        ),
        good("delta-of-2", "v2-delta", "two values: no sizes", longs(delta([10, 7]))),
        good(
            "delta-of-512", "v2-delta", "the longest run: 512 values", longs(delta([3 * i - 700 for i in range(512)]))
        ),
        good(
            "delta-steady",
            "v2-delta",
            "width 0: each value is the one before it plus the first difference",
            longs(delta([5, 3, 1, -1])),
        ),
        good("delta-of-0", "v2-delta", "a first difference of 0 and width 0: equal values", longs(delta([6] * 12))),
        good(
            "delta-upward",
            "v2-delta",
            "sizes are added where the first difference is above 0",
            longs(delta([2, 3, 5, 7, 11, 13, 17])),
        ),
        good(
            "delta-downward",
            "v2-delta",
            "sizes are subtracted where it is below 0",
            longs(delta([100, 98, 95, 95, 80])),
        ),
        good(
            "delta-upward-from-0",
            "v2-delta",
            "a first difference of 0 is upward: sizes are added",
            longs(delta([4, 4, 5, 9])),
        ),
        good("delta-with-size-0", "v2-delta", "a size of 0 repeats a value", longs(delta([1, 3, 3, 4, 4]))),
        good(
            "delta-widths-2-to-8",
            "v2-delta widths",
            "sizes of each width of 2 to 8 bits",
            of_widths(2, 8, sizes_of_width),
        ),
        good(
            "delta-widths-9-to-16",
            "v2-delta widths",
            "sizes of each width of 9 to 16 bits",
            of_widths(9, 16, sizes_of_width),
        ),
        good(
            "delta-widths-17-to-24",
            "v2-delta widths",
            "sizes of each width of 17 to 24 bits",
            of_widths(17, 24, sizes_of_width),
        ),
        good("delta-widths-26-to-64", "v2-delta widths", "sizes of 26 to 64 bits", of_widths(26, 64, sizes_of_width)),
        good(
            "delta-widest-size",
            "v2-delta",
            "a size that is all of the range: from the least number to the greatest",
            longs(delta([BOTTOM, BOTTOM, TOP]) + delta([TOP, TOP - 1, BOTTOM])),
        ),
        good(
            "delta-wide",
            "v2-delta v2-choice varint",
            "equal differences as sizes, and varints of more bytes than they need",
            longs(delta([1, 2, 3, 4], width=16, length=4)),
        ),
        good(
            "delta-spare-bits",
            "v2-delta spare-bits",
            "the bits left over in the last byte of sizes may be anything",
            longs(delta([1, 2, 4, 7], width=3, spare=255)),
        ),
        good(
            "delta-unsigned",
            "v2-delta unsigned",
            "the first value of an unsigned stream is no zigzag number; the first difference always is one",
            File(
                "struct<s:string>",
                [Stripe([{"s": "y" * n} for n in (9, 8, 6, 0)], {(1, LENGTH): delta([9, 8, 6, 0], UNSIGNED)})],
            ),
        ),
        refused(
            "delta-of-1-with-a-width",
            "v2-bad-delta",
            "one value, and a width for sizes",
            bad(bytes.fromhex("c2000002"), 1),
            at_data("4 BadDelta at 0"),
        ),
        refused(
            "delta-cut",
            "run-short v2-delta",
            "a run without its first difference",
            bad(data_of(delta([10, 7]))[:-1], 2),
            at_data("1 Short at 0"),
        ),
        refused(
            "delta-sizes-cut",
            "run-short v2-delta",
            "a run without its last size",
            bad(data_of(delta([1, 2, 4, 90], width=8))[:-1], 4),
            at_data("1 Short at 0"),
        ),
        refused(
            "delta-past-the-greatest",
            "run-range v2-delta",
            "a run whose third value is 2^63",
            bad(header(3, 0, 3) + fields.varint(fields.zigzag(TOP - 1)) + b"\x02", 3),
            at_data("3 ValueRange at 0"),
        ),
        refused(
            "delta-first-difference-too-long",
            "run-varint v2-delta",
            "a first difference of more than 64 bits",
            bad(header(3, 0, 2) + b"\x02" + b"\xff" * 9 + b"\x02", 2),
            at_data("2 BadVarint at 0"),
        ),
    ]


# the specification's example of a patched run: what its numbers of 8 bits are above the base
TENS_ABOVE = [(value - 2000) % 256 for value in TENS]


def patches():
    """Vectors of patched bases."""
    return [
        good(
            "patched-of-the-specification",
            "v2-patched",
            "the specification's example: a patch of 12 bits at place 3, 8 bits up",
            longs(patched(2000, TENS_ABOVE, 8, [(3, 998000 >> 8)], 2, 12)),
        ),
        good(
            "patched-at-the-first-place",
            "v2-patched",
            "a gap of 0 in the first entry: the patch is at place 0",
            longs(patched(5, [1, 2, 3, 0], 2, [(0, 9)], 1, 4)),
        ),
        good(
            "patched-at-the-last-place",
            "v2-patched",
            "a patch at the last value",
            longs(patched(5, [1, 2, 3, 0], 2, [(3, 9)], 2, 4)),
        ),
        good(
            "patched-several",
            "v2-patched",
            "gaps are counted from the entry before",
            longs(patched(-7, [1, 0, 1, 0, 1, 0, 1, 1], 1, [(1, 3), (2, 1), (4, 2)], 3, 2)),
        ),
        good(
            "patched-moves-on",
            "v2-patched",
            "a gap of more than 255 by entries of gap 255 and patch 0, which only move on",
            longs(patched(0, [0, 0, 1, *[0] * 509], 2, [(0, 1), (255, 0), (145, 200)], 8, 8)),
        ),
        good(
            "patched-31-entries",
            "v2-patched",
            "as many entries as there may be",
            longs(patched(1, [i % 2 for i in range(64)], 1, [(0, 1), *[(2, 1)] * 30], 2, 1)),
        ),
        good(
            "patched-no-entries",
            "v2-patched v2-patched-own",
            "a run of no entries",
            longs(patched(40, [0, 3, 1], 2, [], 1, 1)),
        ),
        good(
            "patched-entries-rounded",
            "v2-patched v2-patched-own",
            "a gap of 1 bit and a patch of 24 are 25 bits, which are packed with 26",
            longs(patched(-1000, [0, 1, 2, 3], 4, [(1, 134217744 >> 4)], 1, 24)),
        ),
        good(
            "patched-base-below-0",
            "v2-patched",
            "the base's highest bit is its sign, the others are its magnitude: no two's complement",
            longs(patched(-128, [0, 1, 2, 3], 2, [(3, 1)], 2, 1) + patched(-1, [0, 0, 0, 1], 1, [(0, 1)], 1, 1)),
        ),
        good(
            "patched-base-sizes",
            "v2-patched",
            "bases of 1 to 8 bytes, below 0 and above",
            side_by_side(
                {
                    f"{name}{size}": patched(
                        sign * ((1 << 8 * size - 1) - 1 - 2 * (sign > 0) * (size == 8)), [0, 1], 1, [(1, 0)], 1, 1
                    )
                    for name, sign in (("minus", -1), ("plus", 1))
                    for size in range(1, 9)
                }
            ),
        ),
        good(
            "patched-base-of-minus-0",
            "v2-patched-own",
            "a base of minus zero is zero",
            longs(patched(0, [2, 0, 1], 2, [(1, 1)], 1, 1, base_text=b"\x80")),
        ),
        good(
            "patched-base-wide",
            "v2-patched v2-choice",
            "a base in more bytes than it needs",
            longs(patched(-6, [5, 0, 1], 3, [(0, 1)], 1, 1, size=8)),
        ),
        good(
            "patched-widths",
            "v2-patched widths",
            "numbers of 1 to 48 bits, each patched above them",
            side_by_side(
                {f"w{width}": patched(0, [(1 << width) - 1, 0, 1], width, [(2, 5)], 2, 3) for width in WIDTHS[:29]}
            ),
        ),
        good(
            "patched-patch-widths",
            "v2-patched widths",
            "patches of each width of 1 to 56 bits",
            side_by_side(
                {f"p{width}": patched(-9, [0, 1], 1, [(1, (1 << width) - 1)], 1, width) for width in WIDTHS[:31]}
            ),
        ),
        good(
            "patched-gap-widths",
            "v2-patched",
            "gaps of 1 to 8 bits",
            side_by_side(
                {f"g{wide}": patched(1, [0] * 256, 1, [((1 << wide) - 1, 1)], wide, 2) for wide in range(1, 9)}
            ),
        ),
        good(
            "patched-entries-of-64",
            "v2-patched v2-patched-own",
            "a gap and a patch of 64 bits together, the most",
            longs(patched(0, [1, 0], 1, [(1, 3)], 8, 56)),
        ),
        good(
            "patched-to-the-greatest",
            "v2-patched",
            "a base of -1, and a patch of 2^63 above it: together the greatest number",
            longs(patched(-1, [0, 0], 8, [(1, 1 << 55)], 1, 56)),
        ),
        good(
            "patched-not-zigzag",
            "v2-patched",
            "numbers and patches are no zigzag numbers, although the stream is signed",
            longs(patched(10, [1, 2, 3], 2, [(2, 1)], 2, 1)),
        ),
        *bad_patches(),
    ]


def bad_patches():
    """Patched runs that are refused, each for one fault."""
    faults = [
        ("cut", "run-short v2-patched", "a run without its last byte", "8e03370183e800010203600000", 4, "1 Short"),
        ("order", "v2-patch-faults", "a gap of 0 after the first entry", "8e0307020000000000808040", 4, "5 PatchOrder"),
        ("place", "v2-patch-faults", "an entry behind the last value", "8e03074100000000008020", 4, "6 PatchPlace"),
        (
            "wide",
            "v2-patch-faults v2-patched-own",
            "a gap and a patch of 65 bits together",
            "80001f010000" + "40" * 9,
            1,
            "7 PatchRange",
        ),
        ("much", "v2-patch-faults", "a number past 2^64 - 1", "be00000100000000000000000140", 1, "7 PatchRange"),
        (
            "past-the-greatest",
            "run-range v2-patched",
            "a number past 2^63 - 1",
            "8000e0007fffffffffffffff80",
            1,
            "3 ValueRange",
        ),
    ]
    return [
        refused(f"patched-{name}", rules, shows, bad(bytes.fromhex(content), count), at_data(f"{text} at 0"))
        for name, rules, shows, content, count, text in faults
    ]


def mixed():
    """Vectors of several forms."""
    return [
        good(
            "forms-in-turn",
            "v2-choice",
            "the four forms one after the other: each run begins at a byte",
            longs(
                short_repeat(10000, 5)
                + direct([23713, 43806, 57005, 48879], width=24)
                + patched(2000, TENS_ABOVE, 8, [(3, 3898)], 2, 12)
                + delta(PRIMES, width=4)
                + short_repeat(-1, 3)
            ),
        ),
        good(
            "kinds",
            "v2-choice column-kinds",
            "SHORT, INT, LONG and DATE columns have the same streams",
            File(
                "struct<s:smallint,i:int,l:bigint,d:date>",
                [[{"s": n * 99, "i": n * 100000, "l": n << 41, "d": n * 365} for n in range(-2, 3)]],
            ),
        ),
        refused(
            "too-few",
            "run-count",
            "six rows, and a short repeat of five values",
            bad(data_of(short_repeat(1, 5)), 6),
            at_data("8 TooFew at 2"),
        ),
        refused(
            "too-many",
            "run-count",
            "four rows, and a delta of five values",
            bad(data_of(delta([1, 2, 3, 4, 5])), 4),
            at_data("9 TooMany at 0"),
        ),
    ]


def vectors():
    """The vectors of this folder."""
    return short_repeats() + directs() + deltas() + patches() + mixed()
