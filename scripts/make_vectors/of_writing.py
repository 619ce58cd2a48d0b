"""Vectors whose rows meet the writer's rules where they turn: what is written of them stands in written/. The files
themselves are as plain as may be."""
from .file import File
from .published import TENS
from .stripe import Stripe
from .vector import Vector

V1, V2 = (0, 11), (0, 12)
TOP, BOTTOM = (1 << 63) - 1, -(1 << 63)


def numbers(name, rules, shows, values, version=V2, stripe_rows=None, stride=0):
    """A file of numbers, in stripes of so many rows."""
    return rows(
        name, rules, shows, "struct<n:bigint>", [{"n": value} for value in values], version, stripe_rows, stride
    )


def texts(name, rules, shows, values, version=V2, stride=0):
    """A file of texts."""
    return rows(name, rules, shows, "struct<s:string>", [{"s": value} for value in values], version, None, stride)


def rows(name, rules, shows, root, of, version=V2, stripe_rows=None, stride=0):
    """A file of rows, in stripes of so many."""
    stripe_rows = stripe_rows or len(of)
    parts = [Stripe(of[at : at + stripe_rows]) for at in range(0, len(of), stripe_rows)]
    file = File(root, parts, version, stride=stride)
    return Vector(f"writing/{name}", rules, shows, file)


def padded(kinds, lists, least=0):
    """A schema of a column for each kind and list, and so many rows at least: behind its values a column is null."""
    count = max([least, *map(len, lists)])
    names = [f"c{at}" for at in range(len(lists))]
    columns = dict(zip(names, ([*values, *[None] * (count - len(values))] for values in lists)))
    root = f"struct<{','.join(f'{name}:{kind}' for name, kind in zip(names, kinds))}>"
    return root, [{name: column[row] for name, column in columns.items()} for row in range(count)]


def lengths(name, rules, shows, lists, version=V2):
    """A column for each list, of bytes of these lengths."""
    root, of = padded(["binary"] * len(lists), [[b"z" * length for length in values] for values in lists])
    return rows(name, rules, shows, root, of, version)


def version_1():
    """Runs of version 1."""

    def one(name, shows, values):
        return numbers(f"1-{name}", "written-v1", shows, values, V1)

    return [
        one("literals-then-a-run", "literals up to where a run of three begins", [1, 2, 4, 4, 4]),
        one("run-of-a-step", "the longest run from the left: 1 2 3, then 3 3 alone is none", [1, 2, 3, 3, 3]),
        one("131-equal", "a run of 130 and a literal", [7] * 131),
        one("132-equal", "a run of 130 and two literals", [7] * 132),
        one("133-equal", "a run of 130 and a run of three", [7] * 133),
        one("129-literals", "128 literals and one more", [i * i * i for i in range(129)]),
        one("step-of-127", "steps of 127 make a run, steps of 128 don't", [0, 127, 254, 382, 510]),
        one("step-of-minus-128", "steps of -128 make a run, steps of -129 don't", [0, -128, -256, -385, -514]),
        one("step-of-128", "three values with a step of 128 are no run", [0, 128, 256]),
        one("step-of-minus-129", "three values with a step of -129 are none", [0, -129, -258]),
        one("around-the-range", "a step around the end of the range is none", [TOP - 1, TOP, BOTTOM, BOTTOM + 1]),
        one("extremes", "the least and the greatest number as literals of ten bytes", [BOTTOM, TOP]),
        one("equal-below-0", "equal values below 0", [-1, -1, -1]),
        one("130-literals", "128 literals and two more", [i * i % 101 for i in range(130)]),
        lengths(
            "1-lengths",
            "written-v1",
            "numbers without a sign: literals, runs, and one after the other",
            [[7], [5, 5], [5, 5, 5], [2, 3, 6, 7, 11], [1, 2, 3, 3, 3], [9, 1, 1, 1], [7] * 131, [0, 127, 254, 382]],
            V1,
        ),
    ]


def version_2():
    """Runs of version 2."""

    def one(name, shows, values):
        return numbers(f"2-{name}", "written-v2", shows, values)

    high = [0] * 40
    far = [i % 2 for i in range(512)]
    far[0], far[400] = 600, 700
    most = [(i * 37 % 50) + (1 << 20 if i % 4 == 0 else 0) for i in range(124)]
    gaps = [1000000 if i in (0, 300) else i % 2 for i in range(400)]
    return [
        one("2-equal", "two equal values are no short repeat", [7, 7]),
        one("3-equal", "three equal values are a short repeat", [7] * 3),
        one("10-equal", "ten are one too", [7] * 10),
        one("11-equal", "eleven are a delta of width 0", [7] * 11),
        one("512-equal", "so are 512", [7] * 512),
        one("513-equal", "512 and a direct run of one", [7] * 513),
        one("equal-of-8-bytes", "a short repeat in the least bytes: eight", [BOTTOM] * 4),
        one("chunk-to-equal-values", "a chunk reaches to the next three equal values", [1, 5, 2, 9, 9, 9, 4]),
        one("chunk-of-512", "a chunk has 512 values at most", [i * i % 97 for i in range(520)]),
        one("two-values", "a delta of two values is longer than a direct run", [5, 7]),
        one("delta-before-direct", "a delta as long as the direct run comes first", [50, 49, 47]),
        one("steady", "equal differences: a delta of width 0", [10, 20, 30, 40]),
        one("against-the-direction", "a difference against the first one's direction: no delta", [100, 101, 99, 102]),
        one("flat-then-up", "a first difference of 0 is upward", [9, 9, 10, 12, 20, 21, 22, 30]),
        one("flat-then-down", "and so a later one below 0 is against it", [9, 9, 8, 6, 2, 1, 0, -8]),
        one("down-then-flat", "a later difference of 0 is against no direction", [900, 800, 800, 700, 610, 500, 400]),
        one("sizes-of-2", "sizes take 2 bits at least", [1000, 1001, 1003, 1003, 1004, 1005]),
        one("differences-past-64-bits", "a difference that doesn't fit: no delta", [BOTTOM, TOP, BOTTOM, TOP]),
        one("sizes-of-64", "a size of 63 bits takes 64", [BOTTOM, BOTTOM + 1, 0]),
        one("patched", "a patch where it makes the run shorter", TENS),
        one("patched-below-0", "a base below 0", [value - 5000 for value in TENS]),
        one("patched-after-256", "a gap above 255 by entries that only move on", far),
        one("patched-31-entries", "as many entries as there may be", most),
        one(
            "patched-too-many-entries",
            "32 entries: a greater width, with fewer entries or none",
            most + [1 << 20, 3, 5, 8],
        ),
        one("patched-a-quarter", "entries for at most a quarter of the values, rounded up", [1, 1 << 40, 0, 1, 0]),
        one("patched-base-of-56-bits", "a base of 56 bits is too great", [(1 << 56) + value for value in TENS]),
        one(
            "patched-base-of-55-bits",
            "a base of a magnitude below 2^56",
            [(1 << 56) - 2200 + value % 190 for value in TENS] + [1 << 57],
        ),
        one(
            "patched-spread",
            "no patched run where a value is 2^63 or more above the least",
            [-5, TOP, 3, 4, 5, 1, 0, 2, 6, 7, 9, 8],
        ),
        one(
            "patched-wide",
            "a patch of 56 bits: with numbers of fewer bits it would have too many",
            [*high[:200], 1, 0, 1, 2, 1 << 62, 1, 2, 0, 5, 0, 1, 0, 1],
        ),
        one("patched-two", "two patches, each counted from the one before", [*range(-1, 1), 500, -1, 0, 0, 70000, -3]),
        one("repeat-delta-of-2", "two equal values, and three behind them", [1, 1, 2, 2, 2]),
        one("equal-of-2-bytes", "a short repeat of two bytes", [10000] * 5),
        one("equal-below-0", "equal values below 0", [-1, -1, -1]),
        one("numbers-of-2-bytes", "no direction and no patch: a direct run", [23713, 43806, 57005, 48879]),
        one("primes", "sizes of four bits", [2, 3, 5, 7, 11, 13, 17, 19, 23, 29]),
        one("patched-of-31-bits", "a patch far above numbers below 0", [-1000, 2147482905, -998, -997]),
        one("down-by-sizes", "sizes of 16 bits, one of them 0", [900, 700, 700, 400]),
        one("513-in-turn", "512 numbers of two bits, and one more", [-(i % 2) for i in range(513)]),
        one("two-alone", "single numbers between equal ones", [2, *[0] * 399, 400, *[0] * 112]),
        one("gaps-above-255", "two patches, 300 values apart", gaps),
        lengths(
            "2-lengths",
            "written-v2",
            "numbers without a sign: each form, and chunks up to the next three that are equal",
            [
                [7],
                [7, 7],
                [5, 7],
                [300] * 5,
                [7] * 10,
                [7] * 11,
                [1, 1, 2, 2, 2],
                [100, 98, 95],
                [900, 700, 700, 400],
                [2, 3, 5, 7, 11, 13, 17, 19, 23, 29],
                [2371, 4380, 5700, 4887],
                [30, 0, 20, 9000, 40, 50, 60, 70, 80, 90, 100, 110, 120, 130, 140, 150, 160, 170, 180, 190],
                [7] * 513,
                [i % 2 for i in range(513)],
                [2, *[0] * 399, 400, *[0] * 112],
                [600 if i in (0, 300) else i % 2 for i in range(400)],
            ],
        ),
        one(
            "shortest",
            "chunks of two and of eight numbers, each in the shortest of its forms",
            in_chunks([0, 1, -3, 15, -16, 300, -40000, 1000000], [2, 300, 2, 1, 2]),
        ),
        lengths(
            "2-shortest-lengths",
            "written-v2",
            "the same without a sign",
            [in_chunks([0, 1, 3, 15, 16, 40], [2, 40, 2, 1, 2])],
        ),
        rows(
            "2-widths",
            "written-v2",
            "widths of 1, 2, 4 bits and of whole bytes, a column each",
            *by_width((1, 2, 4, 8, 16, 24, 32, 40, 48, 56, 64)),
        ),
        rows(
            "2-widths-between",
            "written-v2",
            "widths between are those of the next whole bytes",
            *by_width((3, 5, 7, 9, 17, 25, 33, 41, 49, 57, 63)),
        ),
    ]


def in_chunks(numbers, behind):
    """Each pair of the numbers, and each three of them with more behind; equal numbers stand between."""
    pairs = [[first, second] for first in numbers for second in numbers]
    of_three = [[*pair, third, *behind] for pair in pairs for third in numbers]
    return [number for chunk in pairs + of_three for number in [7, 7, 7, *chunk]]


def by_width(widths):
    """A schema of a column for each width, and two rows of numbers that need it."""
    root = f"struct<{','.join(f'w{width}:bigint' for width in widths)}>"
    return root, [
        {f"w{width}": -(1 << width - 1) for width in widths},
        {f"w{width}": (1 << width - 1) - 1 for width in widths},
    ]


def others():
    """Bytes, booleans, dictionaries, stripes and row indexes."""
    yes, no = True, False
    of_kinds = ["bigint"] * 4 + ["tinyint"] + ["boolean"] * 4
    in_runs = [
        [1, 2, 3, 3, 3],
        [7, 7, 7, 9, 9, 9],
        [1, -1, 2, -2, 3],
        [10000, 10000, 10000, 10000, 10000, 5, 7],
        [1, 2, 2, 2, 3],
        [yes] * 3 + [no] + [yes] * 5,
        [yes, no, yes, yes, yes],
        [yes, no, yes, yes, yes, yes, yes, yes],
        [yes] * 32 + [no, yes, yes],
    ]
    each_form = [*TENS, 9, 9, 9, 9, 3, 1, 4, 1, 5, *[300] * 12, 2, 3, 5, 7, 11, 13, 17, 19, 23, 29]
    return [
        rows(
            "bytes",
            "written-bytes",
            "three equal bytes are a run, two are none",
            "struct<b:tinyint>",
            [{"b": b} for b in (1, 1, 2, 2, 2, 3, 4, 4)],
        ),
        rows("bytes-131", "written-bytes", "a run of 130 and a literal", "struct<b:tinyint>", [{"b": 0}] * 131),
        rows(
            "bytes-129",
            "written-bytes",
            "128 literals and one more",
            "struct<b:tinyint>",
            [{"b": i % 100} for i in range(129)],
        ),
        rows(
            "booleans",
            "written-bytes",
            "booleans are bytes first, the spare bits 0",
            "struct<t:boolean>",
            [{"t": flag} for flag in [yes] * 30 + [no, yes, no]],
        ),
        rows(
            "bytes-130",
            "written-bytes",
            "128 literals and two more; runs and literals in turn; one run, and one literal behind it",
            *padded(
                ["tinyint"] * 6,
                [
                    [i - 64 for i in range(130)],
                    [1, 1, 2, 2, 2, 2],
                    [0x44, 0x45],
                    [0] * 100,
                    [0] * 130,
                    [5, 5],
                ],
            ),
        ),
        rows(
            "booleans-of-runs",
            "written-bytes",
            "one boolean, eight and seventeen of them, and nine whose fourth is false",
            *padded(["boolean"] * 4, [[yes], [yes] * 8, [yes] * 17, [yes] * 3 + [no] + [yes] * 5]),
        ),
        texts(
            "dictionary-of-half",
            "written-dictionary",
            "half as many distinct texts as texts: a dictionary",
            ["b", "a", "b", "a"],
        ),
        texts("dictionary-of-more", "written-dictionary", "one distinct text more: none", ["b", "a", "b", "a", "c"]),
        texts(
            "dictionary-order",
            "written-dictionary",
            "entries in the order of their bytes",
            ["z", "ä", "Z", "", "日"] * 2,
            V1,
        ),
        texts("dictionary-of-empty", "written-dictionary", "a dictionary whose only entry has no bytes", ["", ""], V1),
        texts("dictionary-of-nulls", "written-dictionary", "no text: no dictionary", [None, None]),
        texts("text-of-no-bytes", "written-dictionary", "an empty text alone is too few for a dictionary", [""], V1),
        texts(
            "dictionary-with-index",
            "written-dictionary written-index",
            "positions of the indexes alone",
            ["x", "y", None, "x", "y", "x"],
            V2,
            2,
        ),
        numbers("stripes", "written-layout", "stripes of three rows, and the last of two", range(8), V2, 3),
        numbers(
            "stripe-rows-and-stride",
            "written-layout written-index",
            "stripes of five rows with groups of two",
            [3, 3, 3, 1, 4, 1, 5, 9],
            V1,
            5,
            2,
        ),
        numbers(
            "three-sevens-with-index", "written-layout written-index", "a stripe with a row index", [7] * 3, V1, 3, 2
        ),
        rows(
            "maps",
            "written-layout",
            "maps of texts and numbers",
            "struct<m:map<string,int>>",
            [{"m": [["a", 1], ["b", None]]}, {"m": None}, {"m": []}],
            V1,
        ),
        rows(
            "maps-with-a-null-key",
            "written-layout",
            "a map of lists, with a key that is null and one that stands there twice: a dictionary of one entry",
            "struct<m:map<string,array<int>>>",
            [{"m": [[None, [1]], ["a", []], ["a", None]]}],
            V1,
        ),
        rows(
            "maps-in-structs",
            "written-layout",
            "maps within structs that are null or lack one, of structs that are null",
            "struct<s:struct<m:map<int,struct<n:int>>>>",
            [{"s": None}, {"s": {"m": [[1, {"n": 2}], [1, None]]}}, {"s": {"m": None}}],
            V1,
        ),
        rows(
            "places",
            "written-index",
            "the places that name the least: within a run, at a run's start, at the end",
            "struct<n:int,t:boolean,b:tinyint,s:string,a:array<int>>",
            [
                {
                    "n": None if row % 3 else row,
                    "t": row < 17,
                    "b": row // 5,
                    "s": "x" * (row % 4),
                    "a": [row] * (row % 3),
                }
                for row in range(20)
            ],
            V2,
            None,
            4,
        ),
        rows(
            "places-in-runs-1",
            "written-index",
            "a group for each row: positions within runs, at their starts and at the end, in version 1",
            *padded(of_kinds, in_runs, 36),
            V1,
            None,
            1,
        ),
        rows(
            "places-in-runs-2",
            "written-index",
            "the same in version 2, and in runs of each form",
            *padded([*of_kinds[:5], "bigint"], [*in_runs[:5], each_form], len(each_form) + 1),
            V2,
            None,
            1,
        ),
        rows(
            "places-in-the-longest-runs",
            "written-index",
            "positions at the last value of a run of 130, behind it, and at the end",
            *padded(["bigint", "tinyint"], [range(200, 60, -1), [5] * 131], 141),
            V1,
            None,
            1,
        ),
        *[
            rows(
                f"places-of-512-by-{stride}",
                "written-index",
                "positions at the last value of a run of 512, behind it, or at the end",
                *padded(["bigint"], [[7] * 513], 514),
                V2,
                None,
                stride,
            )
            for stride in (511, 512, 513)
        ],
        rows(
            "end-of-streams",
            "written-index",
            "where a stream is used up the place is its length",
            "struct<n:int,t:boolean>",
            [{"n": 1, "t": yes}] * 8 + [{}] * 4,
            V1,
            None,
            4,
        ),
        *places_of_kinds(),
    ]


def places_of_kinds():
    """Positions of streams of each kind, in groups that begin within runs and within bytes of booleans."""

    def places(name, shows, root, cells, stride, version=V1):
        kind = root.removeprefix("struct<").partition(":")[0]
        return rows(
            f"places-of-{name}",
            "written-index",
            shows,
            root,
            [{kind: cell} for cell in cells],
            version,
            None,
            stride,
        )

    flags = [row % 3 == 0 for row in range(20)]
    some = [None if row in (1, 5, 9, 13, 17) else flag for row, flag in enumerate(flags)]
    return [
        places("booleans", "five booleans a group", "struct<t:boolean>", flags, 5),
        places("booleans-and-nulls", "seven booleans a group, some of them null", "struct<t:boolean>", some, 7),
        places("bytes", "three bytes a group", "struct<b:tinyint>", [1] * 4 + [5, 6, 7] + [-1] * 3, 3),
        places("texts", "two texts a group, one of them null", "struct<s:string>", ["ab", "c", None, "", "def"], 2),
        places("a-dictionary", "two texts of a dictionary a group", "struct<s:string>", ["a", "b"] * 2 + ["a"] * 2, 2),
        places("binary", "a group for each value", "struct<v:binary>", [b"\x00\xff", b"", b"\x01\x02"], 1, V2),
        places("structs", "a group for each struct", "struct<s:struct<n:int>>", [{"n": 1}, None, {}], 1, V2),
        places(
            "elements",
            "booleans of lists: the second list begins within a byte",
            "struct<a:array<boolean>>",
            [[True, False, True, True, True], []],
            1,
        ),
        places("sevens", "nine of ten values a group", "struct<n:bigint>", [7] * 10, 9),
        places("last-nulls", "the second group has nulls alone", "struct<n:int>", [1, 2, None, None], 2),
    ]


def vectors():
    """The vectors of this folder."""
    return version_1() + version_2() + others()
