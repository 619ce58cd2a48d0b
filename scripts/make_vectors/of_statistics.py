"""Vectors of statistics: known and unknown, right and wrong, of stripes and of files."""
from . import fields
from .file import File
from .of_indexes import EACH, EACH_ROWS
from .runs import byte_literals
from .statistics import Stat
from .stripe import DATA, Stripe
from .vector import Vector

TOP, BOTTOM = (1 << 63) - 1, -(1 << 63)


KINDS = "struct<t:boolean,a:tinyint,b:smallint,c:int,d:bigint,s:string,v:binary,e:date,l:array<int>,r:struct<x:bigint>>"
KIND_ROWS = [
    {
        **{"t": True, "a": -128, "b": 300, "c": -70000, "d": TOP, "s": "zwölf", "v": b"\x00\xff", "e": 19782},
        **{"l": [1, 2], "r": {"x": 5}},
    },
    {"t": False, "a": 127, "b": -300, "c": 70000, "d": BOTTOM, "s": "a", "v": b"", "e": -1, "l": [], "r": None},
    {},
]


def rows(*values):
    """Rows of one number."""
    return [{"n": value} for value in values]


def lists(*values):
    """Rows of one list."""
    return [{"a": value} for value in values]


def good(name, rules, shows, file):
    return Vector(f"statistics/{name}", rules, shows, file)


def found(name, shows, file, *findings, rules="findings-statistics"):
    return Vector(f"statistics/{name}", rules, shows, file, findings, written=False)


def of_stripe(stat, cells, kind="bigint", spelled=None):
    """A file of one column, whose stripe and whose file have that statistic, spelled as these bytes if any are
    given."""
    if spelled is not None:
        stat.spelled(spelled)
    file_stat = stat.but() if spelled is None else stat.but().spelled(spelled)
    return File(f"struct<n:{kind}>", [Stripe(rows(*cells), stats={1: stat})], stats={1: file_stat})


def told():
    """Statistics as they are, and what may stand beside them."""
    ints = fields.block(2, fields.signed(1, 3) + fields.signed(2, 5) + fields.signed(3, 8))
    three = Stat(2, False, min=3, max=5, sum=8)
    return [
        good(
            "each-kind",
            "statistics",
            "a column of each kind, in two stripes and in the file",
            File(EACH, [EACH_ROWS[:4], EACH_ROWS[4:]]),
        ),
        good(
            "extremes",
            "statistics",
            "the ends of each kind, in two stripes",
            File(KINDS, [KIND_ROWS[:2], KIND_ROWS[2:]]),
        ),
        good("no-values", "statistics", "no value: the count is 0, and no part is known", File(EACH, [[{}, {}]])),
        good(
            "no-cells",
            "statistics",
            "no cell: the count is 0, and nothing is null",
            File("struct<a:array<int>>", [lists([], None)]),
        ),
        good(
            "no-cells-of-each-kind",
            "statistics",
            "the same of a column of each kind, below a list that has no element",
            File(f"struct<l:array<{EACH}>>", [[{"l": []}]]),
        ),
        good("no-stripes", "statistics", "a file of no stripes tells the same of each kind", File(EACH, [])),
        good(
            "texts-by-bytes",
            "statistics",
            "texts are ordered by their bytes as numbers without a sign",
            File("struct<n:string>", [rows("z", "ä", "日", "Z", "")]),
        ),
        good("booleans", "statistics", "how many are true", File("struct<n:boolean>", [rows(True, False, True, None)])),
        good(
            "binary", "statistics", "the sum of lengths alone", File("struct<n:binary>", [rows(b"abc", b"", b"\x00")])
        ),
        good("days", "statistics", "the first and the last day", File("struct<n:date>", [rows(3, -40000, 2932897)])),
        good(
            "days-of-32-bits",
            "statistics messages-range",
            "the least and the greatest day that there can be",
            File("struct<n:date>", [rows(-(1 << 31), (1 << 31) - 1)]),
        ),
        good(
            "children",
            "statistics",
            "the least and the greatest number of elements, and all together",
            File("struct<a:array<int>,m:map<int,int>>", [[{"a": [1, 2], "m": []}, {"a": [3], "m": None}]]),
        ),
        good(
            "sum-that-does-not-fit",
            "statistics-sums",
            "a sum past 64 bits isn't told",
            File("struct<n:bigint>", [rows(TOP, 1)]),
        ),
        good(
            "sum-back-within",
            "statistics-sums",
            "the total fits, although it doesn't on the way",
            File("struct<n:bigint>", [rows(TOP, 1, -1)]),
        ),
        good("sum-at-the-least", "statistics-sums", "a sum of -2^63", File("struct<n:bigint>", [rows(BOTTOM + 7, -7)])),
        good(
            "sum-of-a-stripe-that-does-not-fit",
            "statistics-sums",
            "a stripe's sum doesn't fit, so the file's isn't told, although it would fit",
            File("struct<n:bigint>", [rows(TOP, 1), rows(-1)]),
        ),
        good(
            "record-without-values",
            "statistics",
            "where there is no value a record means nothing",
            of_stripe(Stat(0, True), [None], spelled=fields.number(1, 0) + ints + fields.number(10, 1)),
        ),
        good(
            "record-of-another-kind",
            "statistics",
            "a record of another kind than the column's doesn't count",
            of_stripe(
                Stat(2, False, min=3, max=5, sum=8),
                [3, 5],
                spelled=fields.number(1, 2)
                + fields.block(4, fields.block(1, "x"))
                + ints
                + fields.block(7, b"")
                + fields.number(10, 0),
            ),
        ),
        good(
            "fields-out-of-order",
            "statistics messages",
            "the fields in another order",
            of_stripe(
                three,
                [3, 5],
                spelled=fields.number(10, 0)
                + fields.block(2, fields.signed(3, 8) + fields.signed(2, 5) + fields.signed(1, 3))
                + fields.number(1, 2),
            ),
        ),
        good(
            "fields-of-other-readers",
            "statistics messages-unknown",
            "bytes on disk, and the records of doubles, decimals and timestamps",
            of_stripe(
                three,
                [3, 5],
                spelled=fields.number(1, 2)
                + ints
                + fields.block(3, fields.eight(1, 0))
                + fields.block(6, fields.block(1, "1"))
                + fields.block(9, fields.signed(1, 0))
                + fields.number(10, 0)
                + fields.number(11, 77),
            ),
        ),
        good(
            "bounds-of-long-texts",
            "statistics messages-unknown",
            "bounds beside the least and the greatest text are passed over",
            of_stripe(
                Stat(1, False, min=b"q", max=b"q", sum=1),
                ["q"],
                "string",
                fields.number(1, 1)
                + fields.block(
                    4,
                    fields.block(1, "q")
                    + fields.block(2, "q")
                    + fields.signed(3, 1)
                    + fields.block(4, "p")
                    + fields.block(5, "r"),
                )
                + fields.number(10, 0),
            ),
        ),
        good(
            "second-bucket",
            "statistics",
            "of buckets the first number counts, packed or not",
            of_stripe(
                Stat(3, False, true=2),
                [True, True, False],
                "boolean",
                fields.number(1, 3) + fields.block(5, fields.apart(1, [2, 1])) + fields.number(10, 0),
            ),
        ),
        good(
            "numbers-twice",
            "messages-last",
            "of a number that stands twice the last counts",
            of_stripe(
                three,
                [3, 5],
                spelled=fields.number(1, 9)
                + fields.block(
                    2, fields.signed(1, -9) + fields.signed(1, 3) + fields.signed(2, 5) + fields.signed(3, 8)
                )
                + fields.number(10, 1)
                + fields.number(10, 0)
                + fields.number(1, 2),
            ),
        ),
        good(
            "nulls-of-two",
            "messages-last",
            "a bool is true where it isn't 0",
            of_stripe(
                Stat(1, True, min=4, max=4, sum=4),
                [4, None],
                spelled=fields.number(1, 1)
                + fields.block(2, fields.signed(1, 4) + fields.signed(2, 4) + fields.signed(3, 4))
                + fields.number(10, 2),
            ),
        ),
    ]


def unknown():
    """Statistics that tell less than there is."""
    none = {0: Stat(2, False), 1: Stat(1, True)}
    cells = lists([1, 2], None)
    tells = Stat(1, True, min=2, max=2, sum=2)
    no_stripe = [f"StripeStatistic 0 {column}" for column in range(3)]
    return [
        good(
            "children-unknown",
            "children-unknown",
            "nothing is told of children: not known, and no finding",
            File("struct<a:array<int>>", [Stripe(cells, stats={**none})]),
        ),
        good(
            "children-known-in-part",
            "children-unknown",
            "the greatest number of children alone is told",
            File("struct<a:array<int>>", [Stripe(cells, stats={1: Stat(1, True, max=2)})]),
        ),
        good(
            "children-of-one-stripe",
            "children-unknown",
            "one stripe doesn't tell of children: the file doesn't either",
            File("struct<a:array<int>>", [Stripe(cells, stats={1: Stat(1, True)}), Stripe(lists([1]))]),
        ),
        good(
            "children-of-a-stripe-without-values",
            "children-unknown",
            "a stripe without a list that isn't null takes no part",
            File("struct<a:array<int>>", [Stripe(lists(None)), Stripe(lists([1]))]),
        ),
        found(
            "children-that-a-stripe-does-not-tell",
            "the file tells how many children there are, and a stripe doesn't",
            File("struct<a:array<int>>", [Stripe(cells, stats={1: Stat(1, True)})], stats={1: tells}),
            "FileStatistic 1",
            rules="children-unknown findings-statistics",
        ),
        found(
            "children-that-a-stripe-tells-in-part",
            "the file tells how many children there are, and a stripe the greatest number alone",
            File("struct<a:array<int>>", [Stripe(cells, stats={1: Stat(1, True, max=2)})], stats={1: tells}),
            "FileStatistic 1",
            rules="children-unknown findings-statistics",
        ),
        found(
            "children-that-no-stripe-tells",
            "the file tells how many children there are, and of stripes there are no statistics",
            File("struct<a:array<int>>", [cells], tells_stripes=False),
            *no_stripe,
            "FileStatistic 1",
            rules="children-unknown findings-statistics",
        ),
        found(
            "children-that-nobody-tells",
            "the same, and the file doesn't tell either",
            File("struct<a:array<int>>", [cells], tells_stripes=False, stats={1: Stat(1, True)}),
            *no_stripe,
            rules="children-unknown findings-statistics",
        ),
        found(
            "children-total-wrong",
            "one child more than there are",
            File("struct<a:array<int>>", [Stripe(cells, stats={1: tells.but(sum=3)})]),
            "StripeStatistic 0 1",
            "FileStatistic 1",
            rules="children-unknown findings-statistics",
        ),
        found(
            "nulls-unknown",
            "nothing is said of nulls: not known, which is a finding",
            File("struct<n:int>", [Stripe(rows(1), stats={0: Stat(1, None), 1: Stat(1, None, min=1, max=1, sum=1)})]),
            "StripeStatistic 0 0",
            "StripeStatistic 0 1",
            "FileStatistic 0",
            "FileStatistic 1",
            rules="nulls-unknown findings-statistics",
        ),
        found(
            "nulls-unknown-of-the-file",
            "the stripes say of nulls, and the file doesn't",
            File("struct<n:int>", [Stripe(rows(1))], stats={1: Stat(1, None, min=1, max=1, sum=1)}),
            "FileStatistic 1",
            rules="nulls-unknown findings-statistics",
        ),
        found(
            "sum-missing",
            "a sum that fits and isn't told",
            File("struct<n:int>", [Stripe(rows(1, 2), stats={1: Stat(2, False, min=1, max=2)})]),
            "StripeStatistic 0 1",
            "FileStatistic 1",
        ),
        found(
            "record-missing",
            "a column with values, and no record",
            File("struct<n:int>", [Stripe(rows(1, 2), stats={1: Stat(2, False)})]),
            "StripeStatistic 0 1",
            "FileStatistic 1",
        ),
        found(
            "none-of-stripes",
            "no statistics of stripes",
            File("struct<n:int>", [rows(1), rows(2)], tells_stripes=False),
            "StripeStatistic 0 0",
            "StripeStatistic 0 1",
            "StripeStatistic 1 0",
            "StripeStatistic 1 1",
        ),
        found(
            "none-of-the-file",
            "no statistics of the file",
            File("struct<n:int>", [rows(1)], tells_file=False),
            "FileStatistic 0",
            "FileStatistic 1",
        ),
        found(
            "none-of-the-last-stripe",
            "two stripes, and statistics of the first",
            File("struct<n:int>", [rows(1), rows(2)], metadata=lambda text: text[: len(text) // 2]),
            "StripeStatistic 1 0",
            "StripeStatistic 1 1",
        ),
        found(
            "none-of-the-last-column",
            "two columns, and statistics of the first",
            File(
                "struct<n:int>",
                [rows(1)],
                metadata=lambda text: fields.block(1, fields.block(1, fields.number(1, 1) + fields.number(10, 0))),
            ),
            "StripeStatistic 0 1",
        ),
        found(
            "none-of-the-file-without-rows",
            "a file of no rows without statistics",
            File("struct<n:int>", [], tells_file=False),
            "FileStatistic 0",
            "FileStatistic 1",
        ),
    ]


def wrong():
    """Statistics that aren't those of the rows."""
    ints = Stat(3, True, min=7, max=9, sum=24)
    texts = Stat(2, False, min=b"a", max=b"b", sum=2)

    def of(stat, cells=(7, 8, 9, None), kind="bigint"):
        return File(f"struct<n:{kind}>", [Stripe(rows(*cells), stats={1: stat})])

    def both(name, shows, *parts):
        return found(name, shows, of(*parts), "StripeStatistic 0 1", "FileStatistic 1")

    return [
        found(
            "wrong-pairs",
            "a map with a pair more than it has",
            File(
                "struct<m:map<string,int>>",
                [Stripe([{"m": [["a", 1]]}], stats={1: Stat(1, False, min=1, max=2, sum=1)})],
            ),
            "StripeStatistic 0 1",
            "FileStatistic 1",
        ),
        Vector(
            "statistics/finding-before-a-bad-stripe",
            "findings-order run-count",
            "the first stripe has a wrong statistic, and the second is bad: the file is refused, and nothing is told",
            File("struct<n:int>", [Stripe(rows(1), stats={1: Stat(1, False)}), Stripe(rows(2), {(1, DATA): b"\x4a"})]),
            fault="file 12 Stripe(1): stripe 3 Run(1, DATA): run 1 Short at 0",
            good_stripes=1,
        ),
        both("wrong-count", "a value too many", ints.but(count=4)),
        both("wrong-nulls", "no null is told, and one is there", ints.but(nulls=False)),
        both("wrong-minimum", "a least value that no row has", ints.but(min=6)),
        both("wrong-maximum", "a greatest value below that of the rows", ints.but(max=8)),
        both("wrong-sum", "a sum that is one too great", ints.but(sum=25)),
        both(
            "sum-that-wrapped",
            "a sum that doesn't fit, told without its highest bit",
            Stat(2, False, min=1, max=TOP, sum=BOTTOM),
            (TOP, 1),
        ),
        both("wrong-text", "a greatest text that was cut", texts.but(max=b""), ("a", "b"), "string"),
        found(
            "text-that-is-none",
            "a least text that is no UTF-8",
            File("struct<n:string>", [Stripe(rows("a", "b"), stats={1: texts.but(min=b"\xff")})]),
            "StripeStatistic 0 1",
            "FileStatistic 1",
            rules="findings-statistics shown",
        ),
        both("wrong-length", "a sum of lengths of another number", texts.but(sum=3), ("a", "b"), "string"),
        both("wrong-booleans", "one that is true too few", Stat(2, False, true=0), (True, False), "boolean"),
        both("wrong-day", "a first day that is a day late", Stat(2, False, min=1, max=5), (0, 5), "date"),
        both("wrong-bytes", "a sum of lengths of another number", Stat(1, False, sum=3), (b"ab",), "binary"),
        found(
            "wrong-root",
            "the root's number of values isn't that of the rows",
            File("struct<n:int>", [Stripe(rows(1, 2), stats={0: Stat(3, False)})]),
            "StripeStatistic 0 0",
            "FileStatistic 0",
        ),
        found(
            "wrong-of-one-stripe",
            "the second of three stripes tells of another greatest value",
            File(
                "struct<n:bigint>", [rows(1), Stripe(rows(2), stats={1: Stat(1, False, min=2, max=3, sum=2)}), rows(9)]
            ),
            "StripeStatistic 1 1",
        ),
        found(
            "wrong-of-the-file",
            "the file tells of another sum",
            File("struct<n:bigint>", [rows(1), rows(2)], stats={1: Stat(2, False, min=1, max=2, sum=4)}),
            "FileStatistic 1",
        ),
        found(
            "sum-of-the-file-that-a-stripe-lost",
            "the file tells a sum, although a stripe's doesn't fit",
            File("struct<n:bigint>", [rows(TOP, 1), rows(-1)], stats={1: Stat(3, False, min=-1, max=TOP, sum=TOP)}),
            "FileStatistic 1",
            rules="statistics-sums findings-statistics",
        ),
        found(
            "most-values",
            "the greatest number of values that is read",
            File("struct<n:bigint>", [Stripe(rows(1), stats={1: Stat(1 << 62, False)})]),
            "StripeStatistic 0 1",
            "FileStatistic 1",
            rules="statistics-limits findings-statistics",
        ),
        found(
            "count-of-true-without-values",
            "where there is no value the count of true may be anything",
            of_stripe(
                Stat(0, True),
                [None],
                "boolean",
                fields.number(1, 0) + fields.block(5, fields.packed(1, [TOP])) + fields.number(10, 1),
            ),
            rules="statistics-limits",
        ),
    ]


def refused():
    """Statistics for which a file is refused."""
    over = (1 << 62) + 1

    def in_file(name, rules, shows, text, fault, kind="bigint"):
        stripe = Stripe(rows(1), stats={1: Stat(1, False).spelled(text)})
        return Vector(f"statistics/{name}", rules, shows, File(f"struct<n:{kind}>", [stripe]), fault=fault, tail=False)

    twice = fields.block(2, b"")
    ready = File("struct<n:bigint>", [rows(1)], stats={1: Stat(1, False).spelled(fields.number(1, 1) + twice * 2)})
    return [
        in_file(
            "too-many-values",
            "statistics-limits",
            "a number of values of 2^62 + 1",
            fields.number(1, over),
            "file 11 Limit",
        ),
        Vector(
            "statistics/too-many-true",
            "statistics-limits",
            "a count of true of 2^62 + 1",
            File(
                "struct<n:boolean>",
                [Stripe([{"n": True}], {(1, DATA): byte_literals([128])}, stats={1: Stat(1, False, true=over)})],
                stats={1: Stat(1, False)},
            ),
            fault="file 11 Limit",
            tail=False,
        ),
        Vector(
            "statistics/too-many-values-of-the-second-stripe",
            "statistics-limits",
            "the second stripe tells of 2^62 + 1 values of the root",
            File(
                "struct<n:bigint>",
                [rows(1), Stripe(rows(2), stats={0: Stat(over, False)})],
                stats={0: Stat(2, False)},
            ),
            fault="file 11 Limit",
            tail=False,
        ),
        Vector(
            "statistics/too-many-values-of-the-file",
            "statistics-limits",
            "the stripe tells of one value, and the file of 2^62 + 1",
            File("struct<n:bigint>", [rows(1)], stats={1: Stat(over, False)}),
            fault="file 11 Limit",
            tail=False,
        ),
        Vector(
            "statistics/too-many-true-of-the-file",
            "statistics-limits",
            "the stripe tells of one that is true, and the file of 2^62 + 1",
            File("struct<n:boolean>", [rows(True)], stats={1: Stat(1, False, true=over)}),
            fault="file 11 Limit",
            tail=False,
        ),
        in_file(
            "record-twice",
            "messages-repeated",
            "two records of numbers in a stripe's statistic",
            fields.number(1, 1) + twice * 2,
            "file 7 BadMetadata",
        ),
        Vector(
            "statistics/record-twice-of-the-file",
            "messages-repeated",
            "two records of numbers in the file's statistic",
            ready,
            fault="file 6 BadFooter",
            tail=False,
        ),
        in_file(
            "day-of-33-bits",
            "messages-range",
            "a first day whose zigzag number is 2^32",
            fields.number(1, 1) + fields.block(7, fields.number(1, 1 << 32)) + fields.number(10, 0),
            "file 7 BadMetadata",
            "date",
        ),
        in_file(
            "record-cut",
            "messages",
            "a record that ends within a number",
            fields.number(1, 1) + fields.block(2, b"\x08"),
            "file 7 BadMetadata",
        ),
    ]


def vectors():
    """The vectors of this folder."""
    return told() + unknown() + wrong() + refused()
