"""Vectors of row indexes' entries, and of what is wrong with indexes."""
from . import fields
from .file import File
from .of_indexes import IN_TURN, LONG, SEVENS, V1, found, good, lists, numbers, rows
from .runs import UNSIGNED, data_of, v1_literals
from .statistics import Stat
from .stripe import BLOOM_FILTER, DATA, LENGTH, ROW_INDEX, Entry, Stripe
from .vector import Vector


def backwards(places, stat):
    """An entry with its statistic first, and its positions in parts: packed, a field each, and an unknown field
    between."""
    return (
        stat
        + fields.packed(1, places[:1])
        + fields.number(9, 1)
        + fields.apart(1, places[1:2])
        + fields.packed(1, places[2:])
    )


def entries():
    """Entries written in other ways, and streams beside them."""
    return [
        good(
            "entries-in-parts",
            "index-entries messages-lists",
            "positions packed and not, in parts, behind the statistic",
            numbers(IN_TURN, 2, entry_text=backwards),
        ),
        good(
            "with-bloom-filters",
            "index-entries stripe-directory",
            "Bloom filters stand between the indexes",
            numbers(
                IN_TURN,
                2,
                arrange=lambda entries: [entries[0], Entry(1, BLOOM_FILTER, b"\x0a\x02\x08\x01"), *entries[1:]],
            ),
        ),
        good(
            "in-any-order",
            "index-entries stripe-directory",
            "indexes in another order than their columns",
            numbers(IN_TURN, 2, arrange=lambda entries: [entries[1], entries[0], *entries[2:]]),
        ),
        Vector(
            "indexes/without-a-stride",
            "index-groups",
            "a stride of 0: row indexes that stand there all the same are passed over, and no group can be read from",
            File("struct<n:bigint>", [Stripe(rows([1]), {(1, ROW_INDEX): b"no index"}, arrange=with_index)], V1),
            places={(0, 0): "file 12 Stripe(0): stripe 7 NoIndex"},
        ),
        Vector(
            "indexes/damaged-before-the-group",
            "positions run-count",
            "the first run says four values and not three: the file is refused, and the rows from group 1 on are right",
            File(
                "struct<n:bigint>",
                [
                    Stripe(
                        rows([7] * 3 + [9] * 3),
                        {(1, DATA): b"\x01" + data_of(SEVENS)[1:]},
                        positions={(1, 0): [0, 0], (1, 1): [3, 0]},
                    )
                ],
                V1,
                stride=3,
            ),
            places=[(0, 1)],
            fault="file 12 Stripe(0): stripe 3 Run(1, DATA): run 9 TooMany at 3",
        ),
        *(
            damaged_behind(name, shows, kind, content, cells, stride, position, fault)
            for name, shows, kind, content, cells, stride, position, fault in (
                (
                    "a-value-too-many",
                    "the second run has a value more than rows",
                    "bigint",
                    "00000e010012",
                    [7] * 3 + [9] * 3,
                    4,
                    [0, 4],
                    "9 TooMany at 3",
                ),
                (
                    "no-run",
                    "the last byte is no run",
                    "bigint",
                    "00000e00001200",
                    [7] * 3 + [9] * 4,
                    4,
                    [0, 4],
                    "1 Short at 6",
                ),
                (
                    "a-byte-too-many",
                    "the second run has a byte more than rows",
                    "tinyint",
                    "00070109",
                    [7] * 3 + [9] * 3,
                    4,
                    [0, 4],
                    "9 TooMany at 2",
                ),
                (
                    "a-byte-of-booleans-too-many",
                    "three bytes of true and four of false: the last one is too many",
                    "boolean",
                    "00ff0100",
                    [True] * 24 + [False] * 24,
                    46,
                    [0, 5, 6],
                    "9 TooMany at 2",
                ),
            )
        ),
        Vector(
            "indexes/damaged-stripe-before",
            "stripe-footer positions",
            "the first stripe's footer is no message: the file is refused, and the rows of the second stripe are right",
            File(
                "struct<n:bigint>", [Stripe(rows([1, 2]), footer=lambda text: b"\xff" + text[1:]), rows([3])], stride=2
            ),
            places={(0, 0): "file 12 Stripe(0): stripe 9 Wire: wire 3 BadWireType at 0", (1, 0): None},
            fault="file 12 Stripe(0): stripe 9 Wire: wire 3 BadWireType at 0",
        ),
        Vector(
            "indexes/group-behind-the-last",
            "index-groups lists",
            "five rows in groups of two: there is no group 3",
            lists(),
            places={(0, 3): "file 12 Stripe(0): stripe 8 BadPosition"},
            written=False,
        ),
        Vector(
            "indexes/places-that-are-not-there",
            "index-groups",
            "groups and stripes that the file hasn't",
            numbers(SEVENS, 3),
            places={
                (0, 1): None,
                (0, 2): "file 12 Stripe(0): stripe 8 BadPosition",
                (1, 0): "file 9 BadStripe(1)",
                (0, 4294967295): "file 12 Stripe(0): stripe 8 BadPosition",
            },
        ),
        Vector(
            "indexes/no-group-in-a-stripe-of-no-rows",
            "index-groups",
            "a stripe of no rows has no group, not even the first",
            File("struct<n:bigint>", [[], rows([2, 3])], stride=2),
            places={(0, 0): "file 12 Stripe(0): stripe 8 BadPosition", (1, 0): None},
        ),
    ]


def with_index(entries):
    """Puts an index stream in front, which the file's stride doesn't speak of."""
    return [Entry(1, ROW_INDEX, b"no index"), *entries]


def damaged_behind(name, shows, kind, content, cells, stride, position, fault):
    """A file of one column that is wrong behind the place where its second group begins: its rows are refused, and
    those from there on."""
    stripe = Stripe(
        rows(cells),
        {(1, DATA): bytes.fromhex(content)},
        positions={(1, 0): [0] * len(position), (1, 1): position},
    )
    fault = f"file 12 Stripe(0): stripe 3 Run(1, DATA): run {fault}"
    return Vector(
        f"indexes/damaged-behind-the-place-{name}",
        "positions run-count",
        f"{shows}: the file is refused, and so are the rows from the group before",
        File(f"struct<n:{kind}>", [stripe], V1, stride=stride),
        places={(0, 1): fault},
        fault=fault,
    )


def no_index(name, shows, findings, fault, streams=None, **more):
    """A file with an index that isn't there or isn't one."""
    file = File(
        "struct<n:bigint>",
        [Stripe(rows([7] * 3 + [9] * 3), {(1, DATA): SEVENS, **(streams or {})}, **more)],
        V1,
        stride=3,
    )
    return found(name, "findings-entries", shows, file, findings, {(0, 1): f"file 12 Stripe(0): stripe {fault}"})


def bad_entries():
    """Indexes that are missing, don't read, or have another number of entries than there are groups."""
    entry = fields.block(1, fields.packed(1, [0, 0]) + fields.block(2, fields.number(1, 3)))
    of_the_root = fields.block(1, fields.block(2, fields.number(1, 1) + fields.number(10, 0)))
    repeated = fields.block(1, fields.packed(1, [0, 0]) + fields.block(2, b"") + fields.block(2, b""))
    return [
        no_index(
            "missing",
            "no column has a row index",
            ["IndexEntries 0 0", "IndexEntries 0 1"],
            "7 NoIndex(0)",
            {(0, ROW_INDEX): None, (1, ROW_INDEX): None},
        ),
        no_index(
            "missing-of-a-column",
            "a column has no row index",
            "IndexEntries 0 1",
            "7 NoIndex(1)",
            {(1, ROW_INDEX): None},
        ),
        no_index(
            "empty",
            "an index of no bytes, in a stripe that has groups",
            "IndexEntries 0 1",
            "8 BadPosition(1)",
            {(1, ROW_INDEX): b""},
        ),
        no_index(
            "entry-missing",
            "two groups, and one entry",
            "IndexEntries 0 1",
            "8 BadPosition(1)",
            {(1, ROW_INDEX): entry},
        ),
        no_index(
            "entry-too-many",
            "two groups, and three entries",
            "IndexEntries 0 1",
            "8 BadPosition(1)",
            {(1, ROW_INDEX): entry * 3},
        ),
        no_index(
            "no-message",
            "an index that is no message",
            "IndexEntries 0 1",
            "9 Wire: wire 1 Short at 0",
            {(1, ROW_INDEX): entry[:-1]},
        ),
        no_index(
            "statistic-twice",
            "an entry with two statistics is no message",
            "IndexEntries 0 1",
            "9 Wire: wire 5 RepeatedMessage at 8",
            {(1, ROW_INDEX): repeated},
        ),
        found(
            "missing-in-the-second-stripe",
            "findings-entries",
            "the second of three stripes has no index of a column",
            File("struct<n:bigint>", [rows([1, 2, 3]), Stripe(rows([4]), {(1, ROW_INDEX): None}), rows([5])], stride=2),
            "IndexEntries 1 1",
            {(0, 0): None, (0, 1): None, (1, 0): "file 12 Stripe(1): stripe 7 NoIndex(1)", (2, 0): None},
        ),
        found(
            "entry-too-many-in-the-third-stripe",
            "findings-entries",
            "the third stripe has one group, and of the root two entries",
            File(
                "struct<n:bigint>",
                [rows([1, 2, 3]), rows([4]), Stripe(rows([5]), {(0, ROW_INDEX): of_the_root * 2})],
                stride=2,
            ),
            "IndexEntries 2 0",
            {(1, 0): None, (2, 0): "file 12 Stripe(2): stripe 8 BadPosition(0)"},
        ),
        found(
            "entry-missing-and-no-message-in-the-second-stripe",
            "findings-entries",
            "the second stripe has an entry too few of the root, and of its column no message",
            File(
                "struct<n:bigint>",
                [rows([1]), Stripe(rows([2, 3, 4]), {(0, ROW_INDEX): of_the_root, (1, ROW_INDEX): of_the_root[:-1]})],
                stride=2,
            ),
            ["IndexEntries 1 0", "IndexEntries 1 1"],
            [(0, 0)],
        ),
        found(
            "missing-in-a-stripe-of-no-rows",
            "findings-entries",
            "a stripe of no rows, and no index: an index of no bytes should stand there",
            File("struct<n:bigint>", [Stripe([], {(0, ROW_INDEX): None, (1, ROW_INDEX): None}), rows([1])], stride=2),
            ["IndexEntries 0 0", "IndexEntries 0 1"],
        ),
    ]


def bad_position(name, shows, file, findings, places=()):
    return found(name, "findings-positions positions", shows, file, findings, places)


def bad_positions():
    """Positions that aren't those of their groups."""
    outside = "file 12 Stripe(0): stripe 8 BadPosition"
    one = "IndexPosition 0 1 1"
    flags = [{"t": True}] * 12
    texts = [{"s": "ab"}, {"s": "c"}, {"s": "def"}]

    def at(places, stride=3):
        return numbers(SEVENS, stride, positions={(1, 1): places})

    def of_flags(places):
        return File("struct<t:boolean>", [Stripe(flags, positions={(1, 1): places})], V1, stride=6)

    def of_texts(places):
        return File("struct<s:string>", [Stripe(texts, positions={(1, 1): places})], V1, stride=2)

    def of_digits(places):
        cells = [{"t": digit == "1"} for digit in "1001001001001001"]
        return File("struct<t:boolean>", [Stripe(cells, positions={(1, 1): places})], V1, stride=8)

    def of_bytes(places):
        return File("struct<b:tinyint>", [Stripe([{"b": 1}] * 6, positions={(1, 1): places})], V1, stride=3)

    def few(at):
        return {(0, 1): f"file 12 Stripe(0): stripe 3 Run(1, DATA): run {at}"}

    return [
        bad_position("one-value-too-many", "a value too many is passed", at([3, 1]), one),
        bad_position("one-value-too-few", "the run before, and a value too few that is passed", at([0, 2]), one),
        bad_position("no-run", "an offset at which no run begins", at([1, 0]), one),
        bad_position("no-run-and-two-values", "the same, and two values are passed", at([1, 2]), one),
        bad_position(
            "no-run-to-pass",
            "an offset at which no run begins, and a value that is passed",
            at([5, 1]),
            one,
            few("1 Short at 5"),
        ),
        bad_position("behind-all-values", "the stream's end, before its values", at([6, 0]), one, few("8 TooFew at 6")),
        bad_position("one-value-too-many-past-a-run", "the run before, and a value too many", at([0, 4]), one),
        *(
            bad_position(
                f"of-the-third-group-{name}",
                shows,
                numbers(LONG, 65, positions={(1, 2): places}),
                "IndexPosition 0 1 2",
            )
            for name, shows, places in (
                ("at-the-end", "the stream's end, before its last ten values", [6, 0]),
                ("too-far", "130 values are passed, and ten are there", [3, 130]),
                ("at-the-start", "the third group begins where the first does", [0, 0]),
            )
        ),
        bad_position(
            "behind-all-booleans", "the end of the booleans, before the last eight", of_digits([3, 0, 0]), one
        ),
        bad_position("all-bytes-of-booleans", "both bytes of booleans are passed", of_digits([0, 2, 0]), one),
        bad_position("eight-booleans-too-many", "a byte of booleans and eight more", of_digits([0, 1, 8]), one),
        bad_position("seven-of-eight-booleans", "a boolean too few is passed", of_digits([0, 0, 7]), one),
        bad_position(
            "past-the-end-of-bytes",
            "an offset past the bytes' end",
            of_bytes([8, 0]),
            one,
            {(0, 1): f"{outside}(1, DATA)"},
        ),
        bad_position(
            "past-the-end", "an offset past the stream's end", at([7, 0]), one, {(0, 1): f"{outside}(1, DATA)"}
        ),
        bad_position(
            "past-all-values", "more values are passed than follow", at([3, 4]), one, {(0, 1): f"{outside}(1, DATA)"}
        ),
        bad_position("one-number", "one number where two should be", at([3]), one, {(0, 1): f"{outside}(1)"}),
        bad_position(
            "three-numbers", "three numbers where two should be", at([3, 0, 0]), one, {(0, 1): f"{outside}(1)"}
        ),
        bad_position(
            "none-of-a-column-without-streams",
            "a number for the root, which has no stream",
            numbers(SEVENS, 3, positions={(0, 1): [0]}),
            "IndexPosition 0 0 1",
            {(0, 1): f"{outside}(0)"},
        ),
        bad_position(
            "nine-booleans",
            "nine booleans of a byte are passed",
            of_flags([0, 0, 9]),
            one,
            {(0, 1): f"{outside}(1, DATA)"},
        ),
        bad_position("wrong-boolean", "a boolean too few is passed", of_flags([0, 0, 5]), one),
        bad_position("wrong-byte-of-booleans", "a byte too many is passed", of_flags([0, 1, 6]), one),
        bad_position("wrong-offset-of-texts", "an offset in the middle of the text before", of_texts([2, 0, 2]), one),
        bad_position(
            "offset-past-the-texts",
            "an offset past the texts' end",
            of_texts([7, 0, 2]),
            one,
            {(0, 1): f"{outside}(1, DATA)"},
        ),
        bad_position(
            "wrong-lengths",
            "the lengths are entered at another place than the texts",
            File(
                "struct<s:string>",
                [Stripe(texts, {(1, LENGTH): v1_literals([2, 1, 3], UNSIGNED)}, positions={(1, 1): [3, 0, 1]})],
                V1,
                stride=2,
            ),
            one,
        ),
        bad_position(
            "wrong-present",
            "PRESENT is entered a cell too early",
            File("struct<n:int>", [Stripe(rows([1, None, 2, 3]), positions={(1, 1): [0, 0, 1, 0, 1]})], V1, stride=2),
            one,
        ),
        bad_position(
            "of-elements",
            "the elements of lists are entered one too late",
            lists(positions={(3, 1): [0, 3]}),
            "IndexPosition 0 3 1",
        ),
        bad_position(
            "and-a-statistic",
            "a group's statistic and another one's position are wrong",
            lists(positions={(3, 1): [0, 3]}, entry_stats={(3, 0): Stat(2, False, min=1, max=4, sum=3)}),
            ["IndexStatistic 0 3 0", "IndexPosition 0 3 1"],
        ),
        bad_position(
            "of-the-first-group",
            "the first group doesn't begin at the stream's start",
            numbers(SEVENS, 3, positions={(1, 0): [3, 0]}),
            "IndexPosition 0 1 0",
            [(0, 1)],
        ),
    ]


def bad_statistics():
    """Statistics of groups that aren't those of their rows."""
    ints = Stat(3, False, min=9, max=9, sum=27)

    def of(stat):
        return numbers(SEVENS, 3, entry_stats={(1, 1): stat})

    def finding(name, shows, stat):
        return found(name, "findings-statistics", shows, of(stat), "IndexStatistic 0 1 1", [(0, 1)])

    lists = Stat(2, False, min=0, max=2, sum=2)
    return [
        finding("statistic-missing", "an entry without a statistic", None),
        finding("statistic-count", "another number of values", ints.but(count=2)),
        finding("statistic-minimum", "another least value", ints.but(min=8)),
        finding("statistic-sum-missing", "a sum that isn't told", ints.but(sum=None)),
        finding("statistic-nulls-unknown", "nothing is said of nulls", ints.but(nulls=None)),
        finding("statistic-count-too-large", "a number of values above 2^62", ints.but(count=(1 << 62) + 1)),
        found(
            "statistic-true-too-large",
            "findings-statistics statistics-limits",
            "a count of true above 2^62",
            File(
                "struct<t:boolean>",
                [Stripe([{"t": True}] * 4, entry_stats={(1, 1): Stat(2, False, true=(1 << 62) + 1)})],
                V1,
                stride=2,
            ),
            "IndexStatistic 0 1 1",
            [(0, 0), (0, 1)],
        ),
        found(
            "statistic-count-too-large-in-the-second-stripe",
            "findings-statistics statistics-limits",
            "the second stripe's group tells of more than 2^62 values of the root",
            File(
                "struct<n:bigint>",
                [rows([1]), Stripe(rows([2, 3, 4]), entry_stats={(0, 1): Stat((1 << 62) + 1, False)})],
                V1,
                stride=2,
            ),
            "IndexStatistic 1 0 1",
            [(1, 0), (1, 1)],
        ),
        found(
            "statistic-of-children-unknown",
            "children-unknown",
            "an entry that doesn't tell of a list's elements: that is not known, and no finding",
            File(
                "struct<a:array<int>>",
                [Stripe([{"a": [1, 2]}, {"a": []}], entry_stats={(1, 0): Stat(2, False)})],
                stride=2,
            ),
            [],
        ),
        found(
            "statistic-of-children-wrong",
            "children-unknown findings-statistics",
            "an entry that tells one part of a list's elements, and tells it wrong",
            File(
                "struct<a:array<int>>",
                [Stripe([{"a": [1, 2]}, {"a": []}], entry_stats={(1, 0): lists.but(min=None, max=3, sum=None)})],
                stride=2,
            ),
            "IndexStatistic 0 1 0",
        ),
        found(
            "findings-in-order",
            "findings-order",
            "findings stripe by stripe, column by column, for each its statistic, then group by group; last the file's",
            in_order(),
            [
                "StripeStatistic 0 0",
                "IndexEntries 0 0",
                "IndexStatistic 0 1 0",
                "IndexStatistic 0 1 1",
                "IndexPosition 0 1 1",
                "StripeStatistic 1 1",
                "IndexPosition 1 1 0",
                "FileStatistic 0",
                "FileStatistic 1",
            ],
        ),
    ]


def in_order():
    """A file with each kind of finding."""
    wrong = Stat(9, True)
    first = Stripe(
        rows([7] * 3 + [9] * 3),
        {(1, DATA): SEVENS, (0, ROW_INDEX): b""},
        positions={(1, 1): [0, 2]},
        entry_stats={(1, 0): wrong, (1, 1): None},
        stats={0: wrong},
    )
    second = Stripe(rows([1, 2, 3]), positions={(1, 0): [0, 1]}, stats={1: wrong})
    return File("struct<n:bigint>", [first, second], V1, stride=3, stats={0: wrong, 1: wrong})


def vectors():
    """The vectors of entries and of what is wrong."""
    return entries() + bad_entries() + bad_positions() + bad_statistics()
