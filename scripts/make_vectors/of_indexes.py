"""Vectors of row indexes: positions at every kind of place."""
from .file import File
from .runs import byte_literals, byte_repeat, delta, direct, short_repeat, v1_literals, v1_run
from .statistics import Stat
from .stripe import DATA, PRESENT, Stripe
from .vector import Vector, places_of

V1 = (0, 11)
EACH = (
    "struct<a:boolean,b:tinyint,c:smallint,d:int,e:bigint,f:date,g:string,h:binary,i:array<int>,"
    "j:struct<k:string>,m:map<string,int>>"
)


def each(a, b, e, f, g, h, i, k, m):
    """A row with a value of each kind."""
    return {"a": a, "b": b, "c": b * 256, "d": b << 24, "e": e, "f": f, "g": g, "h": h, "i": i, "j": {"k": k}, "m": m}


EACH_ROWS = [
    each(True, -128, 1, 19782, "ä", b"\x00\xff", [1, None], "x", [["p", 1]]),
    {},
    each(False, 127, 2, -719162, "ä", b"", [], None, []),
    each(True, 1, 3, 2932896, "", b"\x7f", [2, 3, 4], "x", [["q", None], ["q", 2]]),
    each(True, 1, 4, 0, "ä", b"\x80", [5], "y", None),
    each(False, 0, 5, -1, "b", b"\x81", [None], "x", [[None, 3]]),
    each(False, 0, 6, -1, "b", b"\x82", [6, 7], "x", []),
]
LISTS = [{"a": cell} for cell in ([[1, 2], []], None, [], [None, [3]], [[4, 5, 6]])]


NESTED = (
    "struct<a:map<map<int,int>,map<int,int>>,b:map<string,array<int>>,s:struct<m:map<struct<k:int>,struct<v:date>>>>"
)
NESTED_ROWS = [
    {
        "a": [[[[1, 2], [3, 4]], [[5, 6]]], [[], None], [None, []]],
        "b": [["x", [1, None]], ["x", []]],
        "s": {"m": [[{"k": 1}, {"v": 19782}], [None, None]]},
    },
    {},
    {"a": [], "b": [], "s": {"m": None}},
    {"a": [[[[1, 2]], None], [[[1, 2]], None]], "b": [[None, None], ["y", [2, 3]]], "s": {"m": []}},
    {"a": [[[], [[7, None], [None, 8]]]], "b": [["", [4]]], "s": {"m": [[{"k": None}, {"v": None}]]}},
]
# statistics of lists that don't say how many elements they have, of a stripe and of its groups
UNTOLD = {
    "stats": {1: Stat(4, True), 2: Stat(4, True)},
    "entry_stats": {
        (1, 0): Stat(1, True),
        (1, 1): Stat(2, False),
        (1, 2): Stat(1, False),
        (2, 0): Stat(2, False),
        (2, 1): Stat(1, True),
        (2, 2): Stat(1, False),
    },
}


def lists(**choices):
    """The lists of lists in one stripe, in groups of two rows."""
    return File("struct<a:array<array<int>>>", [Stripe(LISTS, **choices)], V1, stride=2)


def nested(version):
    """Maps of maps, of lists and of structs, in two stripes."""
    return File(NESTED, [NESTED_ROWS[:4], NESTED_ROWS[4:]], version, stride=2)


def rows(values):
    """Rows of one number."""
    return [{"n": value} for value in values]


def good(name, rules, shows, file, **more):
    return Vector(f"indexes/{name}", rules, shows, file, places=places_of(file), **more)


def found(name, rules, shows, file, findings, places=()):
    return Vector(f"indexes/{name}", rules, shows, file, findings, places, written=False)


def numbers(streams, stride, version=V1, kind="bigint", **more):
    """A file of one column of numbers, whose DATA is these runs, with row indexes."""
    values = [value for run in streams for value in run[1]]
    return File(f"struct<n:{kind}>", [Stripe(rows(values), {(1, DATA): streams}, **more)], version, stride=stride)


SEVENS = v1_run(7, 0, 3) + v1_run(9, 0, 3)
IN_TURN = v1_run(1, 1, 3) + v1_literals([9, 9]) + v1_run(0, -5, 4) + v1_literals([3])
LONG = v1_run(7, 0, 130) + v1_run(7, 0, 10)


def positions():
    """Positions that are right."""
    nulls = [None, 1, None, None, 2, 3, None, None, None, 4]
    flags = [True, False] * 4 + [True] * 19
    flag_runs = byte_literals([0xAA]) + byte_repeat(0xFF, 3)
    all_true = [True] * 24
    texts = ["one", "two", "one", None, "two"]
    return [
        good(
            "each-kind-1",
            "positions index-entries",
            "a column of each kind, in version 1",
            File(EACH, [EACH_ROWS[:5], EACH_ROWS[5:]], V1, stride=2),
        ),
        good(
            "each-kind-2",
            "positions index-entries",
            "the same in version 2",
            File(EACH, [EACH_ROWS[:5], EACH_ROWS[5:]], stride=2),
        ),
        good("stride-of-1", "index-groups", "a group for each row", numbers(IN_TURN, 1)),
        good(
            "stride-of-the-stripe",
            "index-groups",
            "a stride of as many rows as there are: one group",
            numbers(SEVENS, 6),
        ),
        good(
            "stride-above-the-stripe",
            "index-groups",
            "a stride of more rows than there are: one group",
            numbers(SEVENS, 4294967295),
        ),
        good("last-group-shorter", "index-groups", "the last group has fewer rows", numbers(IN_TURN, 4)),
        good(
            "at-the-start-of-a-run",
            "positions",
            "a group begins where a run does: nothing is passed",
            numbers(SEVENS, 3),
        ),
        good("within-runs", "positions", "groups begin within runs and within literals", numbers(IN_TURN, 2)),
        good(
            "within-runs-2",
            "positions",
            "groups begin within each form of version 2",
            numbers(short_repeat(-1, 7) + direct([3, 1, 4, 1, 5]) + delta([2, 3, 5, 7, 11, 13]), 2, (0, 12)),
        ),
        good(
            "past-a-run",
            "positions positions-own",
            "a position in front of the run before, whose values are passed too",
            numbers(IN_TURN, 2, back=1),
        ),
        good(
            "past-many-runs",
            "positions positions-own",
            "all positions at the stream's start, and all values before are passed",
            numbers(IN_TURN, 3, back=99),
        ),
        good(
            "past-a-run-2",
            "positions positions-own",
            "the same in version 2",
            numbers(short_repeat(-1, 7) + direct([3, 1, 4, 1, 5]) + delta([2, 3, 5, 7, 11, 13]), 4, (0, 12), back=1),
        ),
        good(
            "of-booleans",
            "positions",
            "three numbers: a run of bytes, bytes and booleans that are passed",
            File("struct<t:boolean>", [Stripe([{"t": flag} for flag in flags], {(1, DATA): flag_runs})], V1, stride=5),
        ),
        good(
            "of-eight-booleans",
            "positions positions-own",
            "the next byte's first boolean as eight booleans that are passed of the byte before",
            File(
                "struct<t:boolean>",
                [
                    Stripe(
                        [{"t": flag} for flag in all_true],
                        {(1, DATA): byte_repeat(255, 3)},
                        positions={(1, 1): [0, 0, 8], (1, 2): [0, 1, 8]},
                    )
                ],
                V1,
                stride=8,
            ),
        ),
        good(
            "of-bytes",
            "positions",
            "two numbers: a run of bytes, and bytes that are passed",
            File("struct<b:tinyint>", [[{"b": n % 5} for n in range(9)]], stride=2),
        ),
        good(
            "of-bytes-past-a-run",
            "positions positions-own",
            "a position in front of the run before, whose bytes are passed too",
            File(
                "struct<b:tinyint>",
                [
                    Stripe(
                        [{"b": byte} for byte in [1] * 4 + [5, 6, 7] + [-1] * 3],
                        {(1, DATA): byte_repeat(1, 4) + byte_literals([5, 6, 7]) + byte_repeat(255, 3)},
                        back=1,
                    )
                ],
                V1,
                stride=3,
            ),
        ),
        good(
            "within-the-second-run",
            "positions",
            "a run of 130 values and one of 10, and a group that begins with its ninth",
            numbers(LONG, 46),
        ),
        good(
            "past-a-run-of-130",
            "positions positions-own",
            "the first value of the second run as one behind the 130 of the first",
            numbers(LONG, 65, positions={(1, 2): [0, 130]}),
        ),
        good(
            "of-nulls",
            "positions nulls",
            "positions of PRESENT, and of DATA behind the values that aren't null",
            File("struct<n:int>", [rows(nulls)], stride=3),
        ),
        good(
            "of-all-nulls",
            "positions",
            "a DATA without bytes has the position 0 0",
            File("struct<n:int>", [rows([None] * 5)], stride=2),
        ),
        good(
            "of-empty-lists",
            "positions missing-streams",
            "no list has an element: the column below has no stream, and the position 0 0",
            File("struct<a:array<int>>", [[{"a": cell} for cell in ([], None, [], [], [])]], stride=2),
        ),
        good(
            "of-empty-maps",
            "positions missing-streams",
            "no map has a pair: the same of the columns of keys and of values",
            File("struct<m:map<string,int>>", [[{"m": cell} for cell in ([], None, [])]], stride=2),
        ),
        good(
            "of-null-structs",
            "positions missing-streams",
            "all structs are null: the columns below have no stream",
            File("struct<s:struct<n:int,t:string>>", [[{"s": None}] * 3], stride=2),
        ),
        good(
            "of-empty-binaries",
            "positions missing-streams",
            "bytes and texts that are all empty: LENGTH alone",
            File("struct<v:binary,s:string>", [[{"v": b"", "s": ""}] * 3], stride=2),
        ),
        good(
            "of-an-empty-present",
            "positions nulls empty-present",
            "a PRESENT without bytes has no position",
            File("struct<n:int>", [Stripe(rows([1, 2, 3]), {(1, PRESENT): []})], stride=2),
        ),
        found(
            "of-an-empty-present-with-positions",
            "empty-present findings-positions",
            "its three positions stand there all the same, as other writers are known to record them",
            File("struct<n:int>", [Stripe(rows([1, 2, 3]), {(1, PRESENT): []}, empty_present=True)], stride=2),
            ["IndexPosition 0 1 0", "IndexPosition 0 1 1"],
            dict.fromkeys([(0, 0), (0, 1)], "file 12 Stripe(0): stripe 8 BadPosition(1)"),
        ),
        good(
            "at-the-end",
            "positions",
            "where a stream is used up before the group: its length, and nothing passed",
            File("struct<n:int>", [rows([1, 2, None, None, None])], stride=2),
        ),
        good(
            "at-the-end-past-a-run",
            "positions positions-own",
            "where a stream is used up before the group: its last run, all of whose values are passed",
            File("struct<n:int>", [Stripe(rows([1, 2, None, None, None]), back={1: 1})], stride=2),
        ),
        good(
            "of-texts",
            "positions strings-direct",
            "one number for bytes: the offset",
            File("struct<s:string,v:binary>", [[{"s": "ab" * n, "v": bytes(n)} for n in range(7)]], stride=2),
        ),
        good(
            "of-dictionaries",
            "positions strings-dictionary",
            "positions of the indexes alone: the dictionary is read whole",
            File(
                "struct<s:string>",
                [Stripe([{"s": text} for text in texts], dictionaries={1: ["two", "one"]})],
                stride=2,
            ),
        ),
        good(
            "of-lists",
            "positions lists",
            "the columns below a list are entered behind the elements before",
            lists(),
        ),
        good(
            "of-lists-untold",
            "positions children-unknown",
            "the same file, where nothing is told of how many elements there are",
            lists(**UNTOLD),
        ),
        good(
            "of-lists-2",
            "positions lists",
            "the same in version 2, past several runs",
            File(
                "struct<a:array<array<int>>>",
                [Stripe(LISTS, {(3, DATA): direct([1, 2]) + direct([3, 4]) + direct([5, 6])}, back=2)],
                stride=2,
            ),
        ),
        good(
            "of-maps",
            "positions maps",
            "the columns of keys and of values are entered behind the pairs before",
            File(
                "struct<m:map<string,int>>",
                [[{"m": [["a", 1], ["b", None]]}, {"m": None}, {"m": []}, {"m": [["c", 2]]}]],
                stride=1,
            ),
        ),
        good("of-nested-maps-1", "positions maps", "maps in maps, lists and structs, in version 1", nested(V1)),
        good("of-nested-maps-2", "positions maps", "the same in version 2", nested((0, 12))),
        good(
            "of-structs",
            "positions structs",
            "columns below structs that are null",
            File(
                "struct<s:struct<n:int,t:string>>",
                [[{"s": {"n": 1, "t": "x"}}, {}, {}, {"s": {"n": None, "t": "y"}}, {"s": {"n": 2}}]],
                stride=2,
            ),
        ),
        good(
            "several-stripes",
            "index-groups positions",
            "each stripe has its own groups",
            File("struct<n:bigint>", [rows(range(5)), rows([7]), rows([1, 2, 3])], stride=2),
        ),
        good(
            "stripe-of-no-rows",
            "index-groups",
            "a stripe of no rows has no group, and indexes of no bytes",
            File("struct<n:bigint>", [rows([1]), [], rows([2, 3])], stride=2),
        ),
    ]


def vectors():
    """The vectors of positions that are right."""
    return positions()
