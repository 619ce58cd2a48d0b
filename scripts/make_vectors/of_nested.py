"""Vectors of lists, maps and structs."""
from .file import File
from .of_columns import column, good, refused
from .runs import UNSIGNED, byte_literals, data_of, direct, short_repeat, v1_literals, v1_run
from .stripe import DATA, LENGTH, PRESENT, Stripe


def of_nested():
    """Vectors of lists, maps and structs."""
    lists = [[[1, 2], []], None, [], [None, [3]], [[4, 5, 6]]]
    maps = [[["a", 1], ["b", None]], None, [], [["a", 2], ["a", 3]], [[None, 4]]]
    deep = "".join("array<" for _ in range(30)) + "int" + ">" * 30
    inner = 5
    for _ in range(30):
        inner = [inner]
    deepest = 7
    for _ in range(31):
        deepest = {"a": deepest}

    def names(streams):
        return File("struct<b:int,a:string>", [Stripe([{"b": 1, "a": "x"}, {"b": 2, "a": "y"}], streams)], (0, 11))

    return [
        good(
            "nested/lists",
            "lists cells",
            "lists of lists, with nulls, in version 2",
            column("a", "array<array<int>>", lists),
        ),
        good(
            "nested/lists-1", "lists cells", "the same in version 1", column("a", "array<array<int>>", lists, (0, 11))
        ),
        good(
            "nested/empty-lists",
            "lists missing-streams",
            "no list has an element: the column below has no stream",
            column("a", "array<int>", [[], []]),
        ),
        good(
            "nested/list-lengths-by-runs",
            "lists v2-choice",
            "the lengths of lists as a short repeat",
            column("a", "array<string>", [["x", None], ["y", "z"], [None, None]], length=short_repeat(2, 3, UNSIGNED)),
        ),
        good(
            "nested/maps",
            "maps cells rows-json",
            "pairs in their order; a key may stand twice, and may be null",
            column("m", "map<string,int>", maps),
        ),
        good("nested/maps-1", "maps cells", "the same in version 1", column("m", "map<string,int>", maps, (0, 11))),
        good(
            "nested/maps-of-maps",
            "maps cells",
            "maps as keys and as values, lists and structs in maps",
            File(
                "struct<a:map<map<int,int>,map<int,int>>,b:map<string,array<int>>,"
                "s:struct<m:map<struct<k:int>,struct<v:date>>>>",
                [
                    [
                        {
                            "a": [[[[1, 2], [3, 4]], [[5, 6]]], [[], None], [None, []]],
                            "b": [["x", [1, None]], ["x", []]],
                            "s": {"m": [[{"k": 1}, {"v": 19782}], [None, None]]},
                        },
                        {},
                        {"a": [], "b": [], "s": {"m": None}},
                    ],
                    [
                        {
                            "a": [[[], [[7, None], [None, 8]]]],
                            "b": [["", [4]], [None, None]],
                            "s": {"m": [[{"k": None}, {}]]},
                        }
                    ],
                ],
            ),
        ),
        good(
            "nested/structs",
            "structs cells",
            "structs in structs, which have no stream but PRESENT",
            File(
                "struct<a:struct<b:struct<c:int,d:string>,e:boolean>,f:int>",
                [
                    [
                        {"a": {"b": {"c": 1, "d": "x"}, "e": True}, "f": 2},
                        {"a": {"b": None, "e": None}, "f": None},
                        {"a": None, "f": 3},
                    ]
                ],
            ),
        ),
        good(
            "nested/lists-of-structs",
            "lists structs cells",
            "a struct that is null in a list, and one that isn't and whose fields are",
            column(
                "a",
                "array<struct<x:int,y:array<string>>>",
                [[{"x": 1, "y": ["p"]}, None, {"x": None, "y": None}], None, [{"x": 2, "y": []}]],
            ),
        ),
        good(
            "nested/empty-structs",
            "structs",
            "a struct without fields, as a row and in it",
            File("struct<s:struct<>,t:struct<>>", [[{"s": {}, "t": None}] * 3]),
        ),
        good("nested/no-columns", "structs", "rows of no fields", File("struct<>", [[{}, {}]])),
        good("nested/32-levels", "lists type-limits", "32 levels, the most", column("a", deep, [inner, None])),
        good(
            "nested/32-levels-of-structs",
            "structs type-limits",
            "32 levels of structs and a number",
            File("struct<a:" * 31 + "int" + ">" * 31, [[deepest] * 3], (0, 11)),
        ),
        good(
            "nested/names-in-any-order",
            "structs cells rows-json",
            "columns in another order than their names, in structs, lists and keys",
            File(
                "struct<v:array<struct<y:int,x:array<int>>>,m:map<struct<b:int,a:int>,int>,"
                "c:int,b:struct<z:int,y:struct<x:int>>,a:array<int>>",
                [
                    [
                        {
                            "v": [{"y": 1, "x": [2, 3]}, None, {"y": 4, "x": []}],
                            "m": [[{"b": 1, "a": 2}, 3], [None, 4]],
                            "c": 1,
                            "b": {"z": 2, "y": {"x": 3}},
                            "a": [4, 5],
                        },
                        {"c": 6, "b": {"z": None, "y": None}},
                    ]
                ],
                (0, 11),
            ),
        ),
        refused(
            "nested/names-and-a-number-missing",
            "run-count rows-json",
            "a number fewer than rows in the column that comes last by its name",
            names({(1, DATA): data_of(v1_literals([1]))}),
            "3 Run(1, DATA): run 8 TooFew at 2",
        ),
        refused(
            "nested/names-and-a-number-left-over",
            "run-count rows-json",
            "a number more than rows in the column that comes last by its name",
            names({(1, DATA): data_of(v1_literals([1, 2, 3]))}),
            "3 Run(1, DATA): run 9 TooMany at 0",
        ),
        refused(
            "nested/names-and-no-text",
            "strings-utf8 rows-json",
            "a text that is no UTF-8 in the column that comes first by its name",
            names({(2, DATA): b"x\xff"}),
            "4 NotUtf8(2, DATA)",
        ),
        refused(
            "nested/second-column-left-over",
            "run-count run-short",
            "two columns, and behind all values of the second a byte that is no run",
            File(
                "struct<m:bigint,n:bigint>",
                [Stripe([{"m": 7, "n": 7}] * 3, {(2, DATA): bytes.fromhex("00000eff")})],
                (0, 11),
            ),
            "3 Run(2, DATA): run 1 Short at 3",
        ),
        refused(
            "nested/more-elements-than-lengths",
            "lists run-count",
            "lists of two elements together, and a column below of three",
            File("struct<a:array<int>>", [Stripe([{"a": [1]}, {"a": [2]}], {(2, DATA): data_of(direct([1, 2, 3]))})]),
            "3 Run(2, DATA): run 9 TooMany at 0",
        ),
        refused(
            "nested/fewer-keys-than-lengths",
            "maps strings-lengths",
            "the second key's bytes aren't there",
            File("struct<m:map<string,int>>", [Stripe([{"m": [["a", 1], ["b", 2]]}], {(2, DATA): b"a"})]),
            "6 LengthSum(2, DATA)",
        ),
        refused(
            "nested/fewer-keys-than-pairs",
            "maps run-count",
            "two pairs, and one key",
            File(
                "struct<m:map<int,int>>",
                [Stripe([{"m": [[1, 1], [2, 2]]}], {(2, DATA): bytes.fromhex("ff02")})],
                (0, 11),
            ),
            "3 Run(2, DATA): run 8 TooFew at 2",
        ),
        refused(
            "nested/more-values-than-pairs",
            "maps run-count",
            "two pairs, and three values",
            File(
                "struct<m:map<int,int>>",
                [Stripe([{"m": [[1, 1], [2, 2]]}], {(3, DATA): data_of(v1_literals([1, 2, 3]))})],
                (0, 11),
            ),
            "3 Run(3, DATA): run 9 TooMany at 0",
        ),
        refused(
            "nested/more-maps-than-lengths",
            "maps run-count",
            "two maps, and one length",
            File("struct<m:map<int,int>>", [Stripe([{"m": []}] * 2, {(1, LENGTH): bytes.fromhex("ff00")})], (0, 11)),
            "3 Run(1, LENGTH): run 8 TooFew at 2",
        ),
        refused(
            "nested/list-too-long",
            "lists cell-limits",
            "a list of 2^31 elements",
            column("a", "array<int>", [[]], length=data_of(direct([1 << 31], UNSIGNED))),
            "10 TooMany(1)",
        ),
        refused(
            "nested/map-too-long",
            "maps cell-limits",
            "a map of 2^31 pairs",
            column("m", "map<int,int>", [[]], length=data_of(direct([1 << 31], UNSIGNED))),
            "10 TooMany(1)",
        ),
        refused(
            "nested/lists-too-long-together",
            "lists cell-limits",
            "two lists of 2^31 elements together, of a type that has no streams",
            File(
                "struct<a:array<array<struct<>>>>",
                [Stripe([{"a": [[{}], []]}], {(2, LENGTH): data_of(direct([1, (1 << 31) - 1], UNSIGNED))})],
            ),
            "10 TooMany(2)",
        ),
    ]


def bad_nested():
    """Structs, lists and maps of which one stream has another number of values than the others say."""
    lists = [{"a": cell} for cell in ([[1, 2], []], None, [], [None, [3]], [[4, 5, 6]])]

    def of_lists(name, shows, at, kind, runs, fault):
        file = File("struct<a:array<array<int>>>", [Stripe(lists, {(at, kind): data_of(runs)})], (0, 11))
        return refused(f"nested/{name}", "lists cells run-count", f"lists of lists: {shows}", file, f"3 Run{fault}")

    def of_maps(name, shows, maps, at, kind, runs, fault, version=(0, 11)):
        stripe = Stripe([{"m": each} for each in maps], {(at, kind): data_of(runs)})
        file = File("struct<m:map<int,int>>", [stripe], version)
        return refused(f"nested/{name}", "maps cells run-count", shows, file, f"3 Run{fault}")

    two = [[[1, 1], [2, 2]]]
    return [
        refused(
            "nested/second-field-without-its-stream",
            "structs missing-streams run-count",
            "three numbers of the first field, and none of the second",
            File("struct<a:bigint,b:bigint>", [Stripe([{"a": 7, "b": 7}] * 3, {(2, DATA): None})], (0, 11)),
            "3 Run(2, DATA): run 8 TooFew at 0",
        ),
        of_lists(
            "lists-present-left-over",
            "a PRESENT of a byte more",
            1,
            PRESENT,
            byte_literals([0xB8, 0]),
            "(1, PRESENT): run 9 TooMany at 0",
        ),
        of_lists(
            "length-of-a-null",
            "a length for the one that is null",
            1,
            LENGTH,
            v1_literals([2, 0, 0, 2, 1], UNSIGNED),
            "(1, LENGTH): run 9 TooMany at 0",
        ),
        of_lists(
            "list-without-its-length",
            "none is null, and one has no length",
            1,
            PRESENT,
            byte_literals([0xF8]),
            "(1, LENGTH): run 8 TooFew at 5",
        ),
        of_lists(
            "more-elements-than-present",
            "more elements than the column below has a PRESENT for",
            1,
            LENGTH,
            v1_literals([2, 0, 2, 9], UNSIGNED),
            "(2, PRESENT): run 8 TooFew at 2",
        ),
        of_lists(
            "inner-list-too-many",
            "an inner one more than the outer ones have",
            2,
            LENGTH,
            v1_literals([2, 0, 1, 3, 1], UNSIGNED),
            "(2, LENGTH): run 9 TooMany at 0",
        ),
        of_lists(
            "number-too-many",
            "a number more than the inner ones have",
            3,
            DATA,
            v1_run(1, 1, 7),
            "(3, DATA): run 9 TooMany at 0",
        ),
        of_lists(
            "number-too-few",
            "a number fewer than the inner ones have",
            3,
            DATA,
            v1_run(1, 1, 5),
            "(3, DATA): run 8 TooFew at 3",
        ),
        refused(
            "nested/fewer-elements-than-lengths",
            "lists run-count",
            "three lists of two elements each, and a column below of five",
            File("struct<a:array<int>>", [Stripe([{"a": [7, 7]}] * 3, {(2, DATA): data_of(short_repeat(7, 5))})]),
            "3 Run(2, DATA): run 8 TooFew at 2",
        ),
        of_maps(
            "map-without-its-length",
            "two maps, and one length",
            [[], []],
            1,
            LENGTH,
            v1_literals([0], UNSIGNED),
            "(1, LENGTH): run 8 TooFew at 2",
        ),
        of_maps(
            "key-too-few", "two pairs, and one key", two, 2, DATA, v1_literals([1]), "(2, DATA): run 8 TooFew at 2"
        ),
        of_maps(
            "value-too-many",
            "two pairs, and three values",
            two,
            3,
            DATA,
            v1_literals([1, 2, 3]),
            "(3, DATA): run 9 TooMany at 0",
        ),
        of_maps(
            "value-too-many-2",
            "three maps of a pair, and four values, in version 2",
            [[[1, 2]]] * 3,
            3,
            DATA,
            short_repeat(2, 4),
            "(3, DATA): run 9 TooMany at 0",
            (0, 12),
        ),
    ]


def vectors():
    """The vectors of this folder."""
    return of_nested() + bad_nested()
