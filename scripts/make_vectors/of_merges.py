"""Vectors of merges: inputs, and the one file that they become, or why they become none."""
from . import fields
from .file import File
from .merged import Merged
from .of_indexes import UNTOLD, lists, nested
from .of_tails import with_attributes
from .rows import schema
from .runs import integers, v1_run
from .statistics import Stat
from .stripe import DATA, Stripe
from .vector import Vector, places_of

ONE, LISTS = "struct<n:bigint>", "struct<a:array<int>>"
TOP, MOST = (1 << 63) - 1, 1 << 62
# the most rows of a stripe
MOST_ROWS = (1 << 31) - 1
NO_ENCODING = "file 12 Stripe(0): stripe 2 BadEncoding(0)"


def rows(*values):
    """Rows of one number."""
    return [{"n": value} for value in values]


def told_rows(*counts, **choices):
    """A file whose tail tells of stripes of so many rows, which have no bytes."""
    return File(
        "struct<>",
        [
            Stripe([], footer=lambda text: b"", told={"rows": count}, stats={0: Stat(count, False)})
            for count in counts
        ],
        **choices,
    )


class Merge:
    """Inputs by their names, and what they become: a vector, or a fault."""

    def __init__(self, name, rules, shows, inputs, result=None, fault=None):
        self.name = name if "/" in name else f"merges/{name}"
        self.rules, self.shows, self.inputs = rules.split(), shows, inputs
        self.result, self.fault, self.written = result, fault, False

    def parts(self):
        """The files of the merge, by what follows its name."""
        inputs = {".merge": "".join(f"{name}.orc\n" for name in self.inputs)}
        return {**inputs, **(self.result.parts() if self.result else {".fault": self.fault + "\n"})}


class Inputs:
    """The files that are merged, by their names: vectors of their own."""

    def __init__(self):
        self.vectors = {}

    def add(self, name, shows, file, findings=(), **more):
        """A file that is merged with others."""
        name = f"merges/in/{name}"
        places = places_of(file) if file.stride and not more.get("fault") else ()
        self.vectors[name] = Vector(name, "merge-inputs", shows, file, findings, places, written=False, **more)
        return name

    def file(self, name):
        return self.vectors[name].file


def spelled():
    """A stripe without rows that tells of values all the same: statistics with records of other kinds, and with parts
    that mean nothing or are missing."""
    ints = fields.block(2, fields.signed(1, 7) + fields.signed(2, 7) + fields.signed(3, 42))
    children = fields.block(12, fields.number(1, 0) + fields.number(2, 2) + fields.number(3, 5))
    text = fields.block(4, fields.block(1, "b") + fields.signed(3, 1))
    day = fields.block(7, fields.signed(1, -1) + fields.signed(2, -1))
    many = fields.block(5, fields.packed(1, [MOST + 1]))
    kinds = "struct<a:bigint,b:date,c:bigint,d:boolean,e:date,f:string,g:binary,h:bigint,i:struct<x:int>"
    told = {
        1: (Stat(6, False, min=7, max=7, sum=42), ints),
        2: (Stat(6, False), ints),
        3: (Stat(0, None), fields.block(2, fields.signed(1, 7))),
        4: (Stat(3, True, true=2), fields.block(5, fields.packed(1, [2, 1]))),
        5: (Stat(1, None, min=-1, max=-1), day),
        6: (Stat(1, None, min=b"b", sum=1), text),
        7: (Stat(1, None, sum=5), fields.block(8, fields.signed(1, 5))),
        8: (Stat(1, None), many),
        9: (Stat(4, True), children),
        11: (Stat(4, True, min=0, max=2, sum=5), children),
        13: (Stat(4, True), b""),
        15: (Stat(4, True), fields.block(12, b"")),
        17: (Stat(0, None), fields.block(12, fields.number(3, 5))),
    }

    def spell(stat, record):
        nulls = b"" if stat.nulls is None else fields.number(10, stat.nulls)
        parts = sorted([fields.number(1, stat.count), record, nulls], key=lambda part: part[:1])
        return stat.but().spelled(b"".join(parts))

    file = File(
        f"{kinds},j:array<int>,k:array<int>,l:array<int>,m:array<int>>",
        [Stripe([], stats={at: spell(*each) for at, each in told.items()})],
        stats={at: spell(*each) for at, each in told.items()},
    )
    return file, [f"{kind} {at}" for kind in ("StripeStatistic 0", "FileStatistic") for at in told]


def attributed(count):
    """A schema with a list and a map, of which so many types below the root have attributes."""
    root = schema("struct<a:array<int>,m:map<int,int>>")
    for each in root.columns()[1 : count + 1]:
        each.more = fields.block(7, fields.block(1, "k") + fields.block(2, "v"))
    return root


def inputs():
    """All files that are merged."""
    found = Inputs()
    told = (
        fields.number(1, 2)
        + fields.number(10, 0)
        + fields.block(2, fields.signed(2, 5) + fields.signed(1, 3) + fields.signed(3, 8))
    )
    more = {"writer": 4, "writer_version": 9, "user": [("a", b"1"), ("b", b"\x00")]}
    many = Stat(1, False, true=MOST)
    missing = ["StripeStatistic 0 0", "StripeStatistic 0 1"]
    found.add("a", "two stripes and a gap", File(ONE, [rows(1, 2), Stripe(rows(3), gap=b"gap")]))
    found.add("b", "one stripe with a null", File(ONE, [rows(40, None)]))
    found.add("c", "one row", File(ONE, [rows(-5)]))
    found.add("none", "no rows", File(ONE, []))
    found.add("greatest", "the greatest number", File(ONE, [rows(TOP)]))
    found.add("one", "the number 1", File(ONE, [rows(1)]))
    found.add("less", "the number -1", File(ONE, [rows(-1)]))
    found.add("lost", "a stripe whose sum doesn't fit", File(ONE, [rows(TOP, 1)]))
    found.add(
        "spelled",
        "a statistic with its fields in another order",
        File(ONE, [Stripe(rows(3, 5), stats={1: Stat(2, False, min=3, max=5, sum=8).spelled(told)})]),
    )
    found.add("spelled-of-each-kind", "statistics of each kind as no writer spells them", *spelled())
    found.add("quarter", "the number 2^62", File(ONE, [rows(1 << 62)]))
    found.add("quarter-less-one", "the number 2^62 - 1", File(ONE, [rows((1 << 62) - 1)]))
    found.add("minus-quarter", "the number -2^62", File(ONE, [rows(-(1 << 62))]))
    found.add("minus-quarter-less-one", "the number -2^62 - 1", File(ONE, [rows(-(1 << 62) - 1)]))
    found.add(
        "no-nulls-told",
        "a stripe that doesn't say whether there are nulls",
        File(ONE, [Stripe(rows(6), stats={1: Stat(1, None, min=6, max=6, sum=6)})]),
        ["StripeStatistic 0 1", "FileStatistic 1"],
    )
    found.add(
        "wrong",
        "a file whose own statistics are wrong, those of its stripe not",
        File(ONE, [rows(9)], stats={1: Stat(7, True)}),
        "FileStatistic 1",
    )
    found.add(
        "more", "a writer, kept fields and user metadata", File(ONE, [rows(1)], kept=fields.number(12, 5), **more)
    )
    found.add(
        "more-pairs",
        "the same with an equal pair and another one",
        File(ONE, [rows(2)], kept=fields.number(12, 5), **{**more, "user": [("b", b"\x00"), ("c", b"")]}),
    )
    found.add(
        "pair-twice",
        "one equal pair twice",
        File(ONE, [rows(2)], kept=fields.number(12, 5), **{**more, "user": [("d", b"4"), ("d", b"4")]}),
    )
    found.add(
        "other-pair",
        "another value for a name",
        File(ONE, [rows(2)], kept=fields.number(12, 5), **{**more, "user": [("b", b"\x01")]}),
    )
    found.add("pairs-that-differ", "one name with two values", File(ONE, [rows(2)], user=[("b", b"0"), ("b", b"1")]))
    found.add("pair", "a name with a value", File(ONE, [rows(2)], user=[("b", b"0")]))
    found.add("pair-that-differs", "the same name with another value", File(ONE, [rows(2)], user=[("b", b"1")]))
    found.add(
        "kept-alone",
        "a field above 10, and else what others have",
        File(ONE, [rows(2)], kept=fields.number(12, 5)),
    )
    found.add("other-kept", "other fields above 10", File(ONE, [rows(2)], kept=fields.number(12, 6), **more))
    found.add("attributes", "a type with attributes", File(with_attributes(), [rows(1)]))
    below = [{"a": [1, 2], "m": [(3, 4)]}]
    found.add("attributes-below", "attributes of a list, of a map and of what is in them", File(attributed(5), [below]))
    found.add("attributes-of-a-list", "attributes of a list alone", File(attributed(1), [below]))
    found.add("int", "a column of INT", File("struct<n:int>", [rows(1)]))
    found.add("int-and-version", "a column of INT, and another version", File("struct<n:int>", [rows(1)], (0, 11)))
    found.add("version-and-stride", "another version, and a row index", File(ONE, [rows(1)], (0, 11), stride=2))
    found.add(
        "stride-and-kept",
        "a row index, and a field above 10",
        File(ONE, [rows(1)], stride=2, kept=fields.number(12, 5)),
    )
    found.add(
        "kept-and-pair",
        "a field above 10, and another value for a name",
        File(ONE, [rows(1)], kept=fields.number(12, 5), user=[("b", b"1")]),
    )
    found.add(
        "pair-and-no-statistics",
        "another value for a name, and no statistics of stripes",
        File(ONE, [rows(1)], user=[("b", b"1")], tells_stripes=False),
        missing,
    )
    found.add("other-name", "another name", File("struct<m:bigint>", [[{"m": 1}]]))
    found.add("other-version", "another version", File(ONE, [rows(1)], (0, 11)))
    found.add("version-of-three", "a version of three numbers", File(ONE, [rows(1)], (0, 12, 0)))
    found.add("no-version", "no version", File(ONE, [rows(1)], ()))
    found.add("writer-0", "the writer of number 0", File(ONE, [rows(1)], writer=0))
    found.add("writer-1", "the writer of number 1", File(ONE, [rows(1)], writer=1))
    found.add("other-writer-version", "another version of the writer", File(ONE, [rows(1)], writer_version=7))
    found.add("no-writer-version", "no version of the writer", File(ONE, [rows(1)], writer_version=None))
    found.add("indexed", "a row index", File(ONE, [rows(1, 2, 3)], stride=2))
    found.add("indexed-too", "a row index of the same stride", File(ONE, [rows(4), rows(5, 6)], stride=2))
    found.add("stride-3", "a row index of another stride", File(ONE, [rows(1)], stride=3))
    found.add("no-statistics", "no statistics of stripes", File(ONE, [rows(1)], tells_stripes=False), missing)
    found.add(
        "few-statistics",
        "statistics of the first of two columns",
        File(
            ONE,
            [rows(1)],
            metadata=lambda text: fields.block(1, fields.block(1, fields.number(1, 1) + fields.number(10, 0))),
        ),
        "StripeStatistic 0 1",
    )
    half = File(ONE, [rows(1), rows(2)], metadata=lambda text: text[: len(text) // 2])
    found.add(
        "statistics-of-one-of-two",
        "two stripes, and statistics of the first",
        half,
        ["StripeStatistic 1 0", "StripeStatistic 1 1"],
    )
    root_alone = fields.block(1, fields.block(1, fields.number(1, 1) + fields.number(10, 0)))
    found.add(
        "few-statistics-of-the-second",
        "two stripes, and of the second the statistics of the first of two columns",
        File(ONE, [rows(1), rows(2)], metadata=lambda text: text[: len(text) // 2] + root_alone),
        "StripeStatistic 1 1",
    )
    found.add(
        "most-rows",
        "16 stripes of no bytes that tell of 2^31 - 1 rows each",
        told_rows(*[MOST_ROWS] * 16),
        fault=NO_ENCODING,
    )
    found.add("513-rows", "a stripe of no bytes that tells of 513 rows", told_rows(513), fault=NO_ENCODING)
    found.add(
        "513-rows-and-no-statistics",
        "the same, and no statistics of stripes",
        told_rows(513, tells_stripes=False),
        fault=NO_ENCODING,
    )
    found.add(
        "many-values",
        "a stripe that tells of 2^62 values",
        File(ONE, [Stripe(rows(1), stats={1: Stat(MOST, False)})]),
        ["StripeStatistic 0 1", "FileStatistic 1"],
    )
    found.add(
        "many-values-less-one",
        "a stripe that tells of 2^62 - 1 values",
        File(ONE, [Stripe(rows(1), stats={1: Stat(MOST - 1, False)})]),
        ["StripeStatistic 0 1", "FileStatistic 1"],
    )
    two = File(
        ONE, [Stripe(rows(1), stats={1: Stat(MOST, False)}), rows(2)], stats={1: Stat(2, False, min=1, max=2, sum=3)}
    )
    found.add("too-many-values", "stripes that tell of 2^62 + 1 values together", two, "StripeStatistic 0 1")
    found.add(
        "many-true",
        "a stripe that tells of 2^62 that are true",
        File("struct<t:boolean>", [Stripe([{"t": True}], stats={1: many})]),
        ["StripeStatistic 0 1", "FileStatistic 1"],
    )
    found.add(
        "many-booleans-less-one",
        "a stripe that tells of 2^62 - 1 booleans, of which one is true",
        File("struct<t:boolean>", [Stripe([{"t": True}], stats={1: Stat(MOST - 1, False, true=1)})]),
        ["StripeStatistic 0 1", "FileStatistic 1"],
    )
    found.add(
        "many-booleans",
        "a stripe that tells of 2^62 booleans, of which one is true",
        File("struct<t:boolean>", [Stripe([{"t": True}], stats={1: Stat(MOST, False, true=1)})]),
        ["StripeStatistic 0 1", "FileStatistic 1"],
    )
    found.add("false", "a boolean that is false", File("struct<t:boolean>", [[{"t": False}]]))
    found.add(
        "lists", "lists, and how many elements they have", File("struct<a:array<int>>", [[{"a": [1, 2]}, {"a": None}]])
    )
    found.add(
        "lists-untold",
        "lists, and nothing of their elements",
        File("struct<a:array<int>>", [Stripe([{"a": [3]}], stats={1: Stat(1, False)})]),
    )
    found.add(
        "lists-told-in-part",
        "lists, and the least and the greatest number of their elements",
        File(LISTS, [Stripe([{"a": []}, {"a": [1, 2]}], stats={1: Stat(2, False, min=0, max=2)})]),
    )
    found.add("lists-told", "lists of one and of three elements", File(LISTS, [[{"a": [1]}, {"a": [1, 2, 3]}]]))
    found.add("no-lists", "a list that is null", File(LISTS, [[{"a": None}]]))
    for name, shows, count in (("half-of-all", "2^63", 1 << 63), ("other-half-of-all", "2^63 - 1", (1 << 63) - 1)):
        stat = Stat(1, False, min=count, max=count, sum=count)
        found.add(
            name,
            f"a stripe that tells of a list of {shows} elements",
            File(LISTS, [Stripe([{"a": [1]}], stats={1: stat})]),
            ["StripeStatistic 0 1", "FileStatistic 1"],
        )
    found.add(
        "damaged",
        "a stripe that doesn't decode",
        File(ONE, [Stripe(rows(1, 2, 3), {(1, DATA): b"\x4a"})]),
        fault="file 12 Stripe(0): stripe 3 Run(1, DATA): run 1 Short at 0",
    )
    found.add("lists-of-lists", "lists of lists, and row indexes", lists())
    found.add("lists-of-lists-untold", "the same, where nothing is told of elements", lists(**UNTOLD))
    maps = [{"m": [["a", 1], ["b", None]]}, {"m": None}, {"m": []}]
    sevens = Stripe(rows(7, 7, 7), {(1, DATA): v1_run(7, 0, 3)})
    found.add("sevens-with-index", "three sevens, and row indexes", File(ONE, [sevens], (0, 11), stride=2))
    found.add("maps", "maps, and how many pairs they have", File("struct<m:map<string,int>>", [maps], (0, 11)))
    found.add("nested-maps-1", "maps of maps, in version 1", nested((0, 11)))
    found.add("nested-maps-2", "maps of maps, in version 2", nested((0, 12)))
    nines = Stripe(
        rows(7, 7, 7, 9, 9, 9), {(1, DATA): bytes.fromhex("01000e000012")}, positions={(1, 0): [0, 0], (1, 1): [3, 0]}
    )
    short = "file 12 Stripe(0): stripe 3 Run(1, DATA): run 9 TooMany at 3"
    found.add("damaged-before-a-group", "a group behind a bad run", File(ONE, [nines], (0, 11), stride=3), fault=short)
    found.add("nines", "the same, and the run is right", File(ONE, [rows(7, 7, 7, 9, 9, 9)], (0, 11), stride=3))
    found.add("no-rows-in-a-stripe", "a stripe of no rows", File(ONE, [rows(7), []]))
    found.add(
        "tens",
        "ten rows, in runs of version 1",
        File(ONE, [Stripe(rows(*range(10)), {(1, DATA): integers(range(10), 1)}, encodings={1: 0})]),
    )
    return found


def joined(found, name, rules, shows, names, findings=(), base="merges/in/", **more):
    """A merge that is made."""
    paths = [base + each if "/" not in each else each for each in names]
    file = Merged([found.file(path) for path in paths])
    places = more.pop("places", places_of(file) if file.stride else ())
    vector = Vector(f"merges/{name}", rules, shows, file, findings, places, written=False, **more)
    found.vectors[f"merges/{name}"] = vector
    return Merge(name, rules, shows, paths, vector)


def made(found):
    """Merges that are made."""
    short = "file 12 Stripe(1): stripe 3 Run(1, DATA): run 1 Short at 0"
    no_nulls = ["StripeStatistic 2 1", "FileStatistic 1"]
    wrong, last = ["StripeStatistic 0 1", "StripeStatistic 1 1"], "FileStatistic 1"
    each = found.vectors["merges/in/spelled-of-each-kind"].findings
    return [
        joined(
            found,
            "one-file",
            "merge-stripes merge-tail",
            "a merge of one file: the gap between its stripes is gone",
            ["a"],
        ),
        joined(found, "a-and-b", "merge-stripes", "stripes are copied in order, byte for byte", ["a", "b"]),
        joined(found, "b-and-c", "merge-stripes", "the second and the third file", ["b", "c"]),
        joined(found, "all", "merge-stripes merge-grouping", "three files at once", ["a", "b", "c"]),
        joined(
            found,
            "first-two-before",
            "merge-grouping",
            "the same file, where the first two were merged before",
            ["merges/a-and-b", "merges/in/c"],
        ),
        joined(
            found,
            "last-two-before",
            "merge-grouping",
            "the same file, where the last two were merged before",
            ["merges/in/a", "merges/b-and-c"],
        ),
        joined(found, "twice", "merge-stripes", "a file with itself", ["b", "b"]),
        joined(found, "none-before", "merge-stripes", "a file without rows, and one with", ["none", "c"]),
        joined(found, "none-behind", "merge-stripes", "a file with rows, and one without", ["c", "none"]),
        joined(found, "none-of-both", "merge-stripes", "two files without rows", ["none", "none"]),
        joined(
            found,
            "elements-not-told",
            "merge-statistics children-unknown",
            "a file that tells of elements, and one that doesn't, each with row indexes",
            ["lists-of-lists", "lists-of-lists-untold"],
        ),
        joined(
            found,
            "elements-not-told-first",
            "merge-statistics children-unknown",
            "the same in the other order",
            ["lists-of-lists-untold", "lists-of-lists"],
        ),
        joined(found, "lists-twice", "merge-stripes merge-statistics", "lists of lists twice", ["lists-of-lists"] * 2),
        joined(
            found,
            "sevens-with-index-twice",
            "merge-stripes positions",
            "a stripe and its indexes twice",
            ["sevens-with-index"] * 2,
        ),
        joined(found, "maps-twice", "merge-stripes merge-statistics", "the pairs of both are counted", ["maps"] * 2),
        *(
            joined(
                found,
                f"nested-maps-{at}",
                "merge-stripes positions",
                "maps of maps and their indexes",
                [f"nested-maps-{at}"] * 2,
            )
            for at in (1, 2)
        ),
        joined(
            found,
            "damaged-before-a-group",
            "merge-stripes positions",
            "the second stripe is bad, and the rows of its second group are right",
            ["nines", "damaged-before-a-group"],
            places=[(1, 1)],
            fault="file 12 Stripe(1): stripe 3 Run(1, DATA): run 9 TooMany at 3",
            good_stripes=1,
        ),
        joined(
            found, "no-rows-in-a-stripe", "merge-stripes", "stripes of no rows are copied", ["no-rows-in-a-stripe", "c"]
        ),
        joined(found, "both-versions", "merge-stripes encodings", "stripes of both versions of runs", ["tens", "c"]),
        *(
            joined(
                found,
                "sum-" + "-".join(order),
                "merge-statistics merge-orders",
                "each order has the same statistics: the sum of all fits",
                order,
            )
            for order in (
                ("greatest", "one", "less"),
                ("greatest", "less", "one"),
                ("one", "greatest", "less"),
                ("one", "less", "greatest"),
                ("less", "greatest", "one"),
                ("less", "one", "greatest"),
            )
        ),
        joined(
            found, "sum-that-does-not-fit", "merge-statistics", "the sums fit, their total doesn't", ["greatest", "one"]
        ),
        joined(
            found,
            "sum-that-is-lost",
            "merge-statistics",
            "a stripe's sum is lost, and so is that of all",
            ["lost", "less"],
        ),
        joined(
            found,
            "statistics-of-stripes",
            "merge-statistics",
            "the inputs' own file statistics have no part",
            ["wrong", "c"],
        ),
        joined(
            found,
            "statistics-spelled-anew",
            "merge-tail",
            "statistics are written in the order of their fields",
            ["spelled", "c"],
        ),
        joined(
            found,
            "nulls-not-told",
            "merge-statistics nulls-unknown",
            "where a part doesn't say of nulls, the whole doesn't",
            ["a", "no-nulls-told"],
            no_nulls,
        ),
        joined(
            found,
            "nulls-told-by-another",
            "merge-statistics nulls-unknown",
            "a part with nulls: the whole has nulls, although another part doesn't say",
            ["b", "no-nulls-told"],
            ["StripeStatistic 1 1"],
        ),
        joined(
            found,
            "nulls-not-told-first",
            "merge-statistics nulls-unknown",
            "the same, where the first part doesn't say",
            ["no-nulls-told", "a"],
            ["StripeStatistic 0 1", last],
        ),
        joined(
            found,
            "nulls-told-by-the-second",
            "merge-statistics nulls-unknown",
            "the first part doesn't say of nulls, and the second has one",
            ["no-nulls-told", "b"],
            ["StripeStatistic 0 1"],
        ),
        joined(
            found,
            "nulls-told-by-none",
            "merge-statistics nulls-unknown",
            "no part says of nulls",
            ["no-nulls-told"] * 2,
            [*wrong, last],
        ),
        *(
            joined(found, name, "merge-statistics", shows, names)
            for name, shows, names in (
                ("sum-of-the-greatest", "a total of 2^63 - 1 fits", ["quarter", "quarter-less-one"]),
                ("sum-past-the-greatest", "a total of 2^63 doesn't", ["quarter", "quarter"]),
                ("sum-of-the-least", "a total of -2^63 fits", ["minus-quarter", "minus-quarter"]),
                ("sum-past-the-least", "a total of -2^63 - 1 doesn't", ["minus-quarter", "minus-quarter-less-one"]),
            )
        ),
        joined(
            found,
            "most-values",
            "merge-statistics statistics-limits",
            "2^62 values together, the most",
            ["many-values-less-one", "one"],
            ["StripeStatistic 0 1", last],
        ),
        joined(
            found,
            "most-booleans",
            "merge-statistics statistics-limits",
            "2^62 booleans together, of which one is true",
            ["many-booleans-less-one", "false"],
            ["StripeStatistic 0 1", last],
        ),
        joined(
            found,
            "most-children",
            "merge-statistics",
            "a total of 2^64 - 1 children fits, and a part without lists takes no part",
            ["half-of-all", "other-half-of-all", "no-lists"],
            [*wrong, last],
        ),
        joined(
            found,
            "children-that-do-not-fit",
            "merge-statistics",
            "a total of 2^64 children doesn't fit",
            ["half-of-all", "half-of-all"],
            [*wrong, last],
        ),
        joined(
            found,
            "children-told-in-part",
            "merge-statistics children-unknown",
            "the first part doesn't tell how many children there are together, so the whole doesn't",
            ["lists-told-in-part", "lists-told"],
        ),
        joined(
            found,
            "children-told-in-part-behind",
            "merge-statistics children-unknown",
            "the same of the second part",
            ["lists-told", "lists-told-in-part"],
        ),
        joined(
            found,
            "each-kind-spelled-anew",
            "merge-tail merge-statistics",
            "of each kind the parts that are known are written, and nothing else",
            ["spelled-of-each-kind"],
            each,
        ),
        joined(
            found,
            "children-not-told",
            "merge-statistics children-unknown",
            "where a part doesn't tell of children, the whole doesn't",
            ["lists", "lists-untold"],
        ),
        joined(
            found,
            "true-not-told",
            "merge-statistics statistics-limits",
            "counts of true that are above 2^62 together aren't told",
            ["many-true", "many-true"],
            ["StripeStatistic 0 1", "StripeStatistic 1 1", "FileStatistic 1"],
        ),
        joined(found, "pairs", "merge-user", "the pairs of both, each name once", ["more", "more-pairs"]),
        joined(
            found,
            "pair-twice",
            "merge-user",
            "an equal pair that one file has twice is written once",
            ["pair-twice", "more"],
        ),
        joined(
            found,
            "attributes",
            "merge-tail types",
            "a type's other fields stay as they stood",
            ["attributes", "attributes"],
        ),
        joined(
            found,
            "attributes-below",
            "merge-tail types",
            "also those of lists and maps, and of what is in them",
            ["attributes-below", "attributes-below"],
        ),
        joined(
            found,
            "indexes",
            "merge-stripes positions",
            "row indexes are copied with their stripes",
            ["indexed", "indexed-too"],
        ),
        joined(
            found,
            "damaged",
            "merge-stripes",
            "stripes aren't read: a bad one is copied, and refused when it is read",
            ["c", "damaged"],
            fault=short,
            good_stripes=1,
        ),
    ]


def vectors():
    """The inputs, and the merges that are made."""
    found = inputs()
    alone = list(found.vectors.values())
    return alone + made(found)
