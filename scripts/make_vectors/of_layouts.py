"""Vectors as other writers are publicly known to lay files out: the same rows by each writer, and what is each one's
own."""
from . import fields
from .findings import findings_of, wrong_places
from .layouts import CPP, HIVE_11, HIVE_12, JAVA, RUST, TRINO, laid_out
from .merged import Merged
from .of_merges import Merge
from .vector import Vector, places_of

EACH = (
    "struct<a:boolean,b:tinyint,c:smallint,d:int,e:bigint,f:date,g:string,h:binary,i:array<int>,"
    "j:struct<k:string>,m:map<string,int>>"
)


def each(number, text, items, pairs):
    """A row with a value of each kind."""
    row = {"a": number % 2 == 0, "b": number, "c": number * 256, "d": number << 24, "e": -number, "f": 19000 + number}
    return {**row, "g": text, "h": bytes([number]), "i": items, "j": {"k": text}, "m": pairs}


EACH_ROWS = [
    each(1, "one", [1, None], [["p", 1]]),
    {},
    each(2, "two", [], []),
    each(3, "one", [2, 3, 4], [["p", 2], ["q", None]]),
    each(4, "ä", None, None),
    each(5, "two", [5], [["r", 3]]),
    each(6, "two", [6, 7], []),
    {},
    each(7, "", [8], [["p", 4]]),
]
LISTS = [{"a": cell} for cell in ([[1, 2], []], None, [], [None, [3]], [[4, 5, 6]])]
MAPS = [{"m": cell} for cell in ([["x", [1, None]]], None, [], [["y", []], ["x", None]], [["z", [2]]])]
STRUCTS = [{"s": cell} for cell in ({"n": 1, "t": "a"}, None, {"n": None, "t": "b"}, {"n": 2, "t": None}, None)]
STEPS = [*range(10, 30, 2), *[7] * 12, *[number * number % 101 for number in range(18)]]
# numbers of one digit, and two of many: 300 values lie between these
FAR = [1000000 if number in (0, 300) else number % 2 for number in range(400)]


def numbers(values, name="n"):
    """Rows of one column."""
    return [{name: value} for value in values]


# what every writer's family has: a name, the rules that it shows, its schema, the rows of its stripes, the stride, and
# a sentence
SETS = [
    ("each-kind", "column-kinds nulls cells", EACH, [EACH_ROWS[:5], EACH_ROWS[5:]], 2, "a column of each kind"),
    ("no-nulls", "nulls", "struct<n:int,s:string>", [[{"n": n, "s": f"t{n}"} for n in range(6)]], 2, "no null"),
    (
        "nulls-in-one-stripe",
        "nulls stripe-parts",
        "struct<n:bigint>",
        [numbers([1, 2, 3]), numbers([4, None, 6])],
        2,
        "the second stripe has a null, and the first has none",
    ),
    ("all-null", "nulls", "struct<n:int,s:string,b:boolean>", [[{}] * 5], 2, "all values of a stripe are null"),
    (
        "null-in-one-stripe",
        "nulls",
        "struct<n:int,s:string>",
        [[{"n": 1, "s": "a"}, {"n": 2, "s": "b"}], [{"n": None, "s": None}] * 2],
        2,
        "columns that are null in the whole second stripe",
    ),
    ("empty-lists", "lists cells", "struct<a:array<int>>", [numbers([[], None, []], "a")], 2, "no list has an element"),
    ("null-structs", "structs cells", "struct<s:struct<n:int>>", [numbers([None] * 3, "s")], 2, "each struct is null"),
    ("empty-binaries", "strings-direct", "struct<v:binary>", [numbers([b""] * 3, "v")], 2, "bytes that are all empty"),
    ("empty-maps", "maps cells", "struct<m:map<string,int>>", [numbers([[], None, []], "m")], 2, "no map has a pair"),
    (
        "booleans",
        "boolean-runs",
        "struct<b:boolean>",
        [numbers([True, None, False] * 4 + [True] * 15, "b")],
        5,
        "groups that begin within a byte of booleans",
    ),
    ("lists", "lists cells", "struct<a:array<array<int>>>", [LISTS], 2, "lists of lists, with nulls"),
    ("maps", "maps cells", "struct<m:map<string,array<int>>>", [MAPS], 2, "maps of texts and lists"),
    ("structs", "structs cells", "struct<s:struct<n:int,t:string>>", [STRUCTS], 2, "structs, some of them null"),
    (
        "texts",
        "strings-direct",
        "struct<s:string>",
        [numbers(["one", "two", "one", None, "two", "one"], "s")],
        2,
        "texts that come again",
    ),
    ("runs", "column-kinds", "struct<n:bigint>", [numbers(STEPS)], 10, "numbers with steps, equal ones, and others"),
    (
        "three-stripes",
        "stripe-parts stripe-directory",
        "struct<n:int,s:string>",
        [[{"n": n, "s": f"t{n % 2}"} for n in range(count)] for count in (4, 3, 1)],
        2,
        "three stripes of several groups, the last group with fewer rows",
    ),
    ("no-rows", "tail-counts", "struct<n:int>", [], 2, "no rows, and so no stripe"),
]
PATCHED = ("patched", "v2-patched", "struct<n:bigint>", [numbers(FAR)], 200, "two patches, whose gap is above 255")


def faults_of(file, wrong):
    """The groups from which rows are read, each with the fault, or nothing; none that has two faults."""
    if not file.stride:
        return {(0, 0): "file 12 Stripe(0): stripe 7 NoIndex"} if file.stripes else {}
    found = {}
    for place in places_of(file):
        columns = [column for at, column, group in wrong if (at, group) == place]
        if len(columns) < 2:
            found[place] = f"file 12 Stripe({place[0]}): stripe 8 BadPosition({columns[0]})" if columns else None
    return found


def vector_of(name, rules, shows, file):
    """A vector of a file that a writer laid out."""
    wrong = wrong_places(file)
    more = " positions" if file.stride and file.stripes else ""
    more += " empty-present" if wrong else ""
    return Vector(name, rules + more, shows, file, findings_of(file), faults_of(file, wrong), written=False)


def laid(writer, own, name=None):
    """A vector of a set by a writer."""
    short, rules, text, parts, stride, shows = own
    return vector_of(
        f"{writer.name}/{name or short}", rules, f"as by {writer.title}: {shows}", laid_out(writer, text, parts, stride)
    )


def twice(vector):
    """A merge of a file with itself."""
    name, shows = f"{vector.name}-twice", "the file, merged with itself"
    if vector.file.stripes and not vector.file.tells_stripes:
        return Merge(name, "merge-statistics", shows, [vector.name] * 2, fault="merge 8 NoStripeStatistics(0)")
    made = Merged([vector.file] * 2)
    wrong = wrong_places(made)
    result = Vector(name, "merge-stripes", shows, made, findings_of(made), written=False)
    result.places = faults_of(made, wrong) if vector.name.endswith("/each-kind") else {}
    return Merge(name, "merge-stripes merge-tail", shows, [vector.name] * 2, result)


def refused(name, shows, inputs, fault):
    """A merge of files of which one doesn't join."""
    return Merge(name, "merge-user" if "User" in fault else "merge-version", shows, inputs, fault=f"merge {fault}")


def java():
    """What Apache's Java writer alone does."""
    newer = fields.number(11, 2) + fields.block(12, "1.9.5")
    texts, more = ["a", "b", "c", "d", "a"], ["a", "b", "c", "d", "e", "a"]
    at_ratio = laid_out(JAVA, "struct<s:string>", [numbers(texts, "s")], 2)
    above = laid_out(JAVA, "struct<s:string>", [numbers(more, "s")], 2)
    back = laid_out(JAVA, "struct<n:bigint>", [numbers(STEPS)], 10, back=1)
    of_newer = laid_out(JAVA, EACH, [EACH_ROWS[:5], EACH_ROWS[5:]], 2, kept=newer)
    names = ["as-java/each-kind", "as-java/newer"]
    return [
        vector_of(
            "as-java/dictionary-at-the-ratio", "strings-dictionary", "four distinct texts of five: a dictionary", at_ratio
        ),
        vector_of("as-java/direct-above-the-ratio", "strings-direct", "five distinct texts of six: none", above),
        vector_of("as-java/past-runs", "positions-own", "positions that pass the run before, too", back),
        vector_of("as-java/newer", "tail-footer", "another version of the software, and another calendar", of_newer),
        Merge(
            "as-java/two-versions",
            "merge-kept",
            "files of two versions of the software",
            names,
            fault="merge 6 OtherFooterFields(1)",
        ),
    ]


def others():
    """What the other writers alone do."""
    later = (("trino_version", "435"), ("trino_query_id", "20240229_101112_00008_abcde"))
    another = laid_out(TRINO, EACH, [EACH_ROWS[:5], EACH_ROWS[5:]], 2, user=list(later))
    hive = {own[0]: own for own in SETS}
    of_12 = [laid(HIVE_12, hive[name], f"{name}-12") for name in ("each-kind", "no-nulls", "all-null", "texts", "runs")]
    return [
        *of_12,
        *map(twice, of_12[:1]),
        laid(HIVE_12, PATCHED, "patched-12"),
        *[laid(writer, PATCHED) for writer in (JAVA, CPP, TRINO, RUST)],
        vector_of("as-trino/another-query", "tail-footer", "the file of another query", another),
        refused(
            "as-trino/two-queries",
            "files of two queries",
            ["as-trino/each-kind", "as-trino/another-query"],
            "7 UserMetadataConflict(1)",
        ),
        refused(
            "as-cpp/and-java",
            "files of two writers",
            ["as-cpp/each-kind", "as-java/each-kind"],
            "4 VersionDiffers(1)",
        ),
    ]


def vectors():
    """The vectors of these folders, writer by writer."""
    found = [laid(writer, own) for writer in (JAVA, HIVE_11, CPP, TRINO, RUST) for own in SETS]
    found += [twice(vector) for vector in found] + java() + others()
    order = {writer.name: at for at, writer in enumerate((JAVA, HIVE_11, CPP, TRINO, RUST))}
    return sorted(found, key=lambda vector: order[vector.name.partition("/")[0]])
