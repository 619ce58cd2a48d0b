"""Vectors of a schema's types, as the footer has them."""
from .fields import apart, block, number, packed
from .file import File
from .of_tails import GREATEST, ONE, good, refused, rows
from .rows import STRUCT, Type
from .stripe import Stripe
from .vector import Vector


def types_file(*types):
    """A file of no rows with these types, each the bytes of its message."""
    return File(
        "struct<>",
        [],
        footer=lambda parts: parts.update(types=b"".join(block(4, each) for each in types), statistics=b""),
    )


def kind(of, *subtypes, names=()):
    """The message of a type."""
    return number(1, of) + packed(2, subtypes) + b"".join(block(3, name) for name in names)


def types():
    """Types that are no schema that is read."""

    def bad(name, shows, fault, *messages, rules="types"):
        return refused(name, rules, shows, types_file(*messages), f"file 8 BadTypes: type {fault}")

    root, number_type = kind(12, 1, names=["n"]), kind(4)
    listed = [kind(10, at + 1) for at in range(1, 32)]
    # maps whose keys are numbers, each the value of the one before
    mapped = [each for at in range(1, 63, 2) for each in (kind(11, at + 1, at + 2), number_type)]
    unread = {
        5: "FLOAT",
        6: "DOUBLE",
        9: "TIMESTAMP",
        13: "UNION",
        14: "DECIMAL",
        16: "VARCHAR",
        17: "CHAR",
        18: "a timestamp with its zone",
        99: "a kind that there isn't",
        GREATEST: "the greatest number of 32 bits",
    }
    return [
        good(
            "names",
            "types rows-json",
            "names in any letters, with blanks, and without a letter; keys are printed in the order of their bytes",
            File(named("日", "ä b", ""), [[{"ä b": 1, "日": 2, "": 3}]]),
        ),
        good(
            "names-with-line-ends",
            "shown types",
            "a name with a line end stands in backticks, with the line end's number, on one line of what is shown",
            File(named("a\nb", 'c"'), [[{"a\nb": 1, 'c"': 2}]]),
        ),
        good(
            "names-in-backticks",
            "shown types",
            "names that stand in backticks: a backtick and a backslash are doubled, control characters are numbers",
            File(
                named("`", "\\u0041", "a:int>", "\x1b[2J", "\x7f", "\x85", "\xa0", "n"),
                [[{"`": 1, "\\u0041": 2, "a:int>": 3, "\x1b[2J": 4, "\x7f": 5, "\x85": 6, "\xa0": 7, "n": 8}]],
            ),
        ),
        good(
            "names-escaped",
            "types rows-json",
            "names that keys escape as texts are escaped, and the empty name",
            File(named("é", 'a"\n', "", "\\"), [[{"é": 1, 'a"\n': 2, "": 3, "\\": 4}]]),
        ),
        good(
            "types-not-packed",
            "types messages-lists",
            "subtypes a field each",
            File(
                ONE,
                [rows(1)],
                footer=lambda parts: parts.update(
                    types=block(4, number(1, 12) + apart(2, [1]) + block(3, "n")) + block(4, kind(3))
                ),
            ),
        ),
        Vector(
            "tails/name-twice",
            "types",
            "a struct that names a field twice: the file is read, and its rows have no JSON",
            File(named("n", "n"), [Stripe([(1, 2)])]),
            fault="json 5 DuplicateField",
            rows_alone=True,
        ),
        Vector(
            "tails/name-twice-without-rows", "types", "the same without rows", File(named("n", "n"), []), written=False
        ),
        *(
            Vector(
                f"tails/name-twice-{name}",
                "types",
                f"a struct in {shows} names a field twice",
                File(root_of_two, [[{}]]),
                fault="json 5 DuplicateField",
                rows_alone=True,
            )
            for name, shows, root_of_two in (
                ("in-a-struct", "another one", "struct<b:struct<a:int,b:int,a:date>>"),
                ("in-a-list", "a list", "struct<a:array<struct<b:int,c:int,b:int>>,b:int>"),
                ("in-keys", "the keys of a map", "struct<m:map<struct<a:int,a:int>,int>>"),
                ("in-values", "lists that are a map's values", "struct<m:map<int,array<struct<a:int,a:int>>>>"),
            )
        ),
        *(
            bad(f"kind-{at}", f"a column of {name}", f"1 UnsupportedKind({at})", root, kind(at))
            for at, name in unread.items()
        ),
        bad("no-types", "no type at all", "5 RootNotStruct"),
        bad("root-of-numbers", "a root that is no struct", "5 RootNotStruct", number_type),
        bad("root-of-lists", "a root that is a list", "5 RootNotStruct", kind(10, 1), number_type),
        bad("type-in-itself", "the root is its own field", "2 BadTree", kind(12, 0, names=["n"])),
        bad("list-of-the-root", "a list whose subtype is the root", "2 BadTree", root, kind(10, 0), number_type),
        bad("type-that-is-missing", "a field of a type that isn't there", "2 BadTree", root),
        bad("type-that-is-left-over", "a type that no other one has", "2 BadTree", root, number_type, number_type),
        bad(
            "type-that-is-passed-over",
            "the root's field is of the type behind the next one",
            "2 BadTree",
            kind(12, 2, names=["n"]),
            number_type,
            number_type,
        ),
        bad(
            "type-passed-over-for-none",
            "the root's field is of a type that isn't there, and the one that is there has no field",
            "2 BadTree",
            kind(12, 2, names=["n"]),
            number_type,
        ),
        bad("type-below-no-fields", "a type below a root without fields", "2 BadTree", kind(12), number_type),
        bad(
            "type-of-two-fields",
            "two fields of the same type",
            "2 BadTree",
            kind(12, 1, 1, names=["a", "b"]),
            number_type,
        ),
        bad(
            "types-not-in-order",
            "the second field's type stands before the first one's",
            "2 BadTree",
            kind(12, 2, 1, names=["a", "b"]),
            number_type,
            number_type,
        ),
        bad("list-of-none", "a list without a subtype", "2 BadTree", root, kind(10)),
        bad("list-of-two", "a list of two subtypes", "2 BadTree", root, kind(10, 2, 3), number_type, number_type),
        bad(
            "list-with-a-name",
            "a list whose subtype has a name",
            "2 BadTree",
            root,
            kind(10, 2, names=["x"]),
            number_type,
        ),
        bad("map-of-one", "a map of one subtype", "2 BadTree", root, kind(11, 2), number_type),
        bad("map-of-none", "a map without subtypes", "2 BadTree", root, kind(11)),
        bad(
            "map-of-three",
            "a map of three subtypes",
            "2 BadTree",
            root,
            kind(11, 2, 3, 4),
            number_type,
            number_type,
            number_type,
        ),
        bad(
            "map-with-names",
            "a map whose subtypes have names",
            "2 BadTree",
            root,
            kind(11, 2, 3, names=["k", "v"]),
            number_type,
            number_type,
        ),
        bad(
            "map-value-first",
            "a map whose value's type stands before its key's",
            "2 BadTree",
            root,
            kind(11, 3, 2),
            number_type,
            number_type,
        ),
        bad(
            "map-value-within-its-key",
            "a map whose value's type is the one below its key",
            "2 BadTree",
            root,
            kind(11, 2, 3),
            kind(10, 3),
            number_type,
            number_type,
        ),
        bad(
            "map-value-missing",
            "a map whose value's type isn't there",
            "2 BadTree",
            root,
            kind(11, 2, 3),
            number_type,
        ),
        bad("number-of-numbers", "a number with a subtype", "2 BadTree", root, kind(4, 2), number_type),
        bad("text-with-a-name", "a string that names a field", "2 BadTree", root, kind(7, names=["a"])),
        bad("name-missing", "a struct of one field and no name", "2 BadTree", kind(12, 1), number_type),
        bad(
            "name-too-many",
            "a struct of one field and two names",
            "2 BadTree",
            kind(12, 1, names=["a", "b"]),
            number_type,
        ),
        bad(
            "name-that-is-no-text",
            "a name that is no UTF-8",
            "6 BadText at 0",
            kind(12, 1, names=[b"\xff"]),
            number_type,
        ),
        bad(
            "name-of-too-many-bytes",
            "a name whose letter has a byte more than UTF-8 gives it",
            "6 BadText at 0",
            kind(12, 1, names=[b"\xc0\x80"]),
            number_type,
        ),
        good("map-types", "types", "a map's two types", File("struct<m:map<string,int>>", [])),
        good(
            "types-in-structs",
            "types",
            "lists within lists, and structs and lists in turn",
            File("struct<a:array<array<int>>,_B9:struct<c:date,d:array<struct<e:binary>>>>", []),
        ),
        good(
            "types-in-maps",
            "types",
            "maps, lists and structs as keys and values of maps",
            File("struct<m:map<map<int,array<string>>,struct<n:map<date,binary>>>>", []),
        ),
        good(
            "32-levels",
            "type-limits",
            "32 levels, in a file of no rows",
            File(f"struct<n:{'array<' * 30}bigint{'>' * 30}>", []),
        ),
        bad("33-levels", "33 levels", "3 TooDeep", root, *listed, kind(4), rules="types type-limits"),
        bad(
            "33-levels-of-maps",
            "33 levels, through maps' values",
            "3 TooDeep",
            root,
            *mapped,
            number_type,
            rules="types type-limits",
        ),
        bad(
            "32-levels-and-no-more-types",
            "32 levels, of which the last is a list of a type that isn't there",
            "2 BadTree",
            root,
            *listed,
            rules="types type-limits",
        ),
        refused(
            "kind-of-33-bits",
            "messages-range types",
            "a column of kind 2^32",
            types_file(root, kind(GREATEST + 1)),
            "file 6 BadFooter",
        ),
        refused(
            "subtype-of-33-bits",
            "messages-range types",
            "the root's field is of type 2^32",
            types_file(kind(12, GREATEST + 1, names=["n"]), number_type),
            "file 6 BadFooter",
        ),
        bad(
            "subtype-of-32-bits",
            "the root's field is of the type of the greatest number of 32 bits, which there isn't",
            "2 BadTree",
            kind(12, GREATEST, names=["n"]),
            number_type,
        ),
        refused(
            "type-without-kind",
            "messages-required",
            "a type that doesn't say its kind",
            types_file(root, packed(2, [1])),
            "file 6 BadFooter",
        ),
    ]


def named(*names):
    """A struct of numbers with these names."""
    return Type(STRUCT, names, [Type(3) for _ in names])


def vectors():
    """The vectors of types."""
    return types()
