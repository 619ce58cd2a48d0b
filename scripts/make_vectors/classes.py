"""The class of each vector: whether the published specification says what a reader has to answer, and in which
sentence.

A vector's class comes from its rules. A file that is read and shows sentences of the specification alone is `must`; one
that is refused is `must` only if it stands in a list here, since the specification says what a file is, and seldom what
a reader does with what is none. Three things are never `must`: days that a calendar or a form of JSON decides, maps
whose keys are null or equal, and streams that are left out since they have no bytes."""
from fnmatch import fnmatchcase

from .rows import DATE, MAP, cells
from .rules import OWN, RULES
from .sentences import SENTENCES
from .stripe import DATA, DICTIONARY_DATA, LENGTH

CLASSES = {
    "must": "the published specification says so: every reader has to read the file so, or to refuse it",
    "may": "the specification leaves it open: a reader may answer otherwise",
    "own": "a rule of this project, or something that it alone writes, prints or finds",
    "profile": "outside the types, the compression or the limits of this project",
}
# the class of what a rule of this project decides, where it isn't `own`
OF_RULES = {
    "may": "unsigned run-varint run-range strings-lengths column-ranges stripe-gaps bad-directory tail-version "
    "tells-of-much positions-own spare-bits v2-bad-delta v2-patched-own v2-patch-faults",
    "profile": "type-limits cell-limits tail-compression tail-encryption tail-limits statistics-limits",
}
CLASS_OF_RULE = {rule: name for name, rules in OF_RULES.items() for rule in rules.split()}
# vectors that are `must` although they are refused, or show a rule of this project too: by the sentence that says so
MUST = {
    "v1-run": "integers-1/run-cut integers-1/unsigned-lengths",
    "v1-literals": "integers-1/literals-cut integers-1/varint-cut integers-1/unsigned-literals",
    "v2-short-repeat": "integers-2/short-repeat-unsigned",
    "v2-direct": "integers-2/direct-cut integers-2/direct-header-cut integers-2/direct-unsigned",
    "v2-delta": "integers-2/delta-cut integers-2/delta-sizes-cut integers-2/delta-unsigned",
    "v2-patched": "integers-2/patched-cut",
    "run-count": "integers-1/too-few integers-1/no-runs integers-2/too-few bytes/too-few booleans/no-bytes "
    "nested/names-and-a-number-missing nested/second-field-without-its-stream nested/number-too-few "
    "tells-of-much/booleans-* tells-of-much/bytes-67108864 tells-of-much/bytes-2147483647 "
    "tells-of-much/bytes-of-a-list-* tells-of-much/numbers-* tells-of-much/no-numbers-* "
    "tells-of-much/indexes-* tells-of-much/texts-* tells-of-much/lists-of-a-list-* "
    "tells-of-much/pairs-of-a-map-*",
    "column-kinds": "numbers/extremes",
    "byte-runs": "bytes/run-cut bytes/literals-cut booleans/cut",
    "boolean-runs": "booleans/nine-in-a-byte booleans/one-byte-fewer",
    "strings-direct": "strings/binary strings/empty-listed strings/data-too-short strings/texts-too-long "
    "strings/lengths-that-wrap strings/lengths-too-few nested/fewer-keys-than-lengths "
    "tells-of-much/bytes-of-a-text-*",
    "strings-dictionary": "strings/index-past-the-entries strings/index-past-the-entries-1 strings/entries-too-short "
    "strings/lengths-of-entries-that-wrap tells-of-much/entries-* tells-of-much/bytes-of-an-entry-*",
    "nulls": "nulls/all-listed nulls/too-few nulls/present-cut nested/more-elements-than-present "
    "tells-of-much/nulls-*",
    "cells": "nested/names-in-any-order",
    "lists": "nested/list-without-its-length nested/fewer-elements-than-lengths",
    "maps": "nested/fewer-keys-than-pairs nested/more-maps-than-lengths nested/map-without-its-length "
    "nested/key-too-few",
    "encodings": "stripes/encoding-missing",
    "messages": "stripes/footer-cut tails/footer-cut tails/postscript-cut tails/magic-cut tails/field-of-wire-type-6",
    "messages-missing": "tails/no-compression-field",
    "messages-lists": "tails/version-not-packed",
    "tail-lengths": "tails/two-bytes tails/three-bytes tails/postscript-too-long tails/footer-too-long",
    "types": "tails/type-in-itself tails/list-of-the-root tails/type-that-is-missing tails/list-of-none "
    "tails/map-of-none tails/map-of-one tails/map-value-missing tails/32-levels-and-no-more-types "
    "tails/subtype-of-32-bits",
}
# vectors of another class than their rules say
OTHERS = {
    "may": "strings/dictionary-in-any-order strings/dictionary-entry-* nested/empty-structs "
    "nested/no-columns nested/32-levels nested/32-levels-of-structs nested/names-and-no-text "
    "nested/names-and-a-number-left-over nulls/rows integers-2/patched-to-the-greatest "
    "stripes/of-no-rows stripes/kinds-* stripes/numbers-of-32-bits stripes/bytes-behind-the-streams "
    "stripes/dictionary-size-of-a-direct-column indexes/at-the-end indexes/in-any-order "
    "indexes/without-a-stride indexes/stripe-of-no-rows statistics/record-without-values "
    "statistics/record-of-another-kind statistics/nulls-of-two statistics/bounds-of-long-texts "
    "tails/no-magic tails/empty-magic tails/lengths-that-nobody-reads "
    "tails/known-numbers-of-other-types tails/kept-fields tails/names tails/names-escaped tails/32-levels",
    "own": "bytes/two-versions booleans/two-versions indexes/group-behind-the-last "
    "indexes/places-that-are-not-there indexes/no-group-in-a-stripe-of-no-rows "
    "indexes/damaged-stripe-before statistics/booleans statistics/second-bucket "
    "statistics/count-of-true-without-values stripes/footer-of-a-group tails/footer-of-a-group tails/name-twice*",
    "profile": "tails/kind-5 tails/kind-6 tails/kind-9 tails/kind-1? tails/root-of-* tails/version-of-17-numbers",
}
KIND_NAMES = {DATA: "DATA", LENGTH: "LENGTH", DICTIONARY_DATA: "DICTIONARY_DATA"}
# 1582-10-15, the first day of the Gregorian calendar, and 9999-12-31
FIRST_DAY, LAST_DAY = -141427, 2932896


def listed(name, names):
    """Whether a name stands in a list, or begins or reads as one of its patterns."""
    from fnmatch import fnmatchcase

    return any(fnmatchcase(name, pattern) for pattern in names.split())


def has_unlike_days(file):
    """Whether a file has a day before the Gregorian calendar, or one that isn't of the years 1 to 9999."""
    return any(
        each.kind == DATE and any(day is not None and not FIRST_DAY <= day <= LAST_DAY for day in own)
        for each, own in zip(file.root.columns(), cells(file.root, file.rows()))
    )


def has_unlike_keys(file):
    """Whether a map of a file has a key that is null, or one key twice."""
    maps = [
        [key for key, _ in cell]
        for each, own in zip(file.root.columns(), cells(file.root, file.rows()))
        for cell in own
        if each.kind == MAP and cell is not None
    ]
    return any(None in keys or any(keys.count(key) > 1 for key in keys) for keys in maps)


def file_of(vector):
    """The file of a vector, of a merge that which is made, or nothing."""
    vector = getattr(vector, "result", vector)
    file = getattr(vector, "file", None)
    return None if isinstance(file, bytes) else file


def left_out(vector):
    """The streams without bytes that a vector's file leaves out: stripe, column and kind. Of one that is refused none."""
    file = None if getattr(vector, "fault", None) else file_of(vector)
    return [(at, *stream) for at, laid in enumerate(file.laid) for stream in laid.left_out] if file else []


def of_rules(vector):
    """The class that a vector has by its rules."""
    found = {CLASS_OF_RULE.get(rule, "own") for rule in vector.rules if RULES[rule][1] == OWN}
    if not found:
        return "may" if vector.fault else "must"
    return next(name for name in ("own", "profile", "may") if name in found)


def class_of(vector):
    """The class of a vector."""
    for name, names in OTHERS.items():
        if listed(vector.name, names):
            return name
    found = "must" if any(listed(vector.name, names) for names in MUST.values()) else of_rules(vector)
    file = file_of(vector)
    if found == "must" and not vector.fault and (left_out(vector) or has_unlike_days(file) or has_unlike_keys(file)):
        return "own"
    return found


def sentences_of(vector):
    """The sentences of the specification by which a vector is `must`, by their names; none of another class."""
    if class_of(vector) != "must":
        return []
    named = [sentence for sentence, names in MUST.items() if listed(vector.name, names)]
    found = named or [rule for rule in vector.rules if rule in SENTENCES]
    assert found, f"{vector.name} is must, and names no sentence"
    return found


def test(vectors):
    """That each name and each pattern of the lists is of a vector, and no vector is in two."""
    names = [vector.name for vector in vectors]
    lists = list(OTHERS.values()) + [" ".join(MUST.values())]
    for pattern in " ".join(lists).split():
        assert any(listed(name, pattern) for name in names), f"no vector is {pattern}"
    for name in names:
        assert sum(listed(name, each) for each in lists) < 2, f"{name} stands in two lists"


def left_out_text(vectors):
    """vectors/LEFT-OUT: a line for each stream without bytes that a file leaves out."""
    lines = [
        f"{vector.name} {stripe} {column} {KIND_NAMES[kind]}"
        for vector in vectors
        for stripe, column, kind in left_out(vector)
    ]
    return "".join(f"{line}\n" for line in lines)


def text(vectors, written):
    """vectors/CLASSES: a line a name."""
    lines = [f"{vector.name} {class_of(vector)}" for vector in vectors] + [f"{each.name} own" for each in written]
    return "".join(f"{line}\n" for line in lines)
