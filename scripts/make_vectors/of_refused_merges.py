"""Vectors of merges that are refused, and of two reasons for it."""
from .of_merges import Merge


def refused():
    """Merges that are refused: nothing is written."""

    def apart(name, rules, shows, names, fault):
        paths = [f"merges/in/{each}" if "/" not in each else each for each in names]
        return Merge(name, rules, shows, paths, fault=f"merge {fault}")

    schema_rule = "merge-schema"
    return [
        apart("refused-no-input", "merge-inputs", "no input", [], "1 NoInput"),
        apart(
            "refused-no-file",
            "merge-inputs",
            "the third input is no file",
            ["c", "c", "tails/other-front"],
            "2 File(2): file 1 NotOrc",
        ),
        apart(
            "refused-compressed",
            "merge-inputs",
            "the second input is compressed",
            ["c", "tails/compressed-1"],
            "2 File(1): file 3 Compressed(1)",
        ),
        *(
            apart(f"refused-{name}", "merge-inputs", f"the second input {what}", ["c", f"tails/{name}", "c"], found)
            for name, what, found in (
                ("postscript-cut", "has no postscript", "2 File(1): file 2 BadPostscript"),
                ("encrypted", "is encrypted", "2 File(1): file 4 Encrypted"),
                ("footer-too-long", "has a footer longer than it is", "2 File(1): file 5 BadLengths"),
                ("footer-cut", "has a footer that is cut", "2 File(1): file 6 BadFooter"),
                ("metadata-cut", "has a metadata that is cut", "2 File(1): file 7 BadMetadata"),
                ("type-in-itself", "has types that are no tree", "2 File(1): file 8 BadTypes: type 2 BadTree"),
                ("stripes-that-overlap", "has stripes that overlap", "2 File(1): file 9 BadStripe(1)"),
                ("too-many-rows-told", "tells of more rows than it has", "2 File(1): file 10 RowCount"),
                ("rows-of-a-stripe", "tells of a stripe of 2^31 rows", "2 File(1): file 11 Limit"),
            )
        ),
        apart(
            "refused-true",
            "merge-inputs merge-limits",
            "the second input tells of more than 2^62 that are true, so it is no file",
            ["many-true", "statistics/too-many-true"],
            "2 File(1): file 11 Limit",
        ),
        apart("refused-kind", schema_rule, "INT and LONG", ["c", "int"], "3 SchemaDiffers(1)"),
        apart("refused-name", schema_rule, "columns of two names", ["c", "c", "other-name"], "3 SchemaDiffers(2)"),
        apart(
            "refused-attributes",
            schema_rule,
            "a type with attributes, and one without",
            ["int", "attributes"],
            "3 SchemaDiffers(1)",
        ),
        apart(
            "refused-attributes-below",
            schema_rule,
            "a map with attributes, and one without",
            ["attributes-below", "attributes-of-a-list"],
            "3 SchemaDiffers(1)",
        ),
        apart(
            "refused-version", "merge-version", "versions 0.12 and 0.11", ["c", "other-version"], "4 VersionDiffers(1)"
        ),
        apart(
            "refused-longer-version",
            "merge-version",
            "versions 0.12 and 0.12.0",
            ["c", "c", "version-of-three"],
            "4 VersionDiffers(2)",
        ),
        apart(
            "refused-no-version",
            "merge-version",
            "version 0.12, and none",
            ["c", "c", "c", "no-version"],
            "4 VersionDiffers(3)",
        ),
        apart(
            "refused-other-writer",
            "merge-version",
            "the writers of numbers 0 and 1",
            ["writer-0", "writer-0", "writer-1"],
            "4 VersionDiffers(2)",
        ),
        apart(
            "refused-writer",
            "merge-version",
            "no writer, and the writer of number 0",
            ["c", "writer-0"],
            "4 VersionDiffers(1)",
        ),
        apart(
            "refused-writer-version",
            "merge-version",
            "two versions of the writer",
            ["c", "other-writer-version"],
            "4 VersionDiffers(1)",
        ),
        apart(
            "refused-no-writer-version",
            "merge-version",
            "a version of the writer, and none",
            ["c", "no-writer-version"],
            "4 VersionDiffers(1)",
        ),
        apart("refused-stride", "merge-stride", "strides of 2 and of 3", ["indexed", "stride-3"], "5 StrideDiffers(1)"),
        apart(
            "refused-stride-and-none", "merge-stride", "no stride, and one of 2", ["c", "indexed"], "5 StrideDiffers(1)"
        ),
        apart(
            "refused-kept",
            "merge-kept",
            "fields above 10 that differ",
            ["more", "other-kept"],
            "6 OtherFooterFields(1)",
        ),
        apart(
            "refused-none-and-kept",
            "merge-kept",
            "no field above 10, and one",
            ["c", "c", "kept-alone"],
            "6 OtherFooterFields(2)",
        ),
        apart(
            "refused-kept-and-none",
            "merge-kept",
            "a field above 10, and none",
            ["kept-alone", "kept-alone", "kept-alone", "c"],
            "6 OtherFooterFields(3)",
        ),
        apart(
            "refused-pairs",
            "merge-user",
            "one name with two values in two files",
            ["more", "other-pair"],
            "7 UserMetadataConflict(1)",
        ),
        apart(
            "refused-pairs-of-one-file",
            "merge-user",
            "one name with two values in one file",
            ["pairs-that-differ"],
            "7 UserMetadataConflict(0)",
        ),
        apart(
            "refused-pairs-of-the-second-file",
            "merge-user",
            "one name with two values in the second file, and no pair in the first",
            ["c", "pairs-that-differ"],
            "7 UserMetadataConflict(1)",
        ),
        apart(
            "refused-pairs-apart",
            "merge-user",
            "one name with two values in the first file and in the third",
            ["pair", "c", "pair-that-differs"],
            "7 UserMetadataConflict(2)",
        ),
        apart(
            "refused-no-statistics",
            "merge-statistics",
            "an input without statistics of its stripe",
            ["no-statistics"],
            "8 NoStripeStatistics(0)",
        ),
        apart(
            "refused-few-statistics",
            "merge-statistics",
            "an input without statistics of a column",
            ["c", "few-statistics"],
            "8 NoStripeStatistics(1)",
        ),
        apart(
            "refused-no-statistics-of-the-second-file",
            "merge-statistics",
            "the second of three inputs without statistics of its stripe",
            ["c", "no-statistics", "c"],
            "8 NoStripeStatistics(1)",
        ),
        apart(
            "refused-fewer-statistics-than-stripes",
            "merge-statistics",
            "the third input has two stripes, and statistics of the first",
            ["c", "c", "statistics-of-one-of-two"],
            "8 NoStripeStatistics(2)",
        ),
        apart(
            "refused-few-statistics-of-a-stripe",
            "merge-statistics",
            "the third input's second stripe has no statistics of a column",
            ["c", "c", "few-statistics-of-the-second"],
            "8 NoStripeStatistics(2)",
        ),
        apart("refused-values", "merge-limits", "more than 2^62 values together", ["many-values", "c"], "9 Limit(1)"),
        apart(
            "refused-booleans",
            "merge-limits",
            "more than 2^62 booleans together, of which one is true",
            ["many-booleans", "false"],
            "9 Limit(1)",
        ),
        apart(
            "refused-values-of-one-file",
            "merge-limits",
            "an input whose own stripes tell of more than 2^62 values",
            ["too-many-values", "c"],
            "9 Limit(0)",
        ),
        apart(
            "refused-values-of-the-only-file",
            "merge-limits",
            "an input whose own stripes tell of more than 2^62 values, by itself",
            ["too-many-values"],
            "9 Limit(0)",
        ),
        apart(
            "refused-values-of-the-last-file",
            "merge-limits",
            "the first three inputs have 2^62 values and no more, and the fourth has one",
            ["many-values", "none", "none", "one"],
            "9 Limit(3)",
        ),
        apart(
            "refused-rows",
            "merge-limits",
            "2^40 - 512 rows of 32 inputs, and 513 rows of another one",
            ["most-rows"] * 32 + ["513-rows"],
            "9 Limit(32)",
        ),
    ]


def in_order():
    """Merges with two faults: input by input, and for each input the first test that it doesn't pass."""

    def two(name, shows, names, fault):
        paths = [each if "/" in each else f"merges/in/{each}" for each in names]
        return Merge(f"order/{name}", "merge-order", f"two faults: {shows}", paths, fault=f"merge {fault}")

    return [
        two(
            "schema-before-version",
            "another schema, and another version",
            ["c", "int-and-version"],
            "3 SchemaDiffers(1)",
        ),
        two(
            "version-before-stride",
            "another version, and another stride",
            ["c", "version-and-stride"],
            "4 VersionDiffers(1)",
        ),
        two(
            "stride-before-kept",
            "another stride, and a field above 10",
            ["c", "stride-and-kept"],
            "5 StrideDiffers(1)",
        ),
        two(
            "kept-before-pairs",
            "a field above 10, and another value for a name",
            ["pair", "kept-and-pair"],
            "6 OtherFooterFields(1)",
        ),
        two(
            "pairs-before-statistics",
            "another value for a name, and no statistics of a stripe",
            ["pair", "pair-and-no-statistics"],
            "7 UserMetadataConflict(1)",
        ),
        two(
            "statistics-before-limits",
            "no statistics of a stripe, and more than 2^40 rows",
            ["most-rows"] * 32 + ["513-rows-and-no-statistics"],
            "8 NoStripeStatistics(32)",
        ),
        two(
            "statistics-before-the-next-input",
            "the second input has no statistics of its stripe, and the third is no file",
            ["c", "no-statistics", "tails/other-front"],
            "8 NoStripeStatistics(1)",
        ),
        two(
            "limits-before-the-next-input",
            "the second input has a value too many, and the third has another schema",
            ["many-values", "c", "int"],
            "9 Limit(1)",
        ),
    ]


def vectors():
    """The vectors of these folders."""
    return refused() + in_order()
