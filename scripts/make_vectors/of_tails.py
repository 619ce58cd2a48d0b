"""Vectors of tails: the tests that a file passes before a stripe is read, and their limits; messages."""
from .file import File, info_text
from .fields import apart, block, eight, four, key, number, varint
from .rows import schema
from .stripe import Stripe
from .vector import Vector

ONE = "struct<n:int>"
END = block(8000, "ORC")
# the greatest number of 32 bits, and an unknown field whose varint goes on past 64 bits
GREATEST, TOO_LONG = (1 << 32) - 1, key(99, 0) + b"\xff" * 9 + b"\x02"


def rows(*values):
    """Rows of one number."""
    return [{"n": value} for value in values]


def good(name, rules, shows, file):
    return Vector(f"tails/{name}", rules, shows, file)


def refused(name, rules, shows, file, fault):
    return Vector(f"tails/{name}", rules, shows, file, fault=fault, tail=False)


def one(**choices):
    """A file of one stripe of two rows."""
    return File(ONE, [rows(1, 2)], **choices)


def with_parts(**parts):
    """A hook that puts these bytes in place of parts."""
    return lambda found: found.update(parts)


def postscripts():
    """Postscripts that are read, and ones that aren't."""
    bad, lengths = "file 2 BadPostscript", "file 5 BadLengths"
    return [
        good("no-magic", "tail-magic", "a postscript without its magic", one(postscript=with_parts(magic=b""))),
        good("empty-magic", "tail-magic", "a magic of no bytes", one(postscript=with_parts(magic=block(8000, "")))),
        good(
            "block-size",
            "tail-postscript messages-unknown",
            "the size of blocks of a compression that there isn't, and unknown fields, are passed over",
            one(
                postscript=lambda parts: parts.update(
                    compression=parts["compression"] + number(3, 262144), magic=number(77, 1) + END
                )
            ),
        ),
        good(
            "no-compression-field",
            "messages-missing tail-compression",
            "a missing compression is 0, which is none",
            one(postscript=with_parts(compression=b"")),
        ),
        good(
            "no-metadata-field",
            "messages-missing",
            "a missing length of the metadata is 0",
            File(ONE, [], postscript=with_parts(metadata=b"")),
        ),
        good("no-version", "tail-version", "a postscript without a version", one(version=())),
        good("version-of-16-numbers", "tail-version", "a version of sixteen numbers, the most", one(version=range(16))),
        good("version-2.0", "tail-version", "a version that there isn't yet", one(version=(2, 0))),
        good(
            "version-not-packed",
            "tail-version messages-lists",
            "the version's numbers, a field each",
            one(postscript=with_parts(version=apart(4, [0, 12]))),
        ),
        good(
            "no-writer-version", "tail-postscript", "nothing is said of the writer's version", one(writer_version=None)
        ),
        good("fields-in-any-order", "messages", "the postscript's fields in another order", one(postscript=turned)),
        good(
            "numbers-twice",
            "messages-last",
            "of a length that stands twice the last counts",
            one(postscript=lambda parts: parts.update(footer=number(1, 9) + parts["footer"])),
        ),
        good(
            "magic-twice",
            "messages-last tail-magic",
            "of a text that stands twice the last counts",
            one(postscript=with_parts(magic=block(8000, "OLD") + END)),
        ),
        good(
            "field-of-the-greatest-number",
            "messages messages-unknown",
            "an unknown field of number 2^29 - 1",
            one(postscript=with_parts(magic=number((1 << 29) - 1, 5) + END)),
        ),
        good(
            "long-varints",
            "varint",
            "lengths in more bytes than they need",
            one(postscript=lambda parts: parts.update(metadata=long_number(parts["metadata"]))),
        ),
        good(
            "postscript-of-255-bytes",
            "tail-postscript",
            "the longest postscript that a byte can tell of",
            one(postscript=lambda parts: parts.update(magic=block(99, bytes(229)) + END)),
        ),
        refused("empty", "tail-magic", "a file of no bytes", b"", "file 1 NotOrc"),
        refused("two-bytes", "tail-magic", "a file of `OR` alone", b"OR", "file 1 NotOrc"),
        refused("three-bytes", "tail-magic", "a file of `ORC` alone", b"ORC", "file 1 NotOrc"),
        refused(
            "other-front",
            "tail-magic",
            "a file that doesn't begin with `ORC`",
            b"orc" + one().content[3:],
            "file 1 NotOrc",
        ),
        refused(
            "other-magic",
            "tail-magic",
            "a postscript with another magic",
            one(postscript=with_parts(magic=block(8000, "OLD"))),
            "file 1 NotOrc",
        ),
        refused(
            "postscript-too-long",
            "tail-lengths",
            "the last byte tells of more bytes than there are",
            one(last=255),
            lengths,
        ),
        refused(
            "postscript-of-the-whole-file",
            "tail-lengths",
            "of as many bytes as would leave no room for `ORC`",
            one_byte_too_many(),
            lengths,
        ),
        refused(
            "postscript-cut",
            "tail-postscript messages",
            "the last byte tells of one byte, which is a key of wire type 3",
            one(last=1),
            bad,
        ),
        refused(
            "no-postscript",
            "tail-postscript messages-missing",
            "a postscript of no bytes tells of no footer, which has no types",
            one(last=0),
            "file 8 BadTypes: type 5 RootNotStruct",
        ),
        refused("version-of-17-numbers", "tail-version", "a version of seventeen numbers", one(version=range(17)), bad),
        refused(
            "version-of-33-bits", "messages-range", "a number of the version is 2^32", one(version=[0, 1 << 32]), bad
        ),
        refused(
            "compression-of-33-bits",
            "messages-range tail-compression",
            "compression of kind 2^32",
            one(postscript=with_parts(compression=number(2, GREATEST + 1))),
            bad,
        ),
        refused(
            "writer-version-of-33-bits",
            "messages-range",
            "the writer's version is 2^32",
            one(writer_version=GREATEST + 1),
            bad,
        ),
        refused(
            "postscript-varint",
            "tail-postscript messages varint",
            "an unknown field's varint goes on past 64 bits",
            one(postscript=with_parts(magic=TOO_LONG + END)),
            bad,
        ),
        refused(
            "field-past-the-greatest-number",
            "messages tail-postscript",
            "an unknown field of number 2^29",
            one(postscript=with_parts(magic=number(1 << 29, 5) + END)),
            bad,
        ),
        refused(
            "field-of-wire-type-6",
            "messages tail-postscript",
            "an unknown field of wire type 6",
            one(postscript=with_parts(magic=key(99, 6) + END)),
            bad,
        ),
        refused(
            "magic-cut",
            "tail-postscript messages",
            "the magic is longer than the postscript",
            one(postscript=with_parts(magic=END[:-1])),
            bad,
        ),
        *(
            refused(
                f"compressed-{kind}",
                "tail-compression",
                f"compression of kind {kind}",
                one(postscript=with_parts(compression=number(2, kind))),
                f"file 3 Compressed({kind})",
            )
            for kind in (1, 2, 3, 4, 5, 77, GREATEST)
        ),
        refused(
            "footer-too-long",
            "tail-lengths",
            "a footer longer than the file",
            one(postscript=with_parts(footer=number(1, 9999))),
            lengths,
        ),
        refused(
            "metadata-too-long",
            "tail-lengths",
            "a metadata longer than the file",
            one(postscript=with_parts(metadata=number(5, 9999))),
            lengths,
        ),
        refused(
            "lengths-past-64-bits",
            "tail-lengths",
            "lengths that are 2^64 together",
            one(postscript=with_parts(footer=number(1, 1 << 63), metadata=number(5, 1 << 63))),
            lengths,
        ),
    ]


def turned(parts):
    """Parts in the other order."""
    turned_round = dict(reversed(parts.items()))
    parts.clear()
    parts.update(turned_round)


def long_number(text):
    """A field of a number below 128, in a varint of ten bytes."""
    return text[:1] + varint(text[1], 10)


def one_byte_too_many():
    """A file that is shorter than 259 bytes, whose last byte tells of all but three of them."""
    return one(last=len(one().content) - 3)


def footers():
    """Footers that are read, and ones that aren't."""
    bad, stat = "file 6 BadFooter", number(1, 2) + number(10, 0)
    return [
        good(
            "lengths-that-nobody-reads",
            "tail-footer",
            "the lengths of header and content aren't tested",
            one(footer=with_parts(header=number(1, 77), content=b"")),
        ),
        good("writer", "tail-footer", "a writer of number 1", one(writer=1)),
        good(
            "writer-of-32-bits",
            "tail-footer messages-range",
            "a writer and its version of the greatest number of 32 bits",
            one(writer=GREATEST, writer_version=GREATEST),
        ),
        good(
            "kept-fields",
            "tail-footer",
            "fields above 10 of every wire type are passed over",
            one(kept=number(11, 5) + eight(12, 6) + block(13, "x") + four(14, 7)),
        ),
        good(
            "known-numbers-of-other-types",
            "tail-footer messages-types",
            "a known number with another wire type is an unknown field",
            one(
                footer=lambda parts: parts.update(
                    rows=block(6, "no") + parts["rows"] + four(8, 9), header=block(1, b"")
                )
            ),
        ),
        good(
            "user-metadata",
            "tail-footer shown",
            "pairs of a name and bytes, which may be empty; a name that is no UTF-8",
            one(user=[("key", b"\x00\xff"), ("", b""), ('ä"', b"v"), (b"\xff", b"w")]),
        ),
        good(
            "user-metadata-without-rows",
            "tail-footer shown",
            "a pair in a file of no rows",
            File(ONE, [], user=[("k", b"\x00")]),
        ),
        good(
            "user-metadata-without-texts",
            "messages-missing tail-footer",
            "a pair that has no name, and one that has no value: both are empty",
            File(
                ONE,
                [rows(1)],
                user=[("", b"v"), ("k", b"")],
                footer=with_parts(user=block(5, block(2, "v")) + block(5, block(1, "k"))),
            ),
        ),
        good(
            "fields-in-turn",
            "messages messages-lists",
            "the fields of lists between others: each list in its own order",
            File(ONE, [rows(1), rows(2)], footer=interleaved),
        ),
        good(
            "kept-fields-of-types",
            "types messages-unknown",
            "a type's fields above 3, such as attributes",
            File(with_attributes(), [rows(1)]),
        ),
        good("no-stride-field", "messages-missing", "a missing stride is 0", one(footer=with_parts(stride=b""))),
        good(
            "no-rows-field",
            "messages-missing",
            "a missing number of rows is 0",
            File(ONE, [], footer=with_parts(rows=b"")),
        ),
        refused(
            "encrypted",
            "tail-encryption",
            "a footer with field 10, whatever is in it",
            one(kept=block(10, b"")),
            "file 4 Encrypted",
        ),
        refused(
            "encrypted-by-a-number",
            "tail-encryption",
            "field 10 of another wire type",
            one(kept=number(10, 0)),
            "file 4 Encrypted",
        ),
        refused(
            "footer-cut",
            "tail-footer messages",
            "a footer that ends within a field",
            one(footer=with_parts(writer=key(9, 0))),
            bad,
        ),
        refused(
            "footer-of-a-group",
            "tail-footer messages",
            "a field of wire type 3",
            one(kept=key(11, 3) + key(11, 4)),
            bad,
        ),
        refused("footer-field-0", "tail-footer messages", "a field of number 0", one(kept=b"\x00\x00"), bad),
        refused(
            "footer-varint",
            "tail-footer messages varint",
            "an unknown field's varint goes on past 64 bits",
            one(kept=TOO_LONG),
            bad,
        ),
        refused("writer-of-33-bits", "messages-range", "a writer of number 2^32", one(writer=GREATEST + 1), bad),
        refused(
            "stride-of-33-bits",
            "messages-range",
            "a stride of 2^32",
            one(footer=with_parts(stride=number(8, 1 << 32))),
            bad,
        ),
        refused(
            "stride-of-33-bits-and-another",
            "messages-range messages-last",
            "a stride of 2^32 that a later one follows",
            one(footer=with_parts(stride=number(8, 1 << 32) + number(8, 0))),
            bad,
        ),
        refused(
            "more-statistics-than-types",
            "tail-footer",
            "two types, and three statistics",
            one(footer=lambda parts: parts.update(statistics=block(7, stat) * 3)),
            bad,
        ),
        refused(
            "metadata-cut",
            "tail-metadata messages",
            "a metadata that ends within a field",
            one(metadata=lambda text: text[:-1]),
            "file 7 BadMetadata",
        ),
        refused(
            "metadata-varint",
            "tail-metadata messages varint",
            "an unknown field's varint goes on past 64 bits",
            one(metadata=lambda text: text + TOO_LONG),
            "file 7 BadMetadata",
        ),
        refused(
            "more-metadata-than-stripes",
            "tail-metadata",
            "one stripe, and statistics of two",
            one(metadata=lambda text: text * 2),
            "file 7 BadMetadata",
        ),
        refused(
            "more-columns-than-types",
            "tail-metadata",
            "two types, and a stripe's statistics of three",
            one(metadata=lambda text: block(1, block(1, stat) * 3)),
            "file 7 BadMetadata",
        ),
    ]


def with_attributes():
    """A schema with fields in its types that nobody reads: maximum lengths, attributes of pairs of texts, one that is
    unknown."""
    root = schema(ONE)
    root.children[0].more = number(4, 9) + block(7, block(1, "k") + block(2, "v"))
    root.more = eight(99, 1)
    return root


def interleaved(parts):
    """Stripes, types and statistics in turn."""
    stripes, types, stats = (split(parts[name]) for name in ("stripes", "types", "statistics"))
    text = b"".join(a + b + c for a, b, c in zip(stripes, types, stats))
    parts.update(stripes=text, types=b"", statistics=b"")


def split(text):
    """Fields of messages below 128 bytes, one by one."""
    found = []
    while text:
        found.append(text[: 2 + text[1]])
        text = text[2 + text[1] :]
    return found


def stripes_told():
    """What the footer tells of stripes."""

    def two(**told):
        return File(ONE, [rows(1), Stripe(rows(2), told=told)])

    def only(**told):
        return File(ONE, [Stripe(rows(1, 2), told=told)])

    length = len(only().laid[0].content)
    most = (1 << 31) - 1
    return [
        refused(
            "stripe-before-3",
            "tail-stripes",
            "a stripe that begins within `ORC`",
            only(offset=2),
            "file 9 BadStripe(0)",
        ),
        refused(
            "stripes-that-overlap",
            "tail-stripes",
            "the second stripe begins before the first one's end",
            two(offset=2 + length),
            "file 9 BadStripe(1)",
        ),
        refused(
            "stripes-in-another-order",
            "tail-stripes",
            "the second stripe lies in front of the first",
            in_another_order(),
            "file 9 BadStripe(1)",
        ),
        refused(
            "stripe-past-the-stripes",
            "tail-stripes",
            "a stripe that ends within the metadata",
            only(footer=only().laid[0].footer + 1),
            "file 9 BadStripe(0)",
        ),
        refused(
            "stripe-past-64-bits",
            "tail-stripes",
            "lengths of a stripe that are 2^64 together",
            only(index=1 << 63, data=1 << 63),
            "file 9 BadStripe(0)",
        ),
        refused(
            "too-many-rows-told",
            "tail-counts",
            "two rows, and a footer that tells of three",
            one(footer=with_parts(rows=number(6, 3))),
            "file 10 RowCount",
        ),
        refused(
            "rows-and-no-stripe",
            "tail-counts",
            "a row, and no stripe",
            File(ONE, [], footer=with_parts(rows=number(6, 1))),
            "file 10 RowCount",
        ),
        refused(
            "rows-past-64-bits",
            "tail-limits tail-counts",
            "a stripe of 2^64 - 1 rows",
            only(rows=(1 << 64) - 1),
            "file 11 Limit",
        ),
        refused(
            "rows-of-a-stripe",
            "tail-limits",
            "a stripe of 2^31 rows",
            File(ONE, [Stripe([], told={"rows": 1 << 31})]),
            "file 11 Limit",
        ),
        refused(
            "rows-of-a-file",
            "tail-limits",
            "513 stripes of 2^31 - 1 rows: more than 2^40 together",
            File(
                "struct<>",
                [],
                footer=lambda parts: parts.update(
                    stripes=block(3, told_stripe(most)) * 513, rows=number(6, 513 * most)
                ),
            ),
            "file 11 Limit",
        ),
    ]


def told_stripe(count):
    """What a footer tells of a stripe of no bytes."""
    return info_text({"offset": 3, "index": 0, "data": 0, "footer": 0, "rows": count})


def in_another_order():
    """A file whose footer names its stripes the other way round."""
    return File(
        ONE, [rows(1), rows(2)], footer=lambda parts: parts.update(stripes=b"".join(reversed(split(parts["stripes"]))))
    )


def vectors():
    """The vectors of this folder, but for those of types."""
    return postscripts() + footers() + stripes_told()
