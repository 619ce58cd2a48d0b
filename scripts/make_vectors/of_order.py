"""Vectors with two faults: which one is answered is a rule. Who answers the other one refuses the file all the same."""
from .fields import block, key, number, varint
from .file import File
from .of_integers import TOP, at_data, bad
from .of_tails import ONE, one, rows, with_parts
from .runs import data_of, header, patched, v1_run
from .statistics import Stat
from .stripe import LENGTH, Stripe
from .vector import Vector


def of_tails():
    """Tails with two faults: the first test that one doesn't pass names the refusal."""

    def two(name, shows, file, fault):
        return Vector(f"order/{name}", "tail-order", f"two faults: {shows}", file, fault=fault, tail=False)

    zipped = number(2, 1)
    cut = with_parts(writer=key(9, 0))
    return [
        two(
            "front-before-lengths",
            "no `ORC` in front, and a last byte that tells of too much",
            b"???" + one(last=255).content[3:],
            "file 1 NotOrc",
        ),
        two(
            "version-before-magic",
            "a version of seventeen numbers, and another magic",
            one(version=range(17), postscript=with_parts(magic=block(8000, "OLD"))),
            "file 2 BadPostscript",
        ),
        two(
            "magic-before-compression",
            "another magic, and compression",
            one(postscript=with_parts(magic=block(8000, "OLD"), compression=zipped)),
            "file 1 NotOrc",
        ),
        two(
            "compression-before-lengths",
            "compression, and a footer longer than the file",
            one(postscript=with_parts(compression=zipped, footer=number(1, 9999))),
            "file 3 Compressed(1)",
        ),
        two(
            "compression-before-footer",
            "compression, and a footer that is cut",
            one(postscript=with_parts(compression=zipped), footer=cut),
            "file 3 Compressed(1)",
        ),
        two(
            "footer-before-encryption",
            "a footer that is cut behind its field 10",
            one(kept=block(10, b"") + key(11, 0)),
            "file 6 BadFooter",
        ),
        two(
            "encryption-before-types",
            "field 10, and no types",
            one(kept=block(10, b""), footer=with_parts(types=b"")),
            "file 4 Encrypted",
        ),
        two(
            "types-before-metadata",
            "no types, and a metadata that is cut",
            one(footer=with_parts(types=b"", statistics=b""), metadata=lambda text: text[:-1]),
            "file 8 BadTypes: type 5 RootNotStruct",
        ),
        two(
            "metadata-before-stripes",
            "a metadata that is cut, and a stripe that begins within `ORC`",
            File(ONE, [Stripe(rows(1), told={"offset": 2})], metadata=lambda text: text[:-1]),
            "file 7 BadMetadata",
        ),
        two(
            "metadata-before-counts",
            "a metadata that is cut, and a file's statistic of 2^62 + 1 values",
            File(ONE, [rows(1)], stats={1: Stat((1 << 62) + 1, False)}, metadata=lambda text: text[:-1]),
            "file 7 BadMetadata",
        ),
        two(
            "counts-before-stripes",
            "a statistic of 2^62 + 1 values, and a stripe that begins within `ORC`",
            File(ONE, [Stripe(rows(1), told={"offset": 2}, stats={1: Stat((1 << 62) + 1, False)})]),
            "file 11 Limit",
        ),
        two(
            "rows-before-the-next-place",
            "a first stripe of 2^31 rows, and a second one that begins within it",
            File(ONE, [Stripe(rows(1), told={"rows": 1 << 31}), Stripe(rows(2), told={"offset": 4})]),
            "file 11 Limit",
        ),
        two(
            "rows-before-row-count",
            "a stripe of 2^31 rows, and another number of rows",
            File(ONE, [Stripe(rows(1), told={"rows": 1 << 31})], footer=with_parts(rows=number(6, 7))),
            "file 11 Limit",
        ),
        two(
            "place-before-rows",
            "a stripe that begins within `ORC` and has 2^31 rows",
            File(ONE, [Stripe(rows(1), told={"offset": 2, "rows": 1 << 31})]),
            "file 9 BadStripe(0)",
        ),
        two(
            "stripes-before-row-count",
            "a stripe that begins within `ORC`, and another number of rows",
            File(ONE, [Stripe(rows(1), told={"offset": 2})], footer=with_parts(rows=number(6, 7))),
            "file 9 BadStripe(0)",
        ),
    ]


def of_runs():
    """Streams with two faults: the first run from the left that is refused, and in it what is met first."""

    def two(name, shows, content, count, fault, version=(0, 12)):
        file = bad(content, count, version)
        return Vector(f"order/{name}", "run-order", f"two faults: {shows}", file, fault=at_data(f"{fault} at 0"))

    far = patched(0, [0, 0], 64, [(9, 1)], 4, 1)
    cut_length = b"\xfe" + varint(1 << 63) + b"\x80"
    late = data_of(v1_run(7, 0, 3) + [(b"\xff" + b"\xff" * 9 + b"\x02", [])] + [(b"\xff" + varint(2 * TOP), [])])
    return [
        Vector(
            "order/first-run",
            "run-order",
            "two faults: a varint past 64 bits in the second run, and a third run that is cut",
            bad(late + b"\xfd", 9, (0, 11)),
            fault=at_data("2 BadVarint at 3"),
        ),
        two(
            "count-before-the-rest",
            "a run of four values for three rows, and behind it bytes that are no run",
            data_of(v1_run(7, 0, 4)) + b"\x00",
            3,
            "9 TooMany",
            (0, 11),
        ),
        two(
            "delta-before-its-values",
            "one value with a width for sizes, and the run is cut",
            header(3, 1, 1),
            1,
            "4 BadDelta",
        ),
        two(
            "widths-before-the-base",
            "a gap and a patch of 65 bits together, and the run is cut",
            bytes.fromhex("80001f01"),
            1,
            "7 PatchRange",
        ),
        two(
            "first-entry-before-the-second",
            "the second patch has no gap, and the third one's place is past the last value",
            data_of(patched(0, [0, 1, 2, 3], 2, [(1, 1), (0, 1), (9, 1)], 4, 1)),
            4,
            "5 PatchOrder",
        ),
        two(
            "range-before-the-next-entry",
            "the first patch is 2^64 or more, and the second one has no gap",
            data_of(patched(0, [0, 1, 2], 56, [(1, 256), (0, 1)], 1, 9)),
            3,
            "7 PatchRange",
        ),
        two(
            "place-before-range",
            "a patch past the last value, where it would be 2^64 or more",
            data_of(far),
            2,
            "6 PatchPlace",
        ),
        two(
            "entries-before-values",
            "a first value of 2^63 and more, and a patch past the last value",
            data_of(patched(1 << 62, [TOP, 0], 64, [(7, 0)], 3, 1)),
            2,
            "6 PatchPlace",
        ),
        Vector(
            "order/bytes-before-range",
            "run-order unsigned",
            "two faults: a length of 2^63, and the next one is cut",
            File("struct<s:string>", [Stripe([{"s": ""}] * 2, {(1, LENGTH): cut_length})], (0, 11)),
            fault="file 12 Stripe(0): stripe 3 Run(1, LENGTH): run 1 Short at 0",
        ),
    ]


def of_messages():
    """Messages with two faults: the first one from the left, and a kind that is missing last within its own message."""

    def two(name, shows, more, fault):
        file = File(ONE, [Stripe(rows(1, 2), footer=lambda text: text + more)])
        return Vector(
            f"order/{name}",
            "messages-order",
            f"two faults: {shows}",
            file,
            fault=f"file 12 Stripe(0): stripe 9 Wire: {fault}",
        )

    cut = key(9, 2) + b"\x05"
    return [
        two(
            "first-field",
            "a stream's column of 2^32, and the next field is cut",
            block(1, number(1, 9) + number(2, 1 << 32)) + cut,
            "wire 4 ValueRange at 20",
        ),
        two(
            "missing-comes-last",
            "an encoding without its kind, whose dictionary has 2^32 entries",
            block(2, number(2, 1 << 32)),
            "wire 4 ValueRange at 18",
        ),
        two(
            "missing-before-the-next-field",
            "an encoding without its kind, and the next field is cut",
            block(2, number(2, 5)) + cut,
            "wire 6 Missing at 0",
        ),
    ]


def vectors():
    """The vectors of this folder."""
    return of_tails() + of_runs() + of_messages()
