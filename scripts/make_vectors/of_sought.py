"""Vectors of positions by the values that are passed, right ones and others."""
from . import fields
from .file import File
from .of_indexes import V1, rows
from .runs import (
    bits,
    byte_literals,
    byte_repeat,
    byte_stream,
    data_of,
    delta,
    direct,
    patched,
    place_of_bit,
    short_repeat,
    v1_literals,
    v1_run,
    values_of,
)
from .stripe import DATA, Stripe
from .vector import Vector

OUTSIDE = "8 BadPosition(1, DATA)"

MOST = (1 << 64) - 1

EACH_FORM = (
    short_repeat(3, 5, size=8)
    + direct([1, 2, 3], width=64)
    + delta([1, 2, 3, 4], width=16, length=4)
    + patched(-6, [5, 0, 1], 3, [(0, 1)], 1, 1, size=8)
    + delta([5] * 12)
    + direct([-3], width=4)
)


def own(group, count, nulls):
    """The position of PRESENT in front of a row, where nulls follow so many values."""
    return place_of_bit(byte_stream(bits([True] * count + [False] * nulls)), group) if nulls else []


def sought(name, shows, kind, values, data, places, nulls=0, version=V1, fault=None):
    """Values, and nulls behind them, in groups of a row each. Positions of DATA that aren't the plainest, by their
    group: those that name the row, or, with a fault beside each, that name none or another one."""
    given, faults = {}, {}
    if fault:
        given = {(1, group): [0, 0] + [0] * (kind == "boolean") for group in range(len(values))}
    for group, place in places.items():
        place, faults[group] = place if isinstance(place, tuple) else (place, None)
        given[1, group] = own(group, len(values), nulls) + place
    file = File(
        f"struct<n:{kind}>",
        [Stripe(rows([*values, *[None] * nulls]), {(1, DATA): data}, positions=given)],
        version,
        stride=1,
    )
    stripe = "file 12 Stripe(0): stripe"
    return Vector(
        f"indexes/{name}",
        "positions positions-own" + (" findings-positions" if any(faults.values()) else ""),
        shows,
        file,
        [] if fault else [f"IndexPosition 0 1 {group}" for group in sorted(faults) if faults[group]],
        {
            (0, group): f"{stripe} {faults[group]}" if faults.get(group) else None
            for group in (faults if fault or any(faults.values()) or len(values) > 100 else range(len(values) + nulls))
        },
        fault and f"{stripe} {fault}",
        written=False,
    )


def run_fault(text):
    """A run of DATA that is none."""
    return f"3 Run(1, DATA): run {text}"


def sought_integers():
    """Positions in integers: those that name a value, and those that name none."""
    ones, repeats = v1_run(1, 0, 3) + v1_run(2, 0, 3), short_repeat(5000, 5) + direct([5, 7])
    short, long = run_fault("1 Short at 3"), b"\xff" * 10 + b"\x02"
    past = b"\x00\x01" + fields.varint(fields.zigzag((1 << 63) - 2))
    of_place = bytes.fromhex("8e03074100000000008020")
    of_two = (0, 12)

    def bad(name, shows, first, content, count, places, fault, version=V1):
        return sought(name, shows, "bigint", [0] * count, data_of(first) + content, places, 0, version, fault)

    def passed(stream, ends):
        return {at: [0, at] for at in range(1, len(values_of(stream)) + ends)}

    def left_over(name, shows, stream, version):
        stream = stream + (v1_run if version == V1 else short_repeat)(9, *([0, 3] if version == V1 else [3]))
        count, start = len(values_of(stream)), len(data_of(stream[:-1]))
        places = {count - 1: ([0, count - 2], run_fault(f"9 TooMany at {start}"))}
        return sought(name, shows, "bigint", values_of(stream), stream, places, 0, version)

    return [
        sought(
            "passed-from-the-start-1",
            "each value by all before it, which are passed; the end too, by the values of both runs",
            "bigint",
            values_of(ones),
            ones,
            passed(ones, 1),
            2,
        ),
        sought(
            "passed-from-the-start-2",
            "the same in version 2",
            "bigint",
            values_of(repeats),
            repeats,
            passed(repeats, 1),
            2,
            of_two,
        ),
        sought(
            "passed-from-the-start-each-form",
            "the same past a run of each form of version 2, in more bytes than are needed",
            "bigint",
            values_of(EACH_FORM),
            EACH_FORM,
            passed(EACH_FORM, 1),
            1,
            of_two,
        ),
        sought(
            "passed-from-the-start-512",
            "each value of the longest run and of the one behind it, by those that are passed",
            "bigint",
            [7] * 513,
            delta([7] * 512) + direct([7]),
            {at: [0, at] for at in (1, 511, 512, 513)},
            1,
            of_two,
        ),
        sought(
            "no-values-there-1",
            "places past the end, more values than follow, and a byte at which no run begins",
            "bigint",
            values_of(ones),
            ones,
            {
                0: ([7, 1], OUTSIDE),
                1: ([6, 1], OUTSIDE),
                2: ([0, 7], OUTSIDE),
                3: ([0, MOST], OUTSIDE),
                4: ([7, 0], OUTSIDE),
                5: ([5, 1], run_fault("1 Short at 5")),
                6: ([4, 1], run_fault("1 Short at 4")),
                7: ([5, 0], run_fault("1 Short at 5")),
                8: ([MOST, 0], OUTSIDE),
                9: ([3, MOST], OUTSIDE),
            },
            4,
        ),
        sought(
            "no-values-there-2",
            "the same in version 2",
            "bigint",
            values_of(repeats),
            repeats,
            {
                0: ([0, 8], OUTSIDE),
                1: ([6, 1], OUTSIDE),
                2: ([3, 3], OUTSIDE),
                3: ([7, 0], OUTSIDE),
                4: ([5, 1], run_fault("1 Short at 5")),
                5: ([0, MOST], OUTSIDE),
                6: ([MOST, 1], OUTSIDE),
            },
            0,
            of_two,
        ),
        sought(
            "no-values-at-all",
            "a DATA of no bytes: no place but its start, and nothing passed",
            "bigint",
            [],
            [],
            {0: [0, 0], 1: ([0, 1], OUTSIDE), 2: ([1, 0], OUTSIDE), 3: ([1, 1], OUTSIDE)},
            4,
        ),
        left_over(
            "a-value-too-early-1",
            "a position of the value before the last: the last run goes on past the rows",
            v1_run(1000, -2, 5) + v1_literals([300, -1, 1 << 40], length=8) + v1_run(1, 0, 130) + v1_literals([8]),
            V1,
        ),
        left_over("a-value-too-early-2", "the same past each form of version 2", EACH_FORM, of_two),
        bad(
            "no-run-behind-the-values",
            "a run that is cut behind the first: it is met on the way, or once the values are read",
            v1_run(1, 0, 3),
            b"\xff",
            5,
            {at: (place, short) for at, place in enumerate([[0, 3], [0, 4], [3, 0], [3, 1], [0, 5]])},
            short,
        ),
        bad(
            "a-long-varint-on-the-way",
            "a varint of more than 64 bits among the values that are passed",
            v1_run(1, 1, 3),
            long,
            4,
            {3: ([0, 4], run_fault("2 BadVarint at 3")), 2: ([3, 1], run_fault("2 BadVarint at 3"))},
            run_fault("2 BadVarint at 3"),
        ),
        bad(
            "past-the-greatest-on-the-way",
            "a run past the greatest number among the values that are passed",
            v1_run(1, 1, 3),
            past,
            6,
            {3: ([0, 4], run_fault("3 ValueRange at 3")), 5: ([3, 2], run_fault("3 ValueRange at 3"))},
            run_fault("3 ValueRange at 3"),
        ),
        bad(
            "a-bad-delta-on-the-way",
            "a delta of one value with sizes among the values that are passed",
            short_repeat(5000, 5),
            bytes.fromhex("c2000100"),
            7,
            {6: ([0, 6], run_fault("4 BadDelta at 3"))},
            run_fault("4 BadDelta at 3"),
            of_two,
        ),
        bad(
            "a-patch-behind-the-values-on-the-way",
            "a patched run with an entry behind its last value among the values that are passed",
            short_repeat(-4, 10),
            of_place,
            14,
            {11: ([0, 11], run_fault("6 PatchPlace at 2"))},
            run_fault("6 PatchPlace at 2"),
            of_two,
        ),
    ]


def sought_bytes():
    """The same in bytes and in booleans."""
    nines = byte_repeat(9, 3) + byte_literals([0x44, 0x45])
    nine = [True] * 3 + [False] + [True] * 5
    apart = byte_literals([0xEF]) + byte_literals([0x80])
    short = run_fault("1 Short at 2")
    return [
        sought(
            "bytes-passed-from-the-start",
            "each byte by all before it, which are passed",
            "tinyint",
            values_of(nines),
            nines,
            {**{at: [0, at] for at in range(1, 6)}, 6: [2, 2]},
            2,
        ),
        sought(
            "bytes-passed-in-the-longest-run",
            "the last byte of a run of 130, the one behind it, and the end, by those that are passed",
            "tinyint",
            [0] * 130 + [7],
            byte_repeat(0, 130) + byte_literals([7]),
            {at: [0, at] for at in (129, 130, 131)},
            1,
        ),
        sought(
            "no-bytes-there",
            "places past the end, more bytes than follow, and a byte at which no run begins",
            "tinyint",
            values_of(nines),
            nines,
            {
                0: ([0, 6], OUTSIDE),
                1: ([6, 0], OUTSIDE),
                2: ([5, 1], OUTSIDE),
                3: ([0, MOST], OUTSIDE),
                4: ([4, 1], run_fault("1 Short at 4")),
            },
        ),
        sought(
            "a-byte-too-early",
            "a position of the byte before the last: the last run goes on past the rows",
            "tinyint",
            values_of(nines),
            nines,
            {4: ([0, 3], run_fault("9 TooMany at 2"))},
        ),
        sought(
            "no-run-behind-the-bytes",
            "a run that is cut behind the first: it is met on the way, or once the bytes are read",
            "tinyint",
            [9] * 5,
            data_of(byte_repeat(9, 3)) + b"\x00",
            {1: ([0, 4], short), 2: ([0, 3], short), 3: ([2, 1], short), 4: ([2, 0], short)},
            fault=short,
        ),
        sought(
            "eight-booleans-of-the-last-byte",
            "the end as eight booleans that are passed of the last byte",
            "boolean",
            [True] * 24,
            byte_repeat(255, 3),
            {8: [0, 0, 8], 12: [0, 1, 4], 23: [0, 2, 7], 24: [0, 2, 8]},
            1,
        ),
        sought(
            "booleans-in-the-next-run",
            "the byte whose booleans are passed may be the first of the next run",
            "boolean",
            nine,
            apart,
            {7: [0, 0, 7], 8: [0, 1, 0], 9: [0, 1, 1]},
            1,
        ),
        sought(
            "no-booleans-there",
            "more bytes or booleans than follow, more than eight of a byte, and places past the end or within a run",
            "boolean",
            nine,
            byte_literals([0xEF, 0x80]),
            {
                0: ([0, 2, 1], OUTSIDE),
                1: ([0, 3, 0], OUTSIDE),
                2: ([4, 0, 9], OUTSIDE),
                3: ([3, 0, 1], OUTSIDE),
                4: ([4, 0, 0], OUTSIDE),
                5: ([0, 0, 9], OUTSIDE),
                6: ([0, MOST, 0], OUTSIDE),
                7: ([MOST, 0, 0], OUTSIDE),
                8: ([1, 0, 0], run_fault("1 Short at 1")),
                9: ([0, 0, MOST], OUTSIDE),
            },
            1,
        ),
        sought(
            "a-boolean-too-late",
            "a boolean too many is passed: there are too few of the rows behind it",
            "boolean",
            nine[:8],
            byte_literals([0xEF]),
            {3: ([0, 0, 4], run_fault("8 TooFew at 2"))},
        ),
        sought(
            "no-run-behind-the-booleans",
            "a run that is cut behind the first byte: it is met on the way, or once the booleans are read",
            "boolean",
            [True] * 9,
            bytes.fromhex("ffef00"),
            {1: ([0, 1, 1], short), 2: ([0, 1, 0], short), 3: ([0, 0, 1], short)},
            fault=short,
        ),
    ]


def vectors():
    """The vectors of positions by what is passed."""
    return sought_integers() + sought_bytes()
