"""The examples of the published specification: what each encoder here has to make of them."""
from .fields import plain, varint, zigzag
from .runs import (
    bits,
    byte_literals,
    byte_repeat,
    data_of,
    delta,
    direct,
    patched,
    short_repeat,
    v1_literals,
    v1_run,
    values_of,
)

# the specification's example of a patched run, whose values go on by tens
TENS = [2030, 2000, 2020, 1000000, *range(2040, 2200, 10)]
PRIMES = [2, 3, 5, 7, 11, 13, 17, 19, 23, 29]
# runs, the bytes that the specification gives, and the values
RUNS = [
    (byte_repeat(0, 100), "61 00", [0] * 100),
    (byte_literals(b"\x44\x45"), "fe 44 45", [0x44, 0x45]),
    (byte_literals(bits([1, 0, 0, 0, 0, 0, 0, 0])), "ff 80", [0x80]),
    (v1_run(7, 0, 100, plain), "61 00 07", [7] * 100),
    (v1_run(100, -1, 100, plain), "61 ff 64", list(range(100, 0, -1))),
    (v1_literals([2, 3, 6, 7, 11], plain), "fb 02 03 06 07 0b", [2, 3, 6, 7, 11]),
    (short_repeat(10000, 5, plain), "0a 27 10", [10000] * 5),
    (
        direct([23713, 43806, 57005, 48879], plain),
        "5e 03 5c a1 ab 1e de ad be ef",
        [23713, 43806, 57005, 48879],
    ),
    (
        patched(2000, [(value - 2000) % 256 for value in TENS], 8, [(3, 998000 >> 8)], 2, 12),
        "8e 13 2b 21 07 d0 1e 00 14 70 28 32 3c 46 50 5a 64 6e 78 82 8c 96 a0 aa b4 be fc e8",
        TENS,
    ),
    (delta(PRIMES, plain, 4), "c6 09 02 02 22 42 42 46", PRIMES),
]
# numbers, their zigzag numbers, and numbers with their varints
ZIGZAGS = {0: 0, -1: 1, 1: 2, -2: 3, 2: 4}
VARINTS = {
    0: "00",
    1: "01",
    127: "7f",
    128: "80 01",
    129: "81 01",
    16383: "ff 7f",
    16384: "80 80 01",
    16385: "81 80 01",
}


def test():
    """That the encoders make these bytes."""
    for runs, text, values in RUNS:
        assert data_of(runs) == bytes.fromhex(text) and values_of(runs) == values, text
    assert all(zigzag(number) == written for number, written in ZIGZAGS.items())
    assert all(varint(number) == bytes.fromhex(text) for number, text in VARINTS.items())
