"""Runs of integers, bytes and booleans: each form with any numbers, widths and lengths that it may have.

A run is a pair: its bytes, and the values that they mean. What makes one answers a list of it alone, so that runs are
joined by +. A stream has runs one after the other."""
from .fields import plain, varint, zigzag

# the widths that five digits name
WIDTHS = [*range(1, 25), 26, 28, 30, 32, 40, 48, 56, 64]


def width_of(number):
    """The least of the widths that holds a number."""
    return next(width for width in WIDTHS if number < 1 << width)


def pack(numbers, width, spare=0):
    """Numbers as digits, the highest first, in the least bytes; the digits left over are those of a byte, or 0."""
    digits = "".join(format(number, f"0{width}b") for number in numbers) if width else ""
    assert len(digits) == width * len(numbers), f"a number of more than {width} digits"
    left = -len(digits) % 8
    digits += format(spare, "08b")[8 - left :] if left else ""
    return int(digits or "0", 2).to_bytes(len(digits) // 8, "big")


# version 1


def v1_run(first, step, count, spell=zigzag, length=None):
    """3 to 130 values with one step."""
    assert 3 <= count <= 130 and -128 <= step <= 127
    return [(bytes([count - 3, step % 256]) + varint(spell(first), length), [first + step * i for i in range(count)])]


def v1_literals(values, spell=zigzag, length=None):
    """1 to 128 values, one after the other; as varints of so many bytes, where a length is given."""
    values = list(values)
    assert 1 <= len(values) <= 128
    return [(bytes([256 - len(values)]) + b"".join(varint(spell(value), length) for value in values), values)]


# version 2


def header(form, code, count):
    """The two bytes in front of a run that isn't a short repeat."""
    assert 1 <= count <= 512
    return (form << 14 | code << 9 | count - 1).to_bytes(2, "big")


def short_repeat(value, count, spell=zigzag, size=None):
    """3 to 10 times one value, in the least bytes or in so many."""
    written = spell(value)
    size = size or max(1, (written.bit_length() + 7) // 8)
    assert 3 <= count <= 10 and 1 <= size <= 8
    return [(bytes([size - 1 << 3 | count - 3]) + written.to_bytes(size, "big"), [value] * count)]


def direct(values, spell=zigzag, width=None, spare=0):
    """Up to 512 values, packed at the least width or at one that is given."""
    values = list(values)
    numbers = [spell(value) for value in values]
    width = width or width_of(max(numbers))
    return [(header(1, WIDTHS.index(width), len(values)) + pack(numbers, width, spare), values)]


def delta(values, spell=zigzag, width=None, length=None, first=None, spare=0):
    """Up to 512 values by their differences: of width 0 where these are equal and no width is given. A single value
    has no difference: the one that stands there is given."""
    values = list(values)
    steps = [after - before for before, after in zip(values, values[1:])] or [first or 0]
    if width is None:
        width = 0 if len(set(steps)) == 1 else max(2, width_of(max(map(abs, steps[1:]))))
    assert all(step <= 0 if steps[0] < 0 else step >= 0 for step in steps), "a difference against the direction"
    assert width or len(set(steps)) == 1
    front = header(3, WIDTHS.index(width) if width else 0, len(values))
    sizes = pack([abs(step) for step in steps[1:]], width, spare) if width else b""
    return [(front + varint(spell(values[0]), length) + varint(zigzag(steps[0]), length) + sizes, values)]


def base_bytes(base, size=None):
    """The base of a patched run: its sign above its magnitude, in the least bytes that have room, or in so many."""
    size = size or abs(base).bit_length() // 8 + 1
    return (abs(base) | (1 << 8 * size - 1 if base < 0 else 0)).to_bytes(size, "big")


def patched(base, numbers, width, entries, gap_width, patch_width, size=None, base_text=None):
    """The base, numbers of one width above it, and entries of a gap and a patch. The values are what the rule makes
    of these."""
    text = base_text or base_bytes(base, size)
    places, place = {}, 0
    for gap, patch in entries:
        place += gap
        places[place] = patch
    values = [base + number + (places.get(i, 0) << width) for i, number in enumerate(numbers)]
    entry_width = next((wide for wide in WIDTHS if wide >= gap_width + patch_width), None)
    front = header(2, WIDTHS.index(width), len(numbers)) + bytes(
        [len(text) - 1 << 5 | WIDTHS.index(patch_width), gap_width - 1 << 5 | len(entries)]
    )
    list_of = pack([gap << patch_width | patch for gap, patch in entries], entry_width)
    return [(front + text + pack(numbers, width) + list_of, values)]


# bytes and booleans


def byte_repeat(byte, count):
    """3 to 130 times one byte."""
    assert 3 <= count <= 130
    return [(bytes([count - 3, byte]), [byte] * count)]


def byte_literals(content):
    """1 to 128 bytes, one after the other."""
    assert 1 <= len(content) <= 128
    return [(bytes([256 - len(content)]) + bytes(content), list(content))]


def bits(values, spare=0):
    """Booleans as bytes, the first the highest digit; the digits left over are those of a byte, or 0."""
    return pack([int(value) for value in values], 1, spare)


def in_parts(content, most, make):
    """Runs of at most so many values each, made one by one."""
    return [run for at in range(0, len(content), most) for run in make(content[at : at + most])]


def integers(values, version, spell=zigzag):
    """A stream of integers as no writer has to choose it: literals in version 1, direct runs in version 2."""
    if version == 1:
        return in_parts(list(values), 128, lambda part: v1_literals(part, spell))
    return in_parts(list(values), 512, lambda part: direct(part, spell))


def byte_stream(content):
    """A stream of bytes by literals alone."""
    return in_parts(list(content), 128, byte_literals)


def data_of(runs):
    """The bytes of a stream."""
    return b"".join(run[0] for run in runs)


def values_of(runs):
    """The values of a stream."""
    return [value for run in runs for value in run[1]]


def place(runs, count, back=0):
    """The position in front of the value of this number: the run that it stands in, or one so many runs before, and
    the values that are passed; behind the last value the stream's length, or, with runs back, the start of the last
    run but so many."""
    starts, offset, before = [], 0, 0
    for content, values in runs:
        starts.append((offset, before))
        offset, before = offset + len(content), before + len(values)
    starts.append((offset, before))
    holds = max(i for i, (_, passed) in enumerate(starts) if passed <= count)
    offset, passed = starts[max(0, holds - back)]
    return [offset, count - passed]


def place_of_bit(runs, count, back=0):
    """The position in front of the boolean of this number, in a stream of bytes."""
    return place(runs, count // 8, back) + [count % 8]


UNSIGNED = plain
SIGNED = zigzag
