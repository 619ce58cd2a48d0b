"""Stripes: the streams of rows, their directory and encodings, and row indexes."""
from dataclasses import dataclass, field

from . import fields, runs
from .rows import BINARY, BOOLEAN, BYTE, DATE, LIST, MAP, NUMBERS, STRING, STRUCT, cells
from .statistics import message, of_cells

PRESENT, DATA, LENGTH, DICTIONARY_DATA, DICTIONARY_COUNT, SECONDARY, ROW_INDEX, BLOOM_FILTER, BLOOM_FILTER_UTF8 = range(
    9
)
DIRECT, DICTIONARY, DIRECT_V2, DICTIONARY_V2 = range(4)
# kinds whose DATA has runs of bytes or of integers, be they indexes of a dictionary
WITH_RUNS = (BYTE, DATE, STRING, *NUMBERS)


class Entry:
    """A stream as the directory has it, and the length that it tells of it."""

    def __init__(self, column, kind, content, length=None):
        self.column, self.kind, self.content = column, kind, content
        self.length = len(content) if length is None else length

    def message(self):
        """The entry's text in the directory."""
        return fields.number(1, self.kind) + fields.number(2, self.column) + fields.number(3, self.length)


def in_order(places, stat):
    """An entry of a row index by its fields, one after the other."""
    return fields.packed(1, places) + stat


def as_it_is(part):
    """What isn't changed."""
    return part


@dataclass
class Laid:
    """A stripe as it lies in a file: its bytes, the lengths of its parts, and what is told of it."""

    content: bytes
    index: int
    data: int
    footer: int
    rows: int
    stats: list
    # the columns and kinds of streams that are left out since they have no bytes; by column the bytes of its data streams
    left_out: list
    sizes: dict


@dataclass
class Stripe:
    """Rows, and what a writer chose for them. What isn't said is made by the plainest choice."""

    rows: list
    # by column and kind: runs, bytes as they are, or None for a stream that is left out
    streams: dict = field(default_factory=dict)
    encodings: dict = field(default_factory=dict)
    # the entries of columns that have a dictionary
    dictionaries: dict = field(default_factory=dict)
    # how many runs in front of its own each position begins, be it of each column or by column
    back: object = 0
    # by column and group: positions, and statistics, that differ from those of the rows
    positions: dict = field(default_factory=dict)
    entry_stats: dict = field(default_factory=dict)
    entry_text: object = in_order
    # statistics of columns that differ from those of the rows
    stats: dict = field(default_factory=dict)
    # whether a PRESENT without bytes has positions too
    empty_present: bool = False
    # changes the directory's entries, and the footer's text
    arrange: object = as_it_is
    footer: object = as_it_is
    # bytes behind the streams, and before the stripe, that belong to none
    filler: bytes = b""
    gap: bytes = b""
    # what the file's footer tells of the stripe that isn't so
    told: dict = field(default_factory=dict)

    def lay(self, root, version, stride):
        """The stripe's bytes, with the lengths of their three parts and the statistics that are told."""
        columns, found = root.columns(), cells(root, self.rows)
        encodings = {at: self.encoding(at, each, version) for at, each in enumerate(columns)}
        streams = {}
        for at, each in enumerate(columns):
            streams.update(self.streams_of(at, each, found[at], encodings[at]))
        index = self.indexes(root, columns, streams, encodings, stride) if stride else {}
        entries = [Entry(at, ROW_INDEX, text) for at, text in index.items()]
        entries += [Entry(at, kind, bytes_of(streams[at, kind])) for at, kind in streams]
        entries = self.arrange(entries)
        content = b"".join(entry.content for entry in entries) + self.filler
        front = sum(len(entry.content) for entry in entries if entry.kind >= ROW_INDEX)
        footer = self.footer(
            b"".join(fields.block(1, entry.message()) for entry in entries)
            + b"".join(fields.block(2, self.encoding_text(at, encodings[at])) for at in range(len(columns)))
        )
        stats = [self.stats.get(at, of_cells(each.kind, found[at])) for at, each in enumerate(columns)]
        left_out = [stream for stream in self.empty_streams(columns, found) if stream not in streams]
        parts = front, len(content) - front, len(footer)
        return Laid(content + footer, *parts, len(self.rows), stats, left_out, sizes_of(streams))

    def empty_streams(self, columns, found):
        """The streams, but for PRESENT, that have no bytes by what they mean: columns and kinds."""
        return [
            (at, kind)
            for at, each in enumerate(columns)
            for kind, values in self.meant(at, each, found[at]).items()
            if kind != PRESENT and not values
        ]

    def encoding(self, at, each, version):
        """A column's encoding: direct, by dictionary where there is one, in the version of its integers."""
        plain = each.kind in (BOOLEAN, BYTE, STRUCT) or version == 1
        return self.encodings.get(at, (DICTIONARY if at in self.dictionaries else DIRECT) + (0 if plain else 2))

    def encoding_text(self, at, kind):
        """The message of an encoding."""
        size = fields.number(2, len(self.dictionaries[at])) if at in self.dictionaries else b""
        return fields.number(1, kind) + size

    def streams_of(self, at, each, own, encoding):
        """The streams of a column, in the order of their kinds: those that are given, and plain ones for the rest."""
        meant, spells = self.meant(at, each, own), {}
        for kind, values in meant.items():
            given = self.streams.get((at, kind), "plain")
            if given == "plain" and kind == PRESENT and all(values):
                continue
            if given == "plain":
                given = plain_stream(each, kind, values, 2 if encoding in (DIRECT_V2, DICTIONARY_V2) else 1)
                if bytes_of(given):
                    spells[at, kind] = given
            elif given is not None:
                check_meaning(each, kind, values, given)
                spells[at, kind] = given
        for (column, kind), given in self.streams.items():
            if column == at and kind not in meant and kind != ROW_INDEX and given is not None:
                spells[at, kind] = given
        return spells

    def meant(self, at, each, own):
        """What each stream of a column means."""
        values = [cell for cell in own if cell is not None]
        present = [cell is not None for cell in own]
        streams = {PRESENT: present}
        if at in self.dictionaries:
            entries = [entry.encode() if isinstance(entry, str) else entry for entry in self.dictionaries[at]]
            streams[DATA] = [entries.index(value.encode()) for value in values]
            streams[LENGTH], streams[DICTIONARY_DATA] = [len(entry) for entry in entries], b"".join(entries)
        elif each.kind in (STRING, BINARY):
            texts = [value.encode() if each.kind == STRING else value for value in values]
            streams[DATA], streams[LENGTH] = b"".join(texts), [len(text) for text in texts]
        elif each.kind in (LIST, MAP):
            streams[LENGTH] = [len(value) for value in values]
        elif each.kind in (BOOLEAN, BYTE, DATE, *NUMBERS):
            streams[DATA] = values
        return streams

    def indexes(self, root, columns, streams, encodings, stride):
        """The row index of each column that has one."""
        groups = range(0, len(self.rows), stride)
        before = [cells(root, self.rows[:row]) for row in groups]
        inside = [cells(root, self.rows[row : row + stride]) for row in groups]

        def index_of(at, each):
            places = [
                self.places(at, each, streams, encodings[at], group, found[at]) for group, found in enumerate(before)
            ]
            return b"".join(self.entry(at, each, group, places[group], found[at]) for group, found in enumerate(inside))

        given = {at: self.streams[at, ROW_INDEX] for at in range(len(columns)) if (at, ROW_INDEX) in self.streams}
        found = {at: given[at] if at in given else index_of(at, each) for at, each in enumerate(columns)}
        return {at: text for at, text in found.items() if text is not None}

    def entry(self, at, each, group, places, inside):
        """An entry of a row index."""
        stat = self.entry_stats.get((at, group), of_cells(each.kind, inside))
        text = b"" if stat is None else fields.block(2, message(each.kind, stat))
        return fields.block(1, self.entry_text(places, text))

    def places(self, at, each, streams, encoding, group, before):
        """A column's positions in front of a group, behind these cells."""
        if (at, group) in self.positions:
            return self.positions[at, group]
        values = [cell for cell in before if cell is not None]
        back = self.back.get(at, 0) if isinstance(self.back, dict) else self.back
        found = []
        if bytes_of(streams.get((at, PRESENT), [])) or self.empty_present and (at, PRESENT) in streams:
            found += runs.place_of_bit(streams[at, PRESENT], len(before), back)
        coded = encoding in (DICTIONARY, DICTIONARY_V2)
        if each.kind in (STRING, BINARY) and not coded:
            found.append(sum(len(value.encode() if each.kind == STRING else value) for value in values))
        elif each.kind == BOOLEAN:
            found += runs.place_of_bit(streams.get((at, DATA), []), len(values), back)
        elif each.kind in WITH_RUNS:
            found += runs.place(streams.get((at, DATA), []), len(values), back)
        if each.kind in (STRING, BINARY, LIST, MAP) and not coded:
            found += runs.place(streams.get((at, LENGTH), []), len(values), back)
        return found


def sizes_of(streams):
    """By column the bytes of its streams."""
    found = {}
    for (at, _), stream in streams.items():
        found[at] = found.get(at, 0) + len(bytes_of(stream))
    return found


def bytes_of(stream):
    """The bytes of a stream that is given as runs, or as bytes."""
    return stream if isinstance(stream, bytes) else runs.data_of(stream)


def is_boolean(each, kind):
    """Whether a stream has booleans."""
    return kind == PRESENT or each.kind == BOOLEAN and kind == DATA


def spelling(each, kind):
    """How the integers of a stream stand."""
    return runs.SIGNED if kind == DATA and each.kind != STRING else runs.UNSIGNED


def plain_stream(each, kind, values, version):
    """A stream of the plainest runs."""
    if isinstance(values, bytes):
        return values
    if is_boolean(each, kind):
        return runs.byte_stream(runs.bits(values))
    if each.kind == BYTE and kind == DATA:
        return runs.byte_stream([value % 256 for value in values])
    return runs.integers(values, version, spelling(each, kind))


def check_meaning(each, kind, values, given):
    """That the runs which a vector chose mean what its rows say. Bytes as they are say what they like."""
    if isinstance(given, bytes):
        return
    found = runs.values_of(given)
    if is_boolean(each, kind):
        digits = "".join(format(byte, "08b") for byte in found)
        if digits or not all(values):
            assert [digit == "1" for digit in digits][: len(values)] == values
            assert 0 <= len(digits) - len(values) < 8
    elif each.kind == BYTE and kind == DATA:
        assert found == [value % 256 for value in values]
    else:
        assert found == list(values), f"{found} is not {values}"
