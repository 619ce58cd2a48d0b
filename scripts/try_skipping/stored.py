"""What an uncompressed ORC file stores of its columns: types, and the statistics of the file, of each stripe and of each row group."""
import dataclasses
import json

from .values import KINDS, STRUCT, from_json

ROW_INDEX = 6
# by the kind of a column, the field of its statistics' record (ORC specification, "Column Statistics")
RECORDS = {"int": 2, "string": 4, "boolean": 5, "date": 7}


def varint(data, at):
    """Returns the number at a place, and the place after it."""
    number = shift = 0
    while True:
        byte = data[at]
        number |= (byte & 127) << shift
        at, shift = at + 1, shift + 7
        if byte < 128:
            return number, at


def fields(data):
    """Yields the fields of a message: number and value, which is a number or bytes."""
    at = 0
    while at < len(data):
        key, at = varint(data, at)
        if key & 7 == 0:
            value, at = varint(data, at)
        else:
            size, at = varint(data, at) if key & 7 == 2 else ({1: 8, 5: 4}[key & 7], at)
            value, at = data[at : at + size], at + size
        yield key >> 3, value


def last(message, field, missing=None):
    """Returns the newest value of a field."""
    found = [value for number, value in message if number == field]
    return found[-1] if found else missing


def every(message, field):
    """Returns the values of a field, in order."""
    return [value for number, value in message if number == field]


def numbers(message, field):
    """Returns the numbers of a field, packed or apart."""
    found = []
    for value in every(message, field):
        if isinstance(value, int):
            found.append(value)
        else:
            at = 0
            while at < len(value):
                number, at = varint(value, at)
                found.append(number)
    return found


def signed(number):
    """Returns a number with its sign, or None if there is none."""
    return None if number is None else (number >> 1) ^ -(number & 1)


@dataclasses.dataclass(frozen=True)
class Stat:
    """A column's statistic: how many values, whether one is null (None if unknown), and the least and greatest value (None if unknown).
    `bounded` is whether its kind stores both."""

    count: int
    nulls: object
    least: object
    greatest: object
    bounded: bool


def stat(kind, data):
    """Returns the statistic that a message of a column of a kind stores."""
    message = list(fields(data))
    count, nulls = last(message, 1, 0), last(message, 10)
    nulls = None if nulls is None else bool(nulls)
    record = last(message, RECORDS.get(kind)) if count else None
    if kind not in RECORDS:
        return Stat(count, nulls, None, None, False)
    if record is None:
        return Stat(count, nulls, None, None, kind != "boolean")
    record = list(fields(record))
    if kind == "boolean":
        true = (numbers(record, 1) or [None])[0]
        return Stat(count, nulls, *((None, None) if true is None else (true >= count, true > 0)), False)
    low, high = last(record, 1), last(record, 2)
    return Stat(count, nulls, *((low, high) if kind == "string" else (signed(low), signed(high))), True)


class Column:
    """A column: its kind, and the names of the structs' fields on the way to it, or None for what is in a list or a map."""

    def __init__(self, kind, path):
        self.kind, self.path = kind, path


def columns(types):
    """Returns the columns of a footer's types."""
    paths = {0: ()}
    found = []
    for number, data in enumerate(types):
        message = list(fields(data))
        kind, path = KINDS[last(message, 1, 0)], paths[number]
        found.append(Column(kind, path))
        names = [name.decode() for name in every(message, 3)]
        for place, child in enumerate(numbers(message, 2)):
            paths[child] = (*path, names[place]) if kind == STRUCT and path is not None else None
    return found


class Stored:
    """What a file stores: its columns, and regions of rows, each with the first row, the row after the last, and a column's statistics."""

    def __init__(self, data):
        self.data = data
        after = len(data) - 1
        postscript = list(fields(data[after - data[after] : after]))
        after -= data[after]
        size, below = last(postscript, 1, 0), last(postscript, 5, 0)
        self.footer = list(fields(data[after - size : after]))
        self.metadata = list(fields(data[after - size - below : after - size])) if below else []
        self.columns = columns(every(self.footer, 4))
        self.rows = last(self.footer, 6, 0)
        self.stride = last(self.footer, 8, 0)

    def stats(self, messages):
        """Returns statistics, a column each."""
        return {number: stat(self.columns[number].kind, data) for number, data in enumerate(messages) if number < len(self.columns)}

    def indexes(self, stripe):
        """Returns the entries of the row indexes of a stripe, by column."""
        at = last(stripe, 1, 0)
        end = at + last(stripe, 2, 0) + last(stripe, 3, 0)
        found = {}
        for stream in every(list(fields(self.data[end : end + last(stripe, 4, 0)])), 1):
            stream = list(fields(stream))
            size = last(stream, 3, 0)
            if last(stream, 1, 0) == ROW_INDEX:
                found[last(stream, 2, 0)] = [list(fields(entry)) for entry in every(list(fields(self.data[at : at + size])), 1)]
            at += size
        return found

    def groups(self, stripe, first, rows):
        """Yields the row groups of a stripe as regions."""
        if not self.stride:
            return
        entries = self.indexes(stripe)
        for group in range(-(-rows // self.stride)):
            told = {}
            for number, those in entries.items():
                message = last(those[group], 2) if group < len(those) else None
                if message is not None and number < len(self.columns):
                    told[number] = stat(self.columns[number].kind, message)
            start = first + group * self.stride
            yield start, min(start + self.stride, first + rows), told

    def regions(self):
        """Yields the file, each stripe and each row group as regions."""
        yield 0, self.rows, self.stats(every(self.footer, 7))
        told = every(self.metadata, 1)
        first = 0
        for number, stripe in enumerate(every(self.footer, 3)):
            stripe = list(fields(stripe))
            rows = last(stripe, 5, 0)
            yield first, first + rows, self.stats(every(list(fields(told[number])), 1)) if number < len(told) else {}
            yield from self.groups(stripe, first, rows)
            first += rows


def cells(columns_of_file, lines):
    """Returns each column's cells, a row each: MISSING if the row has none, which holds for all that is in a list or a map."""
    rows = [json.loads(line) for line in lines]
    return [[from_json(column.kind, row, column.path) for row in rows] for column in columns_of_file]


