"""Statistics of cells, how they join, and their messages."""
from . import fields
from .rows import BINARY, BOOLEAN, DATE, LIST, MAP, NUMBERS, STRING

# of each kind the field of its record, and the parts that it has
RECORDS = {
    **{kind: (2, ("min", "max", "sum")) for kind in NUMBERS},
    STRING: (4, ("min", "max", "sum")),
    BOOLEAN: (5, ("true",)),
    DATE: (7, ("min", "max")),
    BINARY: (8, ("sum",)),
    LIST: (12, ("min", "max", "sum")),
    MAP: (12, ("min", "max", "sum")),
}
PART_FIELDS = {"min": 1, "max": 2, "sum": 3}


class Stat:
    """How many values, whether one is null (None where that is not known), and the parts that are known."""

    def __init__(self, count, nulls, **parts):
        self.count, self.nulls, self.parts, self.text, self.size = count, nulls, parts, None, None

    def spelled(self, text):
        """The same, written as these bytes."""
        self.text = text
        return self

    def on_disk(self, size):
        """The same with the bytes that the column has on the disk, which nobody reads."""
        found = self.but()
        found.size = size
        return found

    def but(self, count=None, nulls="same", **parts):
        """The same with some of it changed; a part that is None is not known any more."""
        kept = {name: part for name, part in {**self.parts, **parts}.items() if part is not None}
        return Stat(self.count if count is None else count, self.nulls if nulls == "same" else nulls, **kept)


def fits(kind, total):
    """Whether a total can be told: in 64 digits, with a sign but for children."""
    return 0 <= total < 1 << 64 if kind in (LIST, MAP) else -(1 << 63) <= total < 1 << 63


def of_cells(kind, cells):
    """The statistic of cells."""
    values = [cell for cell in cells if cell is not None]
    found = Stat(len(values), len(values) < len(cells))
    if not values or kind not in RECORDS:
        return found
    if kind == BOOLEAN:
        return found.but(true=sum(values))
    if kind == DATE:
        return found.but(min=min(values), max=max(values))
    if kind == STRING:
        values = [value.encode() for value in values]
    sizes = values if kind in NUMBERS else [len(value) for value in values]
    total = sum(sizes)
    found = found.but(sum=total if fits(kind, total) else None)
    if kind == BINARY:
        return found
    ordered = values if kind == STRING else sizes
    return found.but(min=min(ordered), max=max(ordered))


def joined(kind, stats):
    """What statistics say together."""
    nulls = True if any(stat.nulls for stat in stats) else None if any(stat.nulls is None for stat in stats) else False
    found = Stat(sum(stat.count for stat in stats), nulls)
    with_values = [stat.parts for stat in stats if stat.count]
    for name in RECORDS[kind][1] if kind in RECORDS and with_values else ():
        parts = [known.get(name) for known in with_values]
        if None in parts:
            continue
        part = min(parts) if name == "min" else max(parts) if name == "max" else sum(parts)
        if name == "sum" and not fits(kind, part) or name == "true" and part > 1 << 62:
            continue
        found = found.but(**{name: part})
    return found


def record(kind, parts):
    """The content of the record of a kind."""
    if kind == BOOLEAN:
        return fields.packed(1, [parts["true"]])
    if kind == BINARY:
        return fields.signed(1, parts["sum"])
    put = fields.block if kind == STRING else fields.signed if kind in (*NUMBERS, DATE) else fields.number
    text = b"".join(put(PART_FIELDS[name], parts[name]) for name in ("min", "max") if name in parts)
    if "sum" in parts:
        text += (fields.number if kind in (LIST, MAP) else fields.signed)(3, parts["sum"])
    return text


def message(kind, stat):
    """The message of a statistic: the number of values always, the record where a part is known, nulls where known; or
    the bytes that it is to be written as."""
    if stat.text is not None:
        return stat.text
    parts = {1: fields.number(1, stat.count)}
    if stat.parts:
        parts[RECORDS[kind][0]] = fields.block(RECORDS[kind][0], record(kind, stat.parts))
    if stat.nulls is not None:
        parts[10] = fields.number(10, int(stat.nulls))
    if stat.size is not None:
        parts[11] = fields.number(11, stat.size)
    return b"".join(parts[number] for number in sorted(parts))
