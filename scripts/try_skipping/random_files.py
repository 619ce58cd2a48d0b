"""Random schemas, rows and predicates, and files whose statistics lack bounds."""
from .rules import AND, COMPARE, NOT, NULL, OPERATORS, OR
from .stored import Stored, every, fields
from .values import LIST, MAP, MISSING, STRUCT

WHOLE = ("tinyint", "smallint", "int", "bigint")
TEXTS = ("", "a", "ab", "b", "b\0", "\u00e9", "\uffff", "\ufffd", "\U00010000", "zz")
BYTES = ("", "00", "7f", "80", "8000", "ff")
# a predicate has three levels at most
LEVELS = 3


def scalar(random):
    """Returns the text of a kind that contains no other."""
    return random.choice((*WHOLE, "string", "string", "boolean", "date", "binary"))


def schema(random):
    """Returns a struct's fields: names and kinds, where a kind is a text, or a list of fields for a struct in it."""
    found = []
    for place in range(random.randint(1, 4)):
        shape = random.random()
        if shape < 0.75:
            kind = scalar(random)
        elif shape < 0.85:
            kind = [(f"g{number}", scalar(random)) for number in range(random.randint(1, 2))]
        else:
            kind = f"array<{scalar(random)}>" if shape < 0.93 else f"map<int,{scalar(random)}>"
        found.append((f"f{place}", kind))
    return found


def text(parts):
    """Returns the text of a struct of fields."""
    return "struct<" + ",".join(f"{name}:{kind if isinstance(kind, str) else text(kind)}" for name, kind in parts) + ">"


def cell(random, kind, near, nulls):
    """Returns a cell as JSON: null with this chance, else a value that mostly lies near a number."""
    if random.random() < nulls:
        return None
    if not isinstance(kind, str):
        return {name: cell(random, inner, near, nulls) for name, inner in kind}
    if kind.startswith("array<"):
        return [cell(random, kind[6:-1], near, nulls) for _ in range(random.randint(0, 2))]
    if kind.startswith("map<"):
        return [[key, cell(random, kind[8:-1], near, nulls)] for key in range(random.randint(0, 2))]
    if kind == "boolean":
        return near % 2 == 0 if random.random() < 0.8 else random.random() < 0.5
    if kind == "string":
        return TEXTS[near % len(TEXTS)] if random.random() < 0.8 else random.choice(TEXTS)
    if kind == "binary":
        return random.choice(BYTES)
    if random.random() < 0.02:
        return random.choice((-128, 127))
    return near + random.randint(-1, 1)


def rows(random, parts):
    """Returns rows as JSON, whose values mostly change slowly, so that groups differ. Some rows are null."""
    near, moves = random.randint(-9, 9), random.choice((0, 0.1, 0.5))
    nulls, no_rows = random.choice((0, 0, 0.1, 0.5, 1)), random.choice((0, 0, 0, 0.2))
    found = []
    for _ in range(random.choice((0, 1, 2, 5, 10, 20, 40))):
        near += random.random() < moves
        if random.random() < no_rows:
            found.append(None)
        else:
            found.append({name: cell(random, kind, near, nulls) for name, kind in parts})
    return found


def constant(random, kind, cells):
    """Returns a constant of a kind: mostly a value of the column, or one beside it."""
    values = [it for it in cells if it is not None and it is not MISSING]
    if values and random.random() < 0.8:
        it = random.choice(values)
        if kind in ("int", "date"):
            return it + random.choice((0, 0, -1, 1))
        return random.choice((it, it, it + b"\0", it[:-1])) if isinstance(it, bytes) else it
    if kind == "boolean":
        return random.random() < 0.5
    if kind == "string":
        return random.choice(TEXTS).encode()
    return bytes.fromhex(random.choice(BYTES)) if kind == "binary" else random.randint(-12, 12)


def leaf(random, columns, cells):
    """Returns a comparison, BETWEEN, IN or IS NULL, of a column that rows have cells in."""
    number = random.choice([at for at, column in enumerate(columns) if column.path is not None])
    kind = columns[number].kind
    form = random.random()
    if kind in (LIST, MAP, STRUCT) or form < 0.15:
        return (NULL, number)
    first, second = constant(random, kind, cells[number]), constant(random, kind, cells[number])
    if form < 0.75:
        return (COMPARE, number, random.choice(tuple(OPERATORS)), first)
    if form < 0.88:
        return (AND, (COMPARE, number, ">=", first), (COMPARE, number, "<=", second))
    return (OR, (COMPARE, number, "=", first), (COMPARE, number, "=", second))


def predicate(random, columns, cells, levels=LEVELS):
    """Returns a predicate."""
    form = random.random()
    if levels == 1 or form < 0.5:
        return leaf(random, columns, cells)
    if form < 0.7:
        return (NOT, predicate(random, columns, cells, levels - 1))
    return (random.choice((AND, OR)), *(predicate(random, columns, cells, levels - 1) for _ in range(2)))


def varint(number):
    """Returns a number as a varint."""
    found = bytearray()
    while number > 127:
        found.append(number & 127 | 128)
        number >>= 7
    return bytes((*found, number))


def spelled(message):
    """Returns the bytes of a message of numbers and of bytes."""
    found = bytearray()
    for number, value in message:
        if isinstance(value, int):
            found += varint(number << 3) + varint(value)
        else:
            found += varint(number << 3 | 2) + varint(len(value)) + value
    return bytes(found)


def changed(message, number, change):
    """Returns a message with each field of that number changed."""
    return [(at, change(value) if at == number else value) for at, value in message]


def unbounded(data):
    """Returns a column's statistic with bounds for long strings in place of the least and the greatest string, as another writer is
    publicly known to store them: fields 4 and 5 for fields 1 and 2."""
    return spelled(changed(list(fields(data)), 4, lambda it: spelled([({1: 4, 2: 5}.get(at, at), value) for at, value in fields(it)])))


def without_bounds(data):
    """Returns a file whose statistics of strings, of the file and of the stripes, have no least and no greatest."""
    stored = Stored(data)
    footer = spelled(changed(stored.footer, 7, unbounded))
    stripes = [spelled(changed(list(fields(it)), 1, unbounded)) for it in every(stored.metadata, 1)]
    metadata = spelled([(1, it) for it in stripes])
    after = len(data) - 1 - data[-1]
    postscript = list(fields(data[after:-1]))
    sizes = dict(postscript)
    body = data[: after - sizes.get(1, 0) - sizes.get(5, 0)]
    postscript = [(at, {1: len(footer), 5: len(metadata)}.get(at, value)) for at, value in postscript]
    ending = spelled(postscript)
    return body + metadata + footer + ending + bytes((len(ending),))
