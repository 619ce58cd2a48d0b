"""Schemas, rows, the cells of a column, and rows as JSON.

A row is None, a bool, an int, a str, bytes, a list, a list of pairs for a map, or a dict for a struct; a date is its
day's number."""
import datetime
import json
import re

KINDS = {
    "boolean": 0,
    "tinyint": 1,
    "smallint": 2,
    "int": 3,
    "bigint": 4,
    "string": 7,
    "binary": 8,
    "array": 10,
    "map": 11,
    "struct": 12,
    "date": 15,
}
NAMES = {number: name for name, number in KINDS.items()}
BOOLEAN, BYTE, SHORT, INT, LONG, STRING, BINARY, LIST, MAP, STRUCT, DATE = 0, 1, 2, 3, 4, 7, 8, 10, 11, 12, 15
NUMBERS = (BYTE, SHORT, INT, LONG)


class Type:
    """A type of a schema: its kind, the names of its fields, its children, and fields of its message that nobody
    reads."""

    def __init__(self, kind, names=(), children=(), more=b""):
        self.kind, self.names, self.children, self.more = kind, list(names), list(children), more

    def columns(self):
        """This type and those below it, in pre-order."""
        return [self] + [below for child in self.children for below in child.columns()]

    def text(self):
        """The schema's text."""
        inner = [child.text() for child in self.children]
        if self.kind == STRUCT:
            inner = [f"{name_text(name)}:{text}" for name, text in zip(self.names, inner)]
        return NAMES[self.kind] + (f"<{','.join(inner)}>" if self.children or self.kind == STRUCT else "")

    def can_be_said(self):
        """Whether lines of JSON can be read as rows: no struct names a field twice."""
        return all(each.names.count(name) == 1 for each in self.columns() for name in each.names)


def name_text(name):
    """A name in a schema's text: one of ASCII letters, digits and underscores as it is, any other in backticks."""
    if re.fullmatch("[A-Za-z0-9_]+", name, re.ASCII):
        return name
    doubled = {"`": "``", "\\": "\\\\"}
    return "`" + "".join(doubled.get(each) or shown_sign(each) for each in name) + "`"


def shown_sign(sign):
    """A sign of a name in backticks: the number of a control character, any other as it is."""
    number = ord(sign)
    return f"\\u{number:04x}" if number < 0x20 or 0x7F <= number < 0xA0 else sign


def schema(text):
    """The type that a text with plain names names."""
    found, rest = type_at(text)
    assert not rest
    return found


def type_at(text):
    """The type at the front of a text, and what follows."""
    word = re.match("[a-z]+", text)[0]
    kind, rest = KINDS[word], text[len(word) :]
    if kind not in (LIST, MAP, STRUCT):
        return Type(kind), rest
    names, children, rest = [], [], rest[1:]
    while rest[0] != ">":
        rest = rest.removeprefix(",")
        if kind == STRUCT:
            name, _, rest = rest.partition(":")
            names.append(name)
        child, rest = type_at(rest)
        children.append(child)
    return Type(kind, names, children), rest[1:]


def cells(root, rows):
    """The cells of each column, in the columns' order."""
    return cells_below(root, list(rows))


def cells_below(each, own):
    """The cells of a type, whose own these are, and of those below it."""
    there = [cell for cell in own if cell is not None]
    found = [own]
    for at, child in enumerate(each.children):
        if each.kind == STRUCT:
            inner = [cell.get(each.names[at]) if isinstance(cell, dict) else cell[at] for cell in there]
        elif each.kind == LIST:
            inner = [item for cell in there for item in cell]
        else:
            inner = [pair[at] for cell in there for pair in cell]
        found += cells_below(child, inner)
    return found


def day_text(day):
    """A day as JSON has it: a date in the years 1 to 9999, else the day's number."""
    in_years = -719162 <= day <= 2932896
    return (datetime.date(1970, 1, 1) + datetime.timedelta(day)).isoformat() if in_years else day


def json_value(each, cell):
    """A cell as a value of JSON."""
    if cell is None:
        return None
    if each.kind == DATE:
        return day_text(cell)
    if each.kind == BINARY:
        return cell.hex()
    if each.kind == LIST:
        return [json_value(each.children[0], item) for item in cell]
    if each.kind == MAP:
        return [[json_value(child, part) for child, part in zip(each.children, pair)] for pair in cell]
    if each.kind == STRUCT:
        return {name: json_value(child, cell.get(name)) for name, child in zip(each.names, each.children)}
    return cell


def compact(value):
    """The compact text of a value of JSON, keys in the order of their bytes."""
    return json.dumps(value, ensure_ascii=False, separators=(",", ":"), sort_keys=True)


def lines(root, rows):
    """Rows as lines of JSON."""
    return "".join(compact(json_value(root, row)) + "\n" for row in rows)


def tools_value(each, cell):
    """A cell as `orc-tools data` of Apache's Java tools is known to print it."""
    if cell is None:
        return None
    if each.kind == DATE:
        return day_text(cell)
    if each.kind == BINARY:
        return list(cell)
    if each.kind == LIST:
        return [tools_value(each.children[0], item) for item in cell]
    if each.kind == MAP:
        key, value = each.children
        return [{"_key": tools_value(key, pair[0]), "_value": tools_value(value, pair[1])} for pair in cell]
    if each.kind == STRUCT:
        return {name: tools_value(child, cell.get(name)) for name, child in zip(each.names, each.children)}
    return cell


def tools_lines(root, rows):
    """Rows as lines in that form: the keys of an object in the order of the fields."""
    values = [tools_value(root, row) for row in rows]
    return "".join(json.dumps(value, ensure_ascii=False, separators=(",", ":")) + "\n" for value in values)
