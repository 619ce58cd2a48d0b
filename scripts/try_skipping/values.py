"""Kinds of columns and their values, as they compare with one another."""
import datetime

LIST, MAP, STRUCT = "list", "map", "struct"
# by their numbers in a file (ORC specification, "Types"); the four kinds of integers have the same statistics
KINDS = {0: "boolean", 1: "int", 2: "int", 3: "int", 4: "int", 7: "string", 8: "binary", 10: LIST, 11: MAP, 12: STRUCT, 15: "date"}
EPOCH = datetime.date(1970, 1, 1).toordinal()
# a row has no cell in the column: the row is null, or the struct above, or the column is in a list or a map
MISSING = object()


def value(kind, cell):
    """Returns what a cell of JSON is: a value that compares as ORC's do, None for null, and True for what contains others."""
    if cell is None or kind in ("boolean", "int"):
        return cell
    if kind == "string":
        return cell.encode()
    if kind == "binary":
        return bytes.fromhex(cell)
    if kind == "date":
        return cell if isinstance(cell, int) else datetime.date.fromisoformat(cell).toordinal() - EPOCH
    return True


def from_json(kind, row, path):
    """Returns a row's cell in the column that these names lead to."""
    if path is None:
        return MISSING
    for name in path:
        if row is None:
            return MISSING
        row = row[name]
    return value(kind, row)
