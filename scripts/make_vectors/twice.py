"""The columns of vectors once more, in a struct that names a field twice: its rows have no JSON, so that `orcm rows`
reads the columns by themselves and makes no row of them. It refuses the same columns for the same reason. These files
show nothing of the format that the vectors don't, so they are made where they are tried."""
import dataclasses
import pathlib

from . import of_columns, of_integers, of_integers_2, of_nested, of_stripes
from .file import File
from .rows import STRUCT, Type
from .runs import UNSIGNED, data_of, direct
from .statistics import Stat
from .stripe import LENGTH, Stripe, as_it_is
from .vector import Vector


def elements():
    """A list of as many elements as there may be, which have no streams."""
    most = (1 << 31) - 1
    stats = {1: Stat(1, False, min=most, max=most, sum=most), 2: Stat(most, False)}
    stripe = Stripe([{"a": []}], {(1, LENGTH): data_of(direct([most], UNSIGNED))}, stats=stats)
    return Vector("tells-of-much/elements", "", "", File("struct<a:array<struct<>>>", [stripe]))


def can_be_twice(vector):
    """Whether there is a name, and rows or a fault are those of one stripe, whose footer is as it comes."""
    file = vector.file
    if len(file.stripes) != 1 or not file.root.names or file.stripes[0].footer is not as_it_is:
        return False
    return file.number_of_rows > 0 or vector.fault is not None


def twice(vector):
    """The vector's columns, and behind them structs without fields by the name of the first."""
    names, children, [stripe] = vector.file.root.names, vector.file.root.children, vector.file.stripes
    rows = [None if row is None else (*(row.get(name) for name in names), {}) for row in stripe.rows]
    root = Type(STRUCT, [*names, names[0]], [*children, Type(STRUCT)])
    file = dataclasses.replace(vector.file, root=root, stripes=[dataclasses.replace(stripe, rows=rows)])
    fault = vector.fault or "json 5 DuplicateField"
    return Vector(vector.name, "", "", file, vector.findings, fault=fault, rows_alone=not vector.fault)


def write(folder):
    """Writes them all, as the vectors stand in their folders."""
    tables = of_integers.vectors() + of_integers_2.vectors() + of_columns.vectors() + of_nested.vectors()
    tables += of_stripes.much()
    for vector in [*tables, elements()]:
        for end, content in twice(vector).parts().items() if can_be_twice(vector) else ():
            path = pathlib.Path(folder, vector.name + end)
            path.parent.mkdir(parents=True, exist_ok=True)
            path.write_bytes(content.encode() if isinstance(content, str) else content)
