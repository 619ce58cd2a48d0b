"""Apache ORC files: check, print, describe, join and write them, with the library liborcm.so.

    import orcm
    print(orcm.show("day.orc").decode())
    file = orcm.write(schema="struct<n:bigint>", rle=2, stride=10000, stripe_rows=100000, lines=b'{"n":7}\\n')
    rows = [json.loads(line) for line in orcm.rows(file).splitlines()]

Each call returns bytes: the lines that the program `orcm` prints, or the file that it makes. A call that is refused
raises `Fault`. An input is a path (a str or an os.PathLike), whose file is read whole, or an object with the bytes
themselves, as bytes, bytearray, memoryview or mmap, which are not copied. Nobody may change these bytes during the
call, nor the file that an mmap is of.

The library is the one that the environment variable ORCM_LIBRARY names by its path, or else liborcm.so beside this
file, or else the one that the system finds under that name.
"""
import contextlib
import ctypes
import operator
import os
import pathlib
import re

__all__ = ["Fault", "check", "merge", "rows", "show", "write"]

LAYERS = {1: "run", 2: "type", 3: "json", 4: "file", 5: "merge", 6: "call"}
PART = re.compile(r"(?P<layer>[a-z]+) (?P<number>\d+) (?P<name>\w+)(?:\((?P<inside>[^)]*)\)| at (?P<at>\d+))?")
# the least room for what a call makes: that of a fault's text and of most short answers
LEAST_ROOM = 1 << 16
# the most room that is tried first for lines of rows, which may be many times as long as their file
MOST_ROOM = 1 << 28


class Fault(Exception):
    """Why a call is refused, as docs/FAULTS.md explains it.

    layer   the layer's name, as "file"
    number  the fault's number in its layer
    name    its name there, as "Stripe"; empty if there was no memory for the text
    place   where it is, as "0", or "1, DATA" for a column and a kind of stream; None if it has no place
    text    all of it, with the faults of inner layers, as the program prints it behind `orcm: `
    cause   layer, number, name and place of the innermost fault in the text
    """

    def __init__(self, layer, number, text):
        super().__init__(text or f"{layer} {number}")
        parts = [(part["layer"], int(part["number"]), part["name"], part["inside"] or part["at"]) for part in PART.finditer(text)]
        parts = parts or [(layer, number, "", None)]
        self.layer, self.number, self.text = layer, number, text
        self.name, self.place = parts[0][2:]
        self.cause = parts[-1]


class _Answer(ctypes.Structure):
    _fields_ = [("length", ctypes.c_size_t), ("layer", ctypes.c_uint32), ("number", ctypes.c_uint32)]


class _Buffer(ctypes.Structure):
    """The view of an object's bytes, as Python's C interface has it."""

    _fields_ = [
        ("at", ctypes.c_void_p),
        ("object", ctypes.c_void_p),
        ("length", ctypes.c_ssize_t),
        ("item_size", ctypes.c_ssize_t),
        ("is_read_only", ctypes.c_int),
        ("dimensions", ctypes.c_int),
        ("format", ctypes.c_char_p),
        ("shape", ctypes.c_void_p),
        ("strides", ctypes.c_void_p),
        ("suboffsets", ctypes.c_void_p),
        ("internal", ctypes.c_void_p),
    ]


_BYTES, _COUNT, _NUMBER = ctypes.c_void_p, ctypes.c_size_t, ctypes.c_uint32
_SHAPES = {
    "check": (_BYTES, _COUNT),
    "rows": (_BYTES, _COUNT, _BYTES, _COUNT),
    "show": (_BYTES, _COUNT),
    "merge": (_BYTES, _COUNT, ctypes.POINTER(ctypes.c_size_t), _COUNT),
    "write": (_BYTES, _COUNT, _NUMBER, _NUMBER, _NUMBER, _BYTES, _COUNT),
}


def _load():
    """The library's calls, by name."""
    beside = pathlib.Path(__file__).with_name("liborcm.so")
    library = ctypes.CDLL(os.environ.get("ORCM_LIBRARY") or (str(beside) if beside.exists() else "liborcm.so"))
    calls = {}
    for name, shape in _SHAPES.items():
        calls[name] = getattr(library, f"orcm_{name}")
        calls[name].argtypes, calls[name].restype = [*shape, _BYTES, _COUNT], _Answer
    return calls


_CALLS = _load()


@contextlib.contextmanager
def _view(data):
    """The address and the number of an object's bytes, which stay where they are as long as the block runs."""
    view = _Buffer()
    ctypes.pythonapi.PyObject_GetBuffer(ctypes.py_object(data), ctypes.byref(view), 0)
    try:
        # (the address of no bytes may be none at all, and the library takes no such pointer)
        yield view.at or ctypes.addressof(view), view.length
    finally:
        ctypes.pythonapi.PyBuffer_Release(ctypes.byref(view))


def _bytes_of(source):
    """The bytes of an input: of the file if it is a path, and else of the object itself."""
    if isinstance(source, (str, os.PathLike)):
        return pathlib.Path(source).read_bytes()
    return source


def _number(name, number):
    """A number that the library takes; ctypes alone would cut off what is above 32 bits."""
    number = operator.index(number)
    if not 0 <= number < 1 << 32:
        raise ValueError(f"{name} is {number}, and has to be from 0 to {(1 << 32) - 1}")
    return number


def _call(name, room, *words):
    """What a call makes. If the room was too small for it, the call is made again, with as much room as it wants."""
    for _ in range(2):
        out = ctypes.create_string_buffer(max(room, LEAST_ROOM))
        answer = _CALLS[name](*words, ctypes.addressof(out), len(out))
        if answer.length <= len(out):
            break
        room = answer.length
    made = bytes(memoryview(out)[: answer.length])
    if answer.layer:
        raise Fault(LAYERS[answer.layer], answer.number, made.decode())
    return made


def check(file):
    """Checks the statistics and row indexes of a file against its rows. Returns a line for each that is wrong or missing."""
    with _view(_bytes_of(file)) as (at, length):
        return _call("check", 0, at, length)


def show(file):
    """Returns what a file says of itself, one line for each fact."""
    with _view(_bytes_of(file)) as (at, length):
        return _call("show", length // 8, at, length)


def rows(file, start=None):
    """Returns the rows of a file, one line of JSON each.

    `start` is a stripe and a group of its row index, as "2:0" or (2, 0): then only the rows from there on are returned.
    """
    if start is None:
        start = ""
    elif not isinstance(start, str):
        start = ":".join(map(str, start))
    elif not start:
        raise ValueError("start is empty, and has to name a stripe and a group, as 2:0")
    with _view(_bytes_of(file)) as (at, length), _view(start.encode("utf-8", "surrogateescape")) as (text, text_length):
        return _call("rows", min(4 * length, MOST_ROOM), at, length, text, text_length)


def merge(files):
    """Joins files into one, in their order, and returns that file. All of them are held in memory together."""
    files = [_bytes_of(file) for file in files]
    sizes = [memoryview(file).nbytes for file in files]
    lengths = (ctypes.c_size_t * max(len(sizes), 1))(*sizes)
    whole = files[0] if len(files) == 1 else b"".join(files)
    with _view(whole) as (at, length):
        return _call("merge", length + LEAST_ROOM, at, length, lengths, len(files))


def write(schema, rle, stride, stripe_rows, lines):
    """Writes a file of rows, one line of JSON each, and returns that file.

    `schema` is a text as "struct<n:bigint>". `rle` is the version of integer run lengths, 1 or 2. The row index has an
    entry for each `stride` rows, or there is none if it is 0. A stripe has `stripe_rows` rows.
    """
    numbers = _number("rle", rle), _number("stride", stride), _number("stripe_rows", stripe_rows)
    with _view(schema.encode("utf-8", "surrogateescape")) as (text, text_length), _view(_bytes_of(lines)) as (at, length):
        return _call("write", length + LEAST_ROOM, text, text_length, *numbers, at, length)
