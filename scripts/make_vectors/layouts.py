"""Files as other writers are publicly known to lay them out: which streams stand there, in which order, and what the
tail has. None of these layouts was compared with a file of the writer itself."""
from dataclasses import dataclass
from fractions import Fraction

from . import fields
from .file import File
from .rows import BINARY, BOOLEAN, BYTE, LIST, MAP, STRING, STRUCT, cells, schema
from .runs import SIGNED, UNSIGNED, bits
from .statistics import of_cells
from .stripe import DATA, LENGTH, PRESENT, ROW_INDEX, Stripe, as_it_is
from .written import bytes_by_runs, version_1, version_2

ALWAYS, NEVER = Fraction(1), Fraction(0)
MOST_32 = (1 << 32) - 1


def lengths_first(entries):
    """The streams of each column with LENGTH in front of DATA, but for those of a dictionary."""
    rank = {LENGTH: 0.5}
    at = {id(entry): place for place, entry in enumerate(entries)}

    def place(entry):
        front = entry.kind == ROW_INDEX
        return (not front, entry.column, at[id(entry)] if front else rank.get(entry.kind, entry.kind))

    return sorted(entries, key=place)


def small_first(entries):
    """The row indexes as they stand, and behind them the data streams by their lengths."""
    return sorted(entries, key=lambda entry: (entry.kind != ROW_INDEX, entry.kind != ROW_INDEX and len(entry.content)))


@dataclass
class Writer:
    """What a writer is publicly known to choose."""

    # the folder's name, and that of the writer in a sentence
    name: str
    title: str
    version: tuple = (0, 12)
    number: object = None
    writer_version: object = None
    # how many distinct texts a dictionary may have, as a part of all texts
    dictionary: Fraction = NEVER
    # whether PRESENT stands although nothing is null
    present: bool = False
    # what the statistics have: whether a value is null, children, bytes on disk; whether there are any
    nulls: bool = True
    children: bool = True
    sizes: bool = False
    stripe_statistics: bool = True
    file_statistics: bool = True
    has_index: bool = True
    kept: bytes = b""
    user: tuple = ()
    arrange: object = as_it_is
    stripe_footer: object = as_it_is
    footer: object = as_it_is
    postscript: object = as_it_is


def without(*names):
    """What removes parts of the footer, or of the postscript."""

    def remove(parts):
        parts.update(dict.fromkeys(names, b""))

    return remove


JAVA = Writer(
    "as-java",
    "Apache's Java writer",
    number=0,
    writer_version=9,
    dictionary=Fraction(4, 5),
    sizes=True,
    kept=fields.number(11, 1) + fields.block(12, "1.9.4"),
    stripe_footer=lambda text: text + fields.block(3, "GMT"),
)
HIVE_11 = Writer(
    "as-hive",
    "the writer of Hive 0.11",
    (0, 11),
    dictionary=ALWAYS,
    nulls=False,
    children=False,
    stripe_statistics=False,
    postscript=without("metadata"),
)
HIVE_12 = Writer(
    "as-hive",
    "the writer of Hive 0.12",
    dictionary=Fraction(4, 5),
    nulls=False,
    children=False,
    stripe_statistics=False,
    postscript=without("metadata"),
)
CPP = Writer(
    "as-cpp",
    "Apache's C++ writer",
    number=1,
    writer_version=6,
    present=True,
    kept=fields.block(12, "1.9.4"),
    arrange=lengths_first,
)
TRINO = Writer(
    "as-trino",
    "Trino's writer",
    number=4,
    writer_version=6,
    dictionary=Fraction(1, 2),
    nulls=False,
    children=False,
    user=(("trino_version", "435"), ("trino_query_id", "20240229_101112_00007_abcde")),
    arrange=small_first,
)
RUST = Writer(
    "as-rust",
    "a writer in Rust",
    number=MOST_32,
    writer_version=MOST_32,
    stripe_statistics=False,
    file_statistics=False,
    has_index=False,
    footer=without("stride"),
)


def streams_of(writer, at, each, own):
    """The streams of a column by their kinds, all that are not left out, and its dictionary where it has one."""
    integers = version_1 if writer.version == (0, 11) else version_2
    values, found = [cell for cell in own if cell is not None], {}
    if writer.present or len(values) < len(own):
        found[PRESENT] = bytes_by_runs(list(bits([cell is not None for cell in own])))
    if each.kind == STRING and writer.dictionary > 0 and len(set(values)) <= writer.dictionary * len(values):
        entries = sorted({value.encode() for value in values})
        found[DATA] = integers([entries.index(value.encode()) for value in values], UNSIGNED)
        found[LENGTH] = integers([len(entry) for entry in entries], UNSIGNED)
        return found, entries
    if each.kind == BOOLEAN:
        found[DATA] = bytes_by_runs(list(bits(values)))
    elif each.kind == BYTE:
        found[DATA] = bytes_by_runs([value % 256 for value in values])
    elif each.kind in (LIST, MAP):
        found[LENGTH] = integers([len(value) for value in values], UNSIGNED)
    elif each.kind in (STRING, BINARY):
        texts = [value.encode() if each.kind == STRING else value for value in values]
        found[DATA], found[LENGTH] = b"".join(texts), integers([len(text) for text in texts], UNSIGNED)
    elif each.kind != STRUCT:
        found[DATA] = integers(values, SIGNED)
    return found, None


def stat_of(writer, kind, own):
    """The statistic of cells, with what the writer stores."""
    found = of_cells(kind, own)
    if kind in (LIST, MAP) and not writer.children:
        found = found.but(min=None, max=None, sum=None)
    return found if writer.nulls else found.but(nulls=None)


def stripe_of(writer, root, rows, stride, back):
    """A stripe as the writer lays it out."""
    streams, dictionaries, stats, entry_stats = {}, {}, {}, {}
    columns = root.columns()
    for at, (each, own) in enumerate(zip(columns, cells(root, rows))):
        found, entries = streams_of(writer, at, each, own)
        streams.update({(at, kind): stream for kind, stream in found.items()})
        if entries is not None:
            dictionaries[at] = entries
            streams[at, 3] = b"".join(entries)
        stats[at] = stat_of(writer, each.kind, own)
    for group, row in enumerate(range(0, len(rows), stride or 1) if stride else ()):
        for at, (each, own) in enumerate(zip(columns, cells(root, rows[row : row + stride]))):
            entry_stats[at, group] = stat_of(writer, each.kind, own)
    return Stripe(
        rows,
        streams,
        dictionaries=dictionaries,
        back=back,
        stats=stats,
        entry_stats=entry_stats,
        empty_present=writer.present,
        arrange=writer.arrange,
        footer=writer.stripe_footer,
    )


def put_sizes(file):
    """Puts the bytes on disk into the statistics of stripes and file."""
    totals = [0] * len(file.columns)
    for stripe, laid in zip(file.stripes, file.laid):
        for at in range(len(file.columns)):
            size = laid.sizes.get(at, 0)
            totals[at] += size
            stripe.stats[at] = laid.stats[at].on_disk(size)
    file.stats = {at: file.joined(at).on_disk(total) for at, total in enumerate(totals)}
    file.write()


def laid_out(writer, text, parts, stride, back=0, **more):
    """The file of these rows, a list a stripe."""
    root, stride = schema(text), stride if writer.has_index else 0
    stripes = [stripe_of(writer, root, rows, stride, back) for rows in parts]
    empty = {at: stat_of(writer, each.kind, []) for at, each in enumerate(root.columns())}
    choices = {
        "writer": writer.number,
        "writer_version": writer.writer_version,
        "user": list(writer.user),
        "kept": writer.kept,
        "stats": {} if parts else empty,
        "tells_stripes": writer.stripe_statistics,
        "tells_file": writer.file_statistics,
        "footer": writer.footer,
        "postscript": writer.postscript,
    }
    file = File(root, stripes, writer.version, stride=stride, **{**choices, **more})
    if writer.sizes:
        put_sizes(file)
    return file
