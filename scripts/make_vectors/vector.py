"""A vector: a file, which sentence of the format it shows, and what a reader has to answer."""
from dataclasses import dataclass

from .fields import plain
from .rows import DATE, STRING, compact, day_text, lines
from .statistics import RECORDS


@dataclass
class Vector:
    """A file that is read or refused, and what a reader has to answer."""

    # its folder and its own name; the rules of the format that it shows, by their names in rules.py; a sentence
    name: str
    rules: object
    shows: str
    # a file as it is meant, or bytes of which nothing but their fault is meant
    file: object
    # what the file says of its rows and is not so
    findings: object = ()
    # the groups from which rows are read, pairs of a stripe and a group; by a dict the fault of each, or None
    places: object = ()
    # why the file is refused; whether its tail is read; how many stripes stand before the bad one; whether it has rows
    # and these alone can't be printed
    fault: object = None
    tail: bool = True
    good_stripes: int = 0
    rows_alone: bool = False
    # whether it is shown what the writer's rules make of the same rows
    written: bool = True

    def __post_init__(self):
        self.rules = self.rules.split()
        self.findings = [self.findings] if isinstance(self.findings, str) else list(self.findings)
        self.places = self.places if isinstance(self.places, dict) else dict.fromkeys(self.places)

    def parts(self):
        """The files of the vector, by what follows its name."""
        if isinstance(self.file, bytes):
            return {".orc": self.file, ".fault": self.fault + "\n"}
        found = {".orc": self.file.content}
        if self.fault:
            found[".fault"] = self.fault + "\n"
        if self.good_stripes or not self.fault:
            found[".json"] = lines(self.file.root, self.file.rows(self.good_stripes or None))
        if self.tail or not self.fault:
            found[".show"] = shown(self.file)
        if self.rows_alone or not self.fault:
            found[".check"] = "".join(f"{finding}\n" for finding in self.findings)
        return {**found, **self.parts_from_groups()}

    def parts_from_groups(self):
        """The files of rows from a group on."""
        found = {}
        for (stripe, group), fault in self.places.items():
            name = f".from-{stripe}-{group}"
            found |= {name + ".fault": fault + "\n"} if fault else {name + ".json": self.rows_from(stripe, group)}
        return found

    def rows_from(self, stripe, group):
        """The rows from a group on."""
        before = len(self.file.rows(stripe)) + group * self.file.stride
        return lines(self.file.root, self.file.rows()[before:])


def places_of(file):
    """All groups of a file."""
    return [(at, group) for at, each in enumerate(file.stripes) for group in range(-(-len(each.rows) // file.stride))]


def shown(file):
    """What a file says of itself, a fact a line."""
    told = [
        f"schema {file.root.text()}",
        f"version {'.'.join(map(str, file.version)) or 'none'}",
        f"writer {known(file.writer)} {known(file.writer_version)}",
        f"rows {file.number_of_rows}",
        f"stride {file.stride}",
    ]
    told += [f"meta {text_or_digits(as_bytes(name))} {as_bytes(value).hex()}" for name, value in file.user]
    for at, info in enumerate(file.infos):
        told.append(f"stripe {at} " + " ".join(f"{name} {value}" for name, value in info.items()))
    told += [shown_stat(at, each.kind, stat) for at, (each, stat) in enumerate(zip(file.columns, file.file_stats))]
    return "".join(line + "\n" for line in told)


def shown_stat(at, kind, stat):
    """The line of a column's statistic."""
    nulls = "unknown" if stat.nulls is None else "yes" if stat.nulls else "no"
    line = f"column {at} count {stat.count} nulls {nulls}"
    say = shown_text if kind == STRING else day_text if kind == DATE else plain
    for name in RECORDS[kind][1] if kind in RECORDS and stat.count else ():
        if name in stat.parts:
            line += f" {name} {(say if name in ('min', 'max') else plain)(stat.parts[name])}"
    return line


def known(value):
    """A value that may be missing."""
    return "none" if value is None else value


def as_bytes(value):
    """A text's bytes, or bytes as they are."""
    return value.encode() if isinstance(value, str) else value


def text_or_digits(content):
    """Bytes as a text of JSON, or as digits where they are none."""
    try:
        return compact(content.decode())
    except UnicodeDecodeError:
        return "hex:" + content.hex()


def shown_text(content):
    """A text of a statistic."""
    return text_or_digits(as_bytes(content))
