"""Files: stripes one after the other, and the tail that tells of them."""
from dataclasses import dataclass, field

from . import fields
from .rows import schema
from .statistics import joined, message
from .stripe import Stripe, as_it_is


@dataclass
class File:
    """What a file says, and what a writer chose to say it."""

    root: object
    stripes: list
    version: object = (0, 12)
    stride: int = 0
    # the version of the integers' runs, where it isn't that of the file
    runs: int = 0
    writer: object = None
    writer_version: object = 6
    # pairs of user metadata, and the footer's fields above 10
    user: list = field(default_factory=list)
    kept: bytes = b""
    # the file's statistics of columns that differ from those of the stripes, joined; whose statistics are told
    stats: dict = field(default_factory=dict)
    tells_stripes: bool = True
    tells_file: bool = True
    # bytes behind the stripes that belong to none
    filler: bytes = b""
    # changes the metadata's text, and the parts of the footer and the postscript, by their names in their order
    metadata: object = as_it_is
    footer: object = as_it_is
    postscript: object = as_it_is
    # what the last byte tells, where it isn't the postscript's length
    last: object = None

    def __post_init__(self):
        self.root = schema(self.root) if isinstance(self.root, str) else self.root
        self.stripes = [each if isinstance(each, Stripe) else Stripe(each) for each in self.stripes]
        self.version = list(self.version)
        self.runs = self.runs or (1 if self.version == [0, 11] else 2)
        self.write()

    def rows(self, stripes=None):
        """The rows of all stripes, or of so many from the first on."""
        return [row for each in self.stripes[:stripes] for row in each.rows]

    def write(self):
        """The file's bytes."""
        self.laid = [each.lay(self.root, self.runs, self.stride) for each in self.stripes]
        content, self.infos = b"ORC", []
        for each, laid in zip(self.stripes, self.laid):
            content += each.gap
            info = {
                "offset": len(content),
                "index": laid.index,
                "data": laid.data,
                "footer": laid.footer,
                "rows": laid.rows,
            }
            self.infos.append({**info, **each.told})
            content += laid.content
        self.content = content + self.filler
        self.columns = self.root.columns()
        self.stripe_stats = [laid.stats for laid in self.laid]
        self.file_stats = (
            [self.stats.get(at, self.joined(at)) for at in range(len(self.columns))] if self.tells_file else []
        )
        self.number_of_rows = sum(info["rows"] for info in self.infos)
        self.content += self.tail(len(self.content))

    def joined(self, at):
        """What the stripes' statistics of a column say together."""
        return joined(self.columns[at].kind, [stats[at] for stats in self.stripe_stats])

    def tail(self, metadata_at):
        """What follows the stripes."""
        metadata = self.metadata(self.metadata_text())
        footer = self.footer_parts(metadata_at)
        self.footer(footer)
        footer = b"".join(footer.values())
        postscript = {
            "footer": fields.number(1, len(footer)),
            "compression": fields.number(2, 0),
            "version": fields.packed(4, self.version),
            "metadata": fields.number(5, len(metadata)),
            "writer": b"" if self.writer_version is None else fields.number(6, self.writer_version),
            "magic": fields.block(8000, "ORC"),
        }
        self.postscript(postscript)
        postscript = b"".join(postscript.values())
        return metadata + footer + postscript + bytes([len(postscript) if self.last is None else self.last])

    def metadata_text(self):
        """The statistics of the stripes."""
        return (
            b"".join(fields.block(1, self.stats_text(1, stats)) for stats in self.stripe_stats)
            if self.tells_stripes
            else b""
        )

    def stats_text(self, field, stats):
        """Statistics of columns, a field each."""
        return b"".join(fields.block(field, message(each.kind, stat)) for each, stat in zip(self.columns, stats))

    def footer_parts(self, metadata_at):
        """The footer's fields by name."""
        return {
            "header": fields.number(1, 3),
            "content": fields.number(2, metadata_at),
            "stripes": b"".join(fields.block(3, info_text(info)) for info in self.infos),
            "types": types_text(self.root),
            "user": b"".join(
                fields.block(5, fields.block(1, name) + fields.block(2, value)) for name, value in self.user
            ),
            "rows": fields.number(6, self.number_of_rows),
            "statistics": self.stats_text(7, self.file_stats),
            "stride": fields.number(8, self.stride),
            "writer": b"" if self.writer is None else fields.number(9, self.writer),
            "kept": self.kept,
        }


def info_text(info):
    """The message that tells of a stripe."""
    return b"".join(
        fields.number(at + 1, info[name]) for at, name in enumerate(("offset", "index", "data", "footer", "rows"))
    )


def types_text(root):
    """The types of a schema, a field each."""
    columns = root.columns()
    numbers = {id(each): at for at, each in enumerate(columns)}
    text = b""
    for each in columns:
        names = b"".join(fields.block(3, name) for name in each.names)
        subtypes = fields.packed(2, [numbers[id(child)] for child in each.children])
        text += fields.block(4, fields.number(1, each.kind) + subtypes + names + each.more)
    return text
