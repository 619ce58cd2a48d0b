"""What merging makes of files, by the rules of docs/FORMAT.md."""
from .file import File
from .stripe import as_it_is
from .vector import as_bytes


class Merged(File):
    """The stripes of all files in order, as they stood, and one tail, as short as it can be written."""

    def __init__(self, files):
        first = files[0]
        self.root, self.columns, self.version, self.stride = first.root, first.columns, first.version, first.stride
        self.writer, self.writer_version, self.kept = first.writer, first.writer_version, first.kept
        self.tells_stripes, self.last = True, None
        self.metadata = self.footer = self.postscript = as_it_is
        self.stripes = [each for file in files for each in file.stripes]
        self.laid = [each for file in files for each in file.laid]
        self.stripe_stats = [[stat.but() for stat in stats] for file in files for stats in file.stripe_stats]
        self.user = user_of(files)
        self.number_of_rows = sum(file.number_of_rows for file in files)
        self.content, self.infos = b"ORC", []
        for info, laid in zip((info for file in files for info in file.infos), self.laid):
            self.infos.append({**info, "offset": len(self.content)})
            self.content += laid.content
        self.file_stats = [self.joined(at) for at in range(len(self.columns))]
        self.content += self.tail(len(self.content))


def user_of(files):
    """The pairs of all files in order, each only where no pair before it has its name."""
    found = {}
    for name, value in (pair for file in files for pair in file.user):
        found.setdefault(as_bytes(name), value)
    return list(found.items())
