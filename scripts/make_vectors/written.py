"""What the writer's rules of docs/FORMAT.md make of rows: its choice of runs and dictionaries, its layout and its
positions."""
import re
import shlex

from . import runs
from .file import File
from .rows import BINARY, BOOLEAN, BYTE, LIST, MAP, STRING, STRUCT, cells
from .stripe import DATA, DICTIONARY_DATA, LENGTH, PRESENT, Stripe

# the widths of direct runs, of sizes and of the numbers of a patched run
CHOSEN_WIDTHS = [1, 2, 4, 8, 16, 24, 32, 40, 48, 56, 64]
TOP, BOTTOM = (1 << 63) - 1, -(1 << 63)


def chosen_width(number, least=1):
    """The least of these widths that holds a number."""
    return next(width for width in CHOSEN_WIDTHS if width >= least and number < 1 << width)


def steady(values, at, most, step_fits):
    """How many values from a place on have one step, which is one that may be."""
    if at + 1 >= len(values) or not step_fits(values[at + 1] - values[at]):
        return 1
    step, end = values[at + 1] - values[at], at + 1
    while end < len(values) and end - at < most and values[end] - values[end - 1] == step:
        end += 1
    return end - at


def by_runs(values, step_fits, run, literals):
    """From the left the longest run of 3 to 130 values with one step; where none begins, up to 128 literals until one
    does."""
    found, at = [], 0
    while at < len(values):
        length = steady(values, at, 130, step_fits)
        if length >= 3:
            found += run(values[at], values[at + 1] - values[at], length)
            at += length
            continue
        end = at + 1
        while end < len(values) and end - at < 128 and steady(values, end, 3, step_fits) < 3:
            end += 1
        found += literals(values[at:end])
        at = end
    return found


def version_1(values, spell):
    """Integers in version 1."""
    fits = range(-128, 128)
    return by_runs(
        values,
        lambda step: step in fits,
        lambda *run: runs.v1_run(*run, spell),
        lambda part: runs.v1_literals(part, spell),
    )


def bytes_by_runs(values):
    """A stream of bytes."""
    return by_runs(
        values, lambda step: step == 0, lambda byte, _, count: runs.byte_repeat(byte, count), runs.byte_literals
    )


def equal_from(values, at):
    """How many equal values stand from a place on, at most 512."""
    end = at
    while end < len(values) and end - at < 512 and values[end] == values[at]:
        end += 1
    return end - at


def version_2(values, spell):
    """Integers in version 2: equal values, or a chunk to the next three that are equal."""
    found, at = [], 0
    while at < len(values):
        count = equal_from(values, at)
        if count > 10:
            found += runs.delta(values[at : at + count], spell, 0)
        elif count >= 3:
            found += runs.short_repeat(values[at], count, spell)
        else:
            count = 1
            while at + count < len(values) and count < 512 and equal_from(values, at + count) < 3:
                count += 1
            found += shortest(values[at : at + count], spell)
        at += count
    return found


def shortest(chunk, spell):
    """A chunk in the shortest of the forms that it has, among equally short ones in the first."""
    forms = [delta_of(chunk, spell), direct_of(chunk, spell), patched_of(chunk)]
    return min((form for form in forms if form), key=lambda form: len(form[0][0]))


def direct_of(chunk, spell):
    """A direct run."""
    return runs.direct(chunk, spell, chosen_width(max(map(spell, chunk))))


def delta_of(chunk, spell):
    """A delta, where the differences fit and none is against the direction of the first."""
    steps = [after - before for before, after in zip(chunk, chunk[1:])]
    if not steps or not all(BOTTOM <= step <= TOP for step in steps):
        return None
    if any(step > 0 if steps[0] < 0 else step < 0 for step in steps):
        return None
    if len(set(steps)) == 1:
        return runs.delta(chunk, spell, 0)
    return runs.delta(chunk, spell, chosen_width(max(map(abs, steps[1:])), 2))


def patched_of(chunk):
    """A patched run, where there is one: its numbers have the least width with few enough entries."""
    base = min(chunk)
    above = [value - base for value in chunk]
    if abs(base) >= 1 << 56 or max(above) >= 1 << 63:
        return None
    for width in CHOSEN_WIDTHS:
        entries = entries_of(above, width)
        if not 1 <= len(entries) <= min(31, -(-len(chunk) // 4)):
            continue
        patch_width = runs.width_of(max(patch for _, patch in entries))
        gap_width = max(1, max(gap for gap, _ in entries).bit_length())
        if gap_width + patch_width <= 64:
            low = [number & (1 << width) - 1 for number in above]
            return runs.patched(base, low, width, entries, gap_width, patch_width)
    return None


def entries_of(above, width):
    """An entry for each number of more digits; a gap above 255 by entries that only move on."""
    entries, last = [], 0
    for at, number in enumerate(above):
        if number < 1 << width:
            continue
        gap, last = at - last, at
        while gap > 255:
            entries.append((255, 0))
            gap -= 255
        entries.append((gap, number >> width))
    return entries


def streams_of(at, each, own, version):
    """The streams of a column, and the entries of its dictionary where it has one."""
    integers = version_1 if version == 1 else version_2
    values, found = [cell for cell in own if cell is not None], {}
    if len(values) < len(own):
        found[at, PRESENT] = bytes_by_runs(list(runs.bits([cell is not None for cell in own])))
    if each.kind == BOOLEAN:
        found[at, DATA] = bytes_by_runs(list(runs.bits(values)))
    elif each.kind == BYTE:
        found[at, DATA] = bytes_by_runs([value % 256 for value in values])
    elif each.kind in (LIST, MAP):
        found[at, LENGTH] = integers([len(value) for value in values], runs.UNSIGNED)
    elif each.kind == STRING and values and 2 * len(set(values)) <= len(values):
        return found, by_dictionary(at, found, [value.encode() for value in values], integers)
    elif each.kind in (STRING, BINARY):
        texts = [value.encode() if each.kind == STRING else value for value in values]
        found[at, DATA], found[at, LENGTH] = b"".join(texts), integers([len(text) for text in texts], runs.UNSIGNED)
    elif each.kind != STRUCT:
        found[at, DATA] = integers(values, runs.SIGNED)
    return found, None


def by_dictionary(at, found, texts, integers):
    """Puts the streams of a dictionary, whose entries stand in the order of their bytes."""
    entries = sorted(set(texts))
    found[at, DATA] = integers([entries.index(text) for text in texts], runs.UNSIGNED)
    found[at, LENGTH] = integers([len(entry) for entry in entries], runs.UNSIGNED)
    found[at, DICTIONARY_DATA] = b"".join(entries)
    return entries


def stripe_of(root, rows, version):
    """A stripe as it is written."""
    streams, dictionaries = {}, {}
    for at, (each, own) in enumerate(zip(root.columns(), cells(root, rows))):
        found, entries = streams_of(at, each, own, version)
        streams.update({name: stream if stream else None for name, stream in found.items()})
        if entries is not None:
            dictionaries[at] = entries
    return Stripe(rows, streams, dictionaries=dictionaries)


def written(root, rows, version, stride, stripe_rows):
    """The file of these rows."""
    parts = [rows[at : at + stripe_rows] for at in range(0, len(rows), stripe_rows)]
    stripes = [stripe_of(root, part, version) for part in parts]
    return File(root, stripes, (0, 11 if version == 1 else 12), stride=stride, writer=99, writer_version=6)


def word(text):
    """A schema's text as one word of a line: in quotes, as for a shell, if it has other signs than those of plain names."""
    return text if re.fullmatch("[A-Za-z0-9_<>:,]+", text, re.ASCII) else shlex.quote(text)


class Written:
    """The file that is written of a vector's rows, and the words that ask for it."""

    def __init__(self, vector):
        file, self.name = vector.file, f"written/{vector.name}"
        rows, version = file.rows(), file.runs
        stripe_rows = max([len(file.stripes[0].rows) if file.stripes else 1, 1])
        words = f"--schema {word(file.root.text())} --rle {version} --stride {file.stride} --stripe-rows {stripe_rows}"
        self.words, self.key = words, (words, vector.parts()[".json"])
        self.file = written(plain_types(file.root), rows, version, file.stride, stripe_rows)

    def parts(self):
        """The files, by what follows the name."""
        return {".orc": self.file.content, ".write": self.words + "\n"}


def plain_types(root):
    """The schema without fields of types that a text has no place for."""
    return type(root)(root.kind, root.names, [plain_types(child) for child in root.children])
