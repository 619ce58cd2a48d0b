"""What `check` has to find in a file, by the sentences of docs/FORMAT.md: of files whose streams are right."""
from .rows import LIST, MAP, cells
from .statistics import joined, of_cells
from .stripe import PRESENT, bytes_of


def agrees(kind, stored, meant):
    """Whether a statistic that is stored is that of the cells; parts of children may be missing."""
    if stored is None or (stored.count, stored.nulls) != (meant.count, meant.nulls):
        return False
    if kind in (LIST, MAP):
        return all(meant.parts.get(name) == part for name, part in stored.parts.items())
    return stored.parts == meant.parts


def known_of(kind, stored, meant):
    """The statistic of cells, without parts of children that the stored one doesn't have."""
    if kind not in (LIST, MAP) or not meant.count:
        return meant
    known = stored.parts if stored else {}
    return meant.but(**{name: None for name in meant.parts if name not in known})


def wrong_places(file):
    """The groups that have positions of a PRESENT without bytes: stripe, column and group."""
    return {
        (at, column, group)
        for at, stripe in enumerate(file.stripes)
        for column, kind in stripe.streams
        if kind == PRESENT and stripe.empty_present and not bytes_of(stripe.streams[column, kind])
        for group in range(-(-len(stripe.rows) // file.stride) if file.stride else 0)
    }


def of_groups(file, at, column, kind, wrong):
    """What is found in the row index of a column of a stripe."""
    stripe, found = file.stripes[at], []
    for group, row in enumerate(range(0, len(stripe.rows), file.stride)):
        meant = of_cells(kind, cells(file.root, stripe.rows[row : row + file.stride])[column])
        if not agrees(kind, stripe.entry_stats.get((column, group), meant), meant):
            found.append(f"IndexStatistic {at} {column} {group}")
        if (at, column, group) in wrong:
            found.append(f"IndexPosition {at} {column} {group}")
    return found


def findings_of(file):
    """What is found, in its order."""
    found, wrong, known = [], wrong_places(file), []
    for at, stripe in enumerate(file.stripes):
        meant = [of_cells(each.kind, own) for each, own in zip(file.columns, cells(file.root, stripe.rows))]
        stored = file.stripe_stats[at] if file.tells_stripes else [None] * len(meant)
        known.append([known_of(each.kind, *pair) for each, *pair in zip(file.columns, stored, meant)])
        for column, each in enumerate(file.columns):
            if not agrees(each.kind, stored[column], meant[column]):
                found.append(f"StripeStatistic {at} {column}")
            found += of_groups(file, at, column, each.kind, wrong) if file.stride else []
    for column, each in enumerate(file.columns):
        stored = file.file_stats[column] if column < len(file.file_stats) else None
        if not agrees(each.kind, stored, joined(each.kind, [stats[column] for stats in known])):
            found.append(f"FileStatistic {column}")
    return found
