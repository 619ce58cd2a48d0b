"""All vectors, and the files that they are."""
from . import (
    classes,
    of_columns,
    of_entries,
    of_indexes,
    of_integers,
    of_integers_2,
    of_layouts,
    of_merges,
    of_nested,
    of_order,
    of_refused_merges,
    of_sought,
    of_statistics,
    of_stripes,
    of_tails,
    of_types,
    of_writing,
    published,
)
from .page import page
from .rows import tools_lines
from .rules import RULES
from .written import Written

TABLES = [
    of_integers,
    of_integers_2,
    of_columns,
    of_nested,
    of_stripes,
    of_indexes,
    of_sought,
    of_entries,
    of_statistics,
    of_tails,
    of_types,
    of_order,
    of_merges,
    of_refused_merges,
    of_writing,
    of_layouts,
]


def vectors():
    """All vectors, folder by folder."""
    found = [vector for table in TABLES for vector in table.vectors()]
    names = [vector.name for vector in found]
    assert len(set(names)) == len(names), sorted(name for name in set(names) if names.count(name) > 1)
    for vector in found:
        unknown = [rule for rule in vector.rules if rule not in RULES]
        assert not unknown, f"{vector.name}: {unknown}"
    return found


def written(vectors):
    """What is written of the rows of vectors, of equal ones once."""
    found = {}
    for vector in vectors:
        if vector.written and not vector.fault and vector.file.root.can_be_said():
            each = Written(vector)
            found.setdefault(each.key, each)
    return list(found.values())


def files():
    """What stands in vectors/: names, and bytes."""
    published.test()
    all_of_them = vectors()
    classes.test(all_of_them)
    again = written(all_of_them)
    found = {"README.md": page(all_of_them, again), "CLASSES": classes.text(all_of_them, again)}
    found["LEFT-OUT"] = classes.left_out_text(all_of_them + again)
    for vector in all_of_them + again:
        found |= {vector.name + end: content for end, content in vector.parts().items()}
    for vector in all_of_them:
        if not vector.fault and classes.class_of(vector) == "must":
            found[vector.name + ".tools.json"] = tools_lines(vector.file.root, vector.file.rows())
    return {name: content.encode() if isinstance(content, str) else content for name, content in found.items()}
