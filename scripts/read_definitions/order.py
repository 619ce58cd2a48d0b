"""The order in which a page quotes: from the outside in, a definition before what it rests on."""
from .tree import cited_by


def outside_in(nodes, cites, first=()):
    """Returns nodes in an order in which each stands before those that it cites, unless they cite each other, and these first if
    nothing cites them."""
    found, seen = [], set()

    def visit(node):
        if node in seen:
            return
        seen.add(node)
        for it in reversed(sorted(it for it in cites(node) if it in nodes)):
            visit(it)
        found.append(node)

    for node in [*(it for it in sorted(nodes) if it not in first), *reversed(first)]:
        visit(node)
    return found[::-1]


def by_place(tree, items, clauses):
    """Returns items by their files, both from the outside in, as pairs: what these clauses cite comes first."""
    files = {}
    for it in items:
        files.setdefault(it.path, set()).add(it)

    def below(path):
        return {it.path for item in files[path] for it in tree.cited(item) if it in items} - {path}

    cited = [it for word in clauses for it in sorted(cited_by(tree, word)[0] or ())]
    first = list(dict.fromkeys(it.path for it in cited if it in items))
    return [(path, outside_in(files[path], tree.cited)) for path in outside_in(set(files), below, first)]
