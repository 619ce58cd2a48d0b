"""The text of definitions as a page quotes them: as it stands in its file, with its comments, and without proofs."""
import re

from .laws import without_laws


def with_comment(lines, at):
    """Returns the place of the first of the comment lines above a line, or the line's where it has none."""
    while at > 1 and re.match(r"\s*(--|//|infix|#\[)", lines[at - 2]):
        at -= 1
    return at


def head_of(lines):
    """Returns the comment that a file of definitions begins with."""
    end = next((at for at, line in enumerate(lines) if not line.startswith("--")), len(lines))
    return lines[:end]


def quote(tree, items):
    """Returns the text of items of one file, in this order."""
    path = items[0].path
    if path.endswith(".rt"):
        lines, heads = tree.source(path).whole.split("\n"), [None, *(it.within for it in items)]
        return "\n\n".join("\n".join(rust_lines(lines, it, it.within != head)) for it, head in zip(items, heads)) + "\n"
    lines = tree.definitions(path).lines
    blocks, before = ["\n".join(head_of(lines))], None
    for it in items:
        text = lines[with_comment(lines, min(it.lines)) - 1 : max(it.lines)]
        text = without_laws(tree, it, text)
        if it.within and it.within != before:
            first, last = it.within
            text = lines[with_comment(lines, first) - 1 : last] + text
        blocks.append("\n".join(text))
        before = it.within
    return "\n\n".join(it for it in blocks if it) + "\n"


def rust_lines(lines, item, with_head):
    """Returns a type of Rust as contracts see it: its lines with the comments above each, and the head of what it stands within."""
    found = list(range(item.within[0], item.within[1] + 1)) if item.within and with_head else []
    for at in sorted(item.lines):
        if item.lines[at].strip():
            found += [it for it in range(with_comment(lines, at), at + 1) if it not in found]
    return [lines[at - 1] for at in found if not re.match(r"\s*#\[", lines[at - 1])]
