"""Records that carry laws: which of their fields are laws, so that a page can leave them and their proofs out."""
import re

from .texts import TOKEN

FIELD = re.compile(r"^(\s*)(?:pub )?(\w+) [:=](?=\s|$)")


def fields_of(lines, indent):
    """Returns the fields that begin with this indent in these lines, each with the numbers of its lines."""
    found, last = {}, None
    for at, line in enumerate(lines):
        field = FIELD.match(line)
        if field and len(field[1]) == indent:
            last = found[field[2]] = []
        if last is not None and line.strip() and len(line) - len(line.lstrip()) >= indent:
            last.append(at)
    return found


def laws_of(item):
    """Returns the fields of a record, and those of them that are laws: what they say of its other fields is proved for each value.

    Only a record that is a structure has such: one of `Type 1`, or one whose parameters are types alone. In any other record each
    field is part of what it says."""
    lines = [line for _, line in sorted(item.lines.items())]
    head = " ".join(lines).partition(" where")[0]
    params = re.findall(r"[({]([^(){}:]+) : ([^(){}\s]*)", head)
    values = {name for names, kind in params if not kind.startswith("Type") for name in names.split()}
    if not (head.endswith("Type 1") or not values):
        return set(), set()
    start = next(at for at, line in enumerate(lines) if "where" in line) + 1
    indent = len(lines[0]) - len(lines[0].lstrip()) + 2
    body, seen, laws = lines[start:], set(values), []
    fields = fields_of(body, indent)
    for name, places in fields.items():
        words = {it.split(".")[0] for it in TOKEN.findall(" ".join(body[at] for at in places).partition(" : ")[2])}
        if words & seen:
            laws.append(name)
        seen.add(name)
    return set(fields), set(laws)


def structures(tree):
    """Yields the fields and the laws of each record with laws among the files that were read."""
    for file in list(tree.files.values()):
        for it in file.items.values():
            if it.kind == "record":
                fields, laws = laws_of(it)
                if laws:
                    yield fields, laws


def without_laws(tree, item, text):
    """Returns the lines of a definition without the laws that its record has, or the proofs that its value gives for them."""
    if item.kind == "record":
        fields, laws = laws_of(item)
        start = next(at for at, line in enumerate(text) if "where" in line and not line.lstrip().startswith("--")) + 1
        indent = len(text[start]) - len(text[start].lstrip())
        return text[:start] + left_out(text[start:], indent, laws, "laws") if laws else text
    for at, line in enumerate(text):
        if line.endswith("= record {"):
            indent = len(line) - len(line.lstrip())
            end = next(it for it in range(at, len(text)) if text[it] == " " * indent + "}")
            names = set(fields_of(text[at + 1 : end], indent + 2))
            laws = next((laws for fields, laws in structures(tree) if fields == names), None)
            if laws:
                return text[: at + 1] + left_out(text[at + 1 : end], indent + 2, laws, "proofs") + text[end:]
    return text


def left_out(body, indent, laws, word):
    """Returns lines of fields without those of laws, which are named in a comment."""
    fields = fields_of(body, indent)
    gone = {at for name in laws for at in fields[name]}
    named = ", ".join(it for it in fields if it in laws)
    return [line for at, line in enumerate(body) if at not in gone] + [f"{' ' * indent}-- {word}: {named}"]
