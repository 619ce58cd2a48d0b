"""The words of a definition or a clause that nothing in it binds: what it cites."""
import re

from .specs import SIGNATURE
from .texts import TOKEN

CLOSES = {"(": ")", "[": "]", "{": "}"}
# words of the language
WORDS = set("record elim as in let where Type abbrev pub data mutual module unfoldable with".split())


class Names:
    """Walks over a text, and keeps the words that are bound nowhere in it."""

    def __init__(self, is_pattern):
        self.is_pattern = is_pattern
        self.free = []
        self.bound = [set()]

    def walk(self, tokens):
        at = 0
        while at < len(tokens):
            at = self.step(tokens, at)

    def is_bound(self, name):
        return any(name in it for it in self.bound)

    def word(self, token):
        if token[0] not in '."0123456789' and not self.is_bound(token.split(".")[0]):
            self.free.append(token)

    def step(self, tokens, at):
        """Takes the token at a place, and answers the place of the next one."""
        token = tokens[at]
        if token in CLOSES:
            return self.group(tokens, at)
        if token[0] == "λ":
            return self.binder(tokens, at)
        if token in (";", ",", "|"):
            # what stood in front of it has no part in what comes
            self.bound[-1] = set()
        elif token == "let":
            self.bound[-1].add(tokens[at + 1])
            return at + 2
        elif token not in WORDS:
            self.word(token)
        return at + 1

    def group(self, tokens, at):
        end = closing(tokens, at)
        inner = tokens[at + 1 : end]
        binds = bound_by(inner)
        self.bound.append(set())
        if binds:
            self.walk(inner[len(binds) + 1 :])
        elif tokens[at] == "[" and "↦" in inner:
            for case in parts(inner, "|"):
                self.case(case)
        elif tokens[at] == "{":
            # fields of a record, or an argument by its name
            for field in parts(inner, ";"):
                self.bound[-1] = set()
                self.walk(field[2:] if field[1:2] == ["="] else field)
        else:
            self.walk(inner)
        self.bound.pop()
        self.bound[-1].update(binds)
        return end + 1

    def case(self, tokens):
        at = tokens.index("↦") if "↦" in tokens else 0
        self.bound[-1] = set()
        self.pattern(tokens[:at])
        self.walk(tokens[at + 1 :])

    def pattern(self, tokens):
        for it in tokens:
            if it in CLOSES or it in CLOSES.values() or it in ("_", "=", ",", ";"):
                continue
            if self.is_pattern(it):
                self.word(it)
            else:
                self.bound[-1].add(it)

    def binder(self, tokens, at):
        """Takes the arguments of a λ."""
        rest = tokens[at][1:]
        tokens = tokens[: at + 1] + ([rest] if rest else []) + tokens[at + 1 :]
        shift = 1 if rest else 0
        at += 1
        while at < len(tokens):
            token = tokens[at]
            if token in CLOSES:
                end = closing(tokens, at)
                inner = tokens[at + 1 : end]
                binds = bound_by(inner)
                self.walk(inner[len(binds) + 1 :] if binds else [])
                self.bound[-1].update(binds or inner)
                at = end + 1
                continue
            name, dot, _ = token.partition(".")
            self.bound[-1].add(name)
            at += 1
            if dot:
                break
        return at - shift


def closing(tokens, at):
    depth = 0
    for place in range(at, len(tokens)):
        if tokens[place] in CLOSES:
            depth += 1
        elif tokens[place] in CLOSES.values():
            depth -= 1
            if not depth:
                return place
    return len(tokens) - 1


def parts(tokens, mark):
    """Returns the tokens between the marks that stand in no bracket."""
    found, depth = [[]], 0
    for it in tokens:
        depth += (it in CLOSES) - (it in CLOSES.values())
        if it == mark and not depth:
            found.append([])
        else:
            found[-1].append(it)
    return found


def bound_by(inner):
    """Returns the names that a bracket with these tokens binds: those before a colon."""
    if ":" not in inner:
        return []
    names = inner[: inner.index(":")]
    return names if all(it not in CLOSES and it not in ("λ", "let", "record") and it[0] != "." for it in names) else []


def free_names(item, is_pattern):
    """Returns the words of an item that nothing in it binds."""
    # (what the header of a module cites counts for the item, and what it binds is bound in it)
    outer = Names(is_pattern)
    outer.walk(TOKEN.findall(re.sub(r"^module \S+|\bwhere$", "", "\n".join(line for _, line in item.header), flags=re.M)))
    for piece in pieces(item):
        walk = Names(is_pattern)
        walk.bound = [set(it) for it in outer.bound] + [set(piece[1])]
        if piece[0] == "equation":
            left, right = equation(TOKEN.findall(piece[2]))
            walk.pattern([it for it in left if it != item.name])
            walk.walk(right)
        else:
            walk.walk(TOKEN.findall(piece[2]))
        outer.free += walk.free
    return outer.free


def equation(tokens):
    depth = 0
    for at, it in enumerate(tokens):
        depth += (it in CLOSES) - (it in CLOSES.values())
        if it == "=" and not depth:
            return tokens[:at], tokens[at + 1 :]
    return [], tokens


def pieces(item):
    """Returns an item's signature, header, fields, constructors and equations, each with the names that are bound in it."""
    lines = sorted(item.lines.items())
    if item.kind == "signature":
        texts = [[line for at, line in lines if start <= at < end] for start, end in zip(item.starts, item.starts[1:] + [10**9])]
        # (a signature's own name stands before the colon, and an equation is told by having none there)
        whole = ["\n".join(it) for it in texts]
        return [("signature", [], SIGNATURE.sub("", whole[0], count=1))] + [("equation", [], it) for it in whole[1:]]
    text = "\n".join(line for _, line in lines)
    head, _, body = text.partition("where\n")
    head = re.sub(r"^(?:pub )?(?:record|data) \S+", "", head)
    params = Names(lambda it: False)
    params.walk(TOKEN.findall(head.replace(" where", "")))
    bound = set().union(*params.bound)
    found = [("header", [], head.replace(" where", ""))]
    # (a record in a field ends with a brace of its own)
    for field in re.split(r"\n(?=  [^\s}])", "\n" + body):
        name = re.match(r"\s*(?:pub )?(\S+) :", field)
        found.append(("field", set(bound), re.sub(r"^\s*(?:pub )?\S+ :", "", field)))
        if name and item.kind == "record":
            bound.add(name[1])
    return found
