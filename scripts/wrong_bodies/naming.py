"""What the check calls a function: by its crate, the modules down to its type, the type with the trait, and its name."""
import re

from read_definitions.sources import rust_files


def modules_of(path):
    """Returns the modules that a file is, from its crate."""
    parts = path.split("/src/")[1][: -len(".rt")].split("/")
    return [it for it in parts if it not in ("lib", "main", "mod")]


def head_words(head):
    """Returns the type of an `impl` or a trait, and behind it the trait of which it is an `impl`."""
    trait = re.search(r"\btrait (\w+)", head)
    if trait:
        return [trait[1]]
    rest = behind_generics(head.partition("impl")[2])
    first, of, second = rest.partition(" for ")
    kind, trait = (second, first) if of else (first, "")
    kind = re.sub(r"&\s*(?:'\w+\s*)?mut\b", "RefMut ", kind.partition("<")[0] + inner(kind))
    generic = re.findall(r"(?:<|,)\s*(\w+)\b", head.partition("impl")[2]) if head.partition("impl")[2].startswith("<") else []
    words = re.findall(r"\b[A-Z]\w*", f"{kind} {trait.partition('<')[0]}")
    return [it for it in words if it == words[0] or it not in generic]


def inner(kind):
    """Returns the arguments of a type that are numbers, as the check writes them."""
    return "".join(f" {it.capitalize()}" for it in re.findall(r"\b[ui]\d+\b", kind.partition("<")[2]))


def behind_generics(text):
    """Returns the text behind the brackets that an `impl` begins with."""
    depth = 0
    for at, letter in enumerate(text):
        depth += (letter == "<") - (letter == ">" and text[at - 1] != "-")
        if not depth and letter != "<" and (letter == ">" or at == 0):
            return text[at + 1 :] if letter == ">" else text
    return text


def check_name(place, tree):
    """Returns what the check calls a function, as far as its text says."""
    words = head_words(place.head) if place.head else []
    modules = modules_of(place.source.path)
    if words:
        declared = re.compile(rf"^(?:pub(?:\(crate\))? )?(?:struct|enum|trait|type) {words[0]}\b", re.M)
        # (a method is called by the module of its type, wherever the `impl` stands)
        homes = [it for it in rust_files(place.crate) if declared.search(tree.source(it).text)]
        modules = modules_of(homes[0]) if homes and place.source.path not in homes else modules
    return "::".join([place.crate, *modules, *(["".join(words)] if words else []), place.name])


def known_name(place, tree, known):
    """Returns what the check calls a function: of the names that it printed before, if one of them fits alone, else as the text says."""
    own = check_name(place, tree)
    if own in known:
        return own
    words = head_words(place.head) if place.head else []
    kind = rf"{words[0]}\w*::" if words and words[0] != "RefMut" else "(?:[A-Z]\\w*::)?"
    fits = re.compile(rf"{place.crate}::(?:[a-z_]\w*::)*{kind}{place.name}")
    found = [it for it in dict.fromkeys(known) if fits.fullmatch(it)]
    return found[0] if len(found) == 1 else own
