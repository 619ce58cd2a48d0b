"""All definitions and types, and which rest on which."""
import os
import re

from .sources import Source, block_end, contract, functions, impls_of, rust_files
from .specs import Definitions, Item
from .texts import ROOT, TOKEN, crates
from .words import Names, free_names

# what the language has without a `use`
BUILT_IN = set("→ × : = _ ⊥ ⊤ Unit tt absurd omega zero Ok Err Some None".split())
# what a pattern may name of the kit
KIT_PATTERNS = set("zero suc [] ∷ true false None Some Ok Err inl inr tt pos negsuc null".split())
RUST_TYPE = r"(?:pub(?:\(crate\))? )?(struct|enum|trait|type) {}\b"


class Tree:
    """The repository's definitions and sources, read as they are asked for."""

    def __init__(self):
        self.crates = crates()
        self.files = {}
        self.sources = {}
        self.contracts = {}
        self.declared = {}
        self.said = {}
        self.kit = set()
        self.laws = set()
        # words that stand for nothing that was found
        self.unknown = set()

    def definitions(self, path):
        if path not in self.files:
            self.files[path] = Definitions(path)
        return self.files[path]

    def source(self, path):
        if path not in self.sources:
            self.sources[path] = Source(path)
        return self.sources[path]

    def functions(self, crate):
        """Returns a crate's functions that have clauses."""
        if crate not in self.contracts:
            self.contracts[crate] = [it for path in rust_files(crate) for it in functions(self.source(path))]
        return self.contracts[crate]

    def find(self, module, name):
        """Returns what a name of a module stands for: an item, a type of Rust, or nothing where it is the kit's or a proof's."""
        crate, _, rest = module.partition(".")
        if crate not in self.crates:
            self.kit.add(f"{module}.{name}")
            return None
        if rest.startswith("proofs"):
            return None
        if rest.startswith("specs.declared"):
            # (the last part of a module that begins with `The` stands for its variants, or for its parts)
            found = self.rust_type(crate, [it for it in rest.split(".")[2:] if not it.startswith("The")][-1])
        else:
            file = self.module(crate, rest)
            found = file and (file.items.get(name) or file.constructors.get(name))
        if not found:
            self.unknown.add(f"{module}.{name}")
        return found

    def module(self, crate, rest):
        """Returns a crate's file of definitions by the name of its module, and nothing where there is none."""
        path = f"crates/{crate}/{rest.replace('.', '/')}.antt"
        return self.definitions(path) if os.path.isfile(f"{ROOT}/{path}") else None

    def look(self, names, file, word):
        """Returns what a word stands for, by the names that a file brings and those that stand in it: items, one or two."""
        head, *more = word.split(".")
        found = []
        if file and head in file.items:
            found.append(file.items[head])
        elif file and head in file.constructors:
            found.append(file.constructors[head])
        elif head in names:
            module, name = names[head]
            found.append(self.find(module, name or (more[0] if more else "")))
        others = operators(names, file)
        for name, (module, own) in others.get(head, []):
            found.append(file.items[name] if module is None else self.find(module, own))
        # (what a type has of a trait stands between these brackets, and the signature names both)
        if not found and head not in others and head not in BUILT_IN and not re.search("[⟦⟧]", head):
            self.unknown.add(head)
        return [it for it in found if it]

    def is_pattern(self, names, file):
        """Returns the test of a word in a pattern: whether it is a constructor, and no name that the pattern binds."""

        def test(word):
            head = word.split(".")[0]
            if word in KIT_PATTERNS or head in file.constructors:
                return True
            if head not in names:
                return "." in word
            module, name = names[head]
            if ".declared." in module or name is None:
                return True
            crate, _, rest = module.partition(".")
            if crate not in self.crates:
                return word in KIT_PATTERNS
            below = self.module(crate, rest)
            return below is not None and name in below.constructors

        return test

    def of_crate(self, crate):
        """Returns the items of a crate's specs/."""
        folder = f"crates/{crate}/specs"
        names = sorted(os.listdir(f"{ROOT}/{folder}")) if os.path.isdir(f"{ROOT}/{folder}") else []
        return [it for name in names if name.endswith(".antt") for it in self.definitions(f"{folder}/{name}").items.values()]

    def cited(self, item):
        """Returns the items that an item cites."""
        if item.cites is None:
            item.cites = set()
            file = self.definitions(item.path)
            for word in free_names(item, self.is_pattern(file.names, file)):
                item.cites.update(self.look(file.names, file, word))
            item.cites.discard(item)
        return item.cites

    def rust_type(self, crate, name):
        """Returns a type of a crate's sources as an item, and nothing where the crate has none of that name."""
        key = (crate, name)
        if key not in self.declared:
            self.declared[key] = None
            for path in rust_files(crate):
                source = self.source(path)
                found = re.search("^" + RUST_TYPE.format(name), source.text, re.M)
                if found:
                    self.declared[key] = self.declare(source, name, found)
                    break
        return self.declared[key]

    def declare(self, source, name, found):
        """Makes an item of the type that begins at a place of a source: its lines, and what it cites as contracts see it."""
        item = Item(source.path, name, False)
        item.is_trait = found[1] == "trait"
        self.declared[(source.crate, name)] = item
        text = source.text
        model = re.search(rf"^impl\b[^{{]*\bModel for {name}\b[^{{]*\{{", text, re.M)
        value = model and re.compile(r"ghost Value = \{").search(text, model.end())
        start = value.start() if value else found.start()
        stop = re.compile(r"[{;]").search(text, start)
        end = block_end(text, stop.start()) if stop[0] == "{" else stop.end()
        part = without_bodies(text[start:end])
        first = text.count("\n", 0, start) + 1
        item.within = value and lines_between(text, model.start(), model.end())
        for at, line in enumerate(part.split("\n"), first):
            if line.strip():
                item.lines[at] = line
        item.cites = self.named_in(source, part) - {item}
        return item

    def named_in(self, source, text):
        """Returns the items that a Rust text names: its types, and what its ghost text cites."""
        found = set()
        for word in re.findall(r"\b[A-Z]\w*\b", text):
            found.update(self.rust_name(source, word))
        bound = set(re.findall(r"\w+", text)) - set(source.names)
        for it in re.finditer(r"(?:ghost \w+\s*[:=]|(?:ensures|requires)\s*\w*)\s*\{", text):
            ghost = text[it.end() : block_end(text, it.end() - 1) - 1]
            found.update(self.ghost_names(source, ghost, bound))
        return found

    def rust_name(self, source, word):
        """Returns the type of this repository that a word of a Rust text names, in a list."""
        if re.search("^" + RUST_TYPE.format(word), source.text, re.M):
            found = self.rust_type(source.crate, word)
        elif word in source.types:
            crate, name = source.types[word]
            crate = source.crate if crate in ("crate", "super", "self") else crate
            found = self.rust_type(crate, name) if crate in self.crates else None
            found = found or self.handed_on(crate, name)
        else:
            found = None
        return [found] if found else []

    def handed_on(self, crate, name):
        """Returns a type that a crate hands on from one below it, which may hand it on, too."""
        if crate not in self.crates:
            return None
        for path in rust_files(crate):
            below, own = self.source(path).types.get(name, (None, None))
            if below in self.crates and below != crate:
                return self.rust_type(below, own) or self.handed_on(below, own)
        return None

    def ghost_names(self, source, text, bound=()):
        walk = Names(lambda it: it in KIT_PATTERNS)
        walk.bound = [set(bound)]
        walk.walk(TOKEN.findall(text))
        found = set()
        for word in walk.free:
            # (a type of Rust may stand there by its own name, as in `MergeFault.Limit`)
            head = word.split(".")[0]
            is_rust = re.fullmatch(r"[A-Z]\w*", head) and head not in source.names
            found.update(is_rust and self.rust_name(source, head) or self.look(source.names, None, word))
        return found

    def clause_names(self, function, names):
        """Returns the items that these clauses of a function cite, with the types of its signature."""
        source = function.source
        whole = f"{function.owner[1]} {function.signature}"
        found = self.named_in(source, whole)
        # (a trait's own words are bound in its contracts, and the trait is among what is named)
        bound = set(re.findall(r"\w+", whole)) | set(re.findall(r"\bghost (\w+)", source.text)) | {"result"}
        for it in names:
            found.update(self.ghost_names(source, function.clauses[it], bound - set(source.names)))
        below = self.closure(found)
        text = "\n".join([*(function.clauses[it] for it in names), *(ghost_text(it) for it in below if not it.is_trait)])
        return found | self.words_in(text, below)

    def words_in(self, text, items):
        """Returns what each `impl` outside of tests says of the ghost words of traits among these items that a ghost text names."""
        named, found = set(re.findall(r"\w+", text)), set()
        for trait in [it for it in items if it.is_trait]:
            words = named & set(re.findall(r"\bghost (\w+)\s*:", "\n".join(trait.lines.values())))
            for crate in [it for it in self.crates if words and not re.search("_tests$|^orc_test_", it)]:
                for path in rust_files(crate):
                    for owner, start, end in impls_of(trait.name, self.source(path).text):
                        found.update(self.say(path, owner, start, end, words))
        return found

    def say(self, path, owner, start, end, words):
        """Yields what the `impl` that stands there says of these words, each as an item."""
        source = self.source(path)
        for it in re.finditer(r"\bghost (\w+)\s*=\s*\{", source.text[start:end]):
            if it[1] not in words:
                continue
            key = (path, start, it[1])
            if key not in self.said:
                at, stop = start + it.start(), block_end(source.text, start + it.end() - 1)
                item = self.said[key] = Item(path, f"{owner}.{it[1]}", False)
                item.lines = dict(enumerate(source.text[at:stop].split("\n"), source.text.count("\n", 0, at) + 1))
                item.within = lines_between(source.text, start, source.text.index("{", start))
                head = set(re.findall(r"\w+", source.text[start : source.text.index("{", start)])) - set(source.names)
                item.cites = self.ghost_names(source, source.text[start + it.end() : stop - 1], head) - {item}
            yield self.said[key]

    def closure(self, items):
        """Returns these items and all that they rest on. Laws are kept apart and not followed."""
        found, waiting = set(), list(items)
        while waiting:
            it = waiting.pop()
            if it.is_law:
                self.laws.add(it)
            elif it not in found:
                found.add(it)
                waiting += self.cited(it)
        return found


def lines_between(text, start, end):
    """Returns the numbers of the lines of a text in which two places stand."""
    return text.count("\n", 0, start) + 1, text.count("\n", 0, end) + 1


def ghost_text(item):
    """Returns what stands in the ghost fields of a type of Rust."""
    text = "\n".join(item.lines.values())
    return "\n".join(text[it.end() : block_end(text, it.end() - 1)] for it in re.finditer(r"\bghost \w+\s*[:=]\s*\{", text))


def operators(names, file):
    """Returns the words that stand for operators, each with their names and where they come from."""
    found = {}
    local = {it: (None, None) for it in file.items} if file else {}
    for name, place in {**names, **local}.items():
        if "◌" in name:
            for word in name.split("◌"):
                if word:
                    found.setdefault(word, []).append((name, place))
            found.setdefault(name, [])
    return found


def without_bodies(text):
    """Returns a trait's text of which bodies are blank, and functions that are the trait's alone; another type's as it is."""
    for found in reversed(list(re.finditer(r"^[ ]*(final )?fn ", text, re.M))):
        start = contract(text, found.start())[2]
        if re.match(r"\s*\{", text[start:]):
            end = block_end(text, text.index("{", start))
            start = found.start() if found[1] else start
            text = text[:start] + re.sub(r"[^\n]", " ", text[start:end]) + text[end:]
    return text


def functions_of(tree, crate, owner, name):
    """Returns a crate's functions of this name that have clauses, those of one type alone where it is named."""
    return [it for it in tree.functions(crate) if it.name == name and owner in ("", it.owner[0])]


def cited_by(tree, word):
    """Returns the items that a word of the command cites, or is, and else nothing and why not."""
    path, _, clause = word.partition(".")
    crate, *owner, name = path.split("::")
    if crate not in tree.crates or not name:
        return None, f"{word}: no crate of crates.txt is named {crate}"
    found = functions_of(tree, crate, owner[-1] if owner else "", name)
    if not found:
        items = [it for it in tree.of_crate(crate) if it.name == name and not it.is_law and not owner and not clause]
        return (items, None) if items else (None, f"{word}: {crate} has no such function with clauses, and no such definition")
    free = [it for it in found if not it.owner[0]]
    if len(found) > 1 and len(free) == 1:
        found = free
    if len(found) > 1:
        places = ", ".join(f"{crate}::{it.owner[0]}::{name}" if it.owner[0] else it.source.path for it in found)
        return None, f"{word}: there are several: {places}"
    if clause and clause not in found[0].clauses:
        return None, f"{word}: its clauses are {', '.join(found[0].clauses)}"
    return tree.clause_names(found[0], [clause] if clause else list(found[0].clauses)), None


def rests_on(tree, words):
    """Returns what these words' clauses rest on, and why not where one isn't there."""
    items = set()
    for word in words:
        found, why = cited_by(tree, word)
        if why:
            return set(), why
        items.update(found)
    return tree.closure(items), None


def by_file(items):
    """Returns the files of items without `crates/`, each with its items in their order."""
    found = {}
    for it in sorted(items):
        found.setdefault(it.path[len("crates/") :], []).append(it)
    return found


def lines_of(items):
    return len({(it.path, at) for it in items for at in [*it.lines, *dict(it.header)]})


def counted(items):
    words = (("definition", len(items)), ("line", lines_of(items)), ("file", len(by_file(items))))
    return ", ".join(f"{number:,} {word}{'' if number == 1 else 's'}" for word, number in words)
