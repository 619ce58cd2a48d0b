"""Which functions and constants a function's body names. It goes by names, and takes one more where it can't tell."""
import re

QUALIFIED = re.compile(r"\b(\w+)(?:::<[^;{}()]*?>)?::(\w+)\b(?!::)")
METHOD = re.compile(r"\.\s*(\w+)\s*(?:::<[^;{}]*?>)?\(")
FREE = re.compile(r"(?<![\w.:])([a-z_]\w*)\s*(?:::<[^;{}]*?>)?\(")
# a function handed on as a value
HANDED = re.compile(r"(?<=[(,])\s*([a-z_]\w*)\s*(?=[,)])")
CONSTANT = re.compile(r"\b([A-Z][A-Z0-9_]+)\b")
KEYWORDS = set("if while match for return loop in as let fn move self super crate".split())


class Calls:
    """Finds what bodies call among the functions of a crate and of the crates below it."""

    def __init__(self, functions, below):
        self.functions = functions
        # for each crate the crates below it
        self.below = below

    def near(self, crate):
        return [crate, *self.below[crate]]

    def called(self, place):
        """Returns the functions that a function's body may call."""
        found = {}
        for owner, name in set(QUALIFIED.findall(place.code)):
            found.update(self.keyed(self.of_owner(place, place.owner if owner == "Self" else owner, name)))
        for name in set(METHOD.findall(place.code)):
            found.update(self.keyed(it for it in self.all_named(place.crate, name) if it.owner))
        for name in set(FREE.findall(place.code) + HANDED.findall(place.code)) - KEYWORDS:
            found.update(self.keyed(self.free(place, name)))
        if "?" in place.code:
            found.update(self.keyed(self.conversions(place)))
        if place.trait():
            found.update(self.keyed(it for it in self.all_named(place.crate, place.name) if it.owner == place.trait()))
        found.pop((place.source.path, place.start), None)
        return [found[it] for it in sorted(found)]

    @staticmethod
    def keyed(places):
        return {(it.source.path, it.start): it for it in places}

    def all_named(self, crate, name):
        return [place for it in self.near(crate) for place in self.functions.named(it, name)]

    def of_owner(self, place, owner, name):
        """Returns the functions that `owner::name` may stand for: of a type or a trait, of a crate or a module, or of any type."""
        named = self.all_named(place.crate, name)
        if owner in self.below or re.match("[a-z]", owner):
            return [it for it in named if not it.owner]
        own = [it for it in named if it.owner == owner or it.trait() == owner]
        # (a parameter's name stands for any type)
        return own if own or len(owner) > 2 else [it for it in named if it.owner]

    def free(self, place, name):
        """Returns the functions that a bare name may stand for."""
        crate, own = place.source.types.get(name, (place.crate, name))
        if crate in self.below[place.crate]:
            # (a crate may hand on what a crate below it has)
            crates = [crate, *self.below[crate]]
        else:
            crates = [place.crate]
        return [it for crate in crates for it in self.functions.named(crate, own) if not it.owner]

    def conversions(self, place):
        """Returns the conversions that a `?` may call: those to a type that the function's signature names."""
        words = set(re.findall(r"\w+", f"{place.head} {place.function.signature}"))
        return [it for it in self.all_named(place.crate, "from") if it.owner in words]

    def constants(self, place):
        """Returns the texts of the constants that a body names, each with its crate."""
        names = set(CONSTANT.findall(place.code))
        found = {(it, text) for it in self.near(place.crate) for name in names for text in self.functions.constant(it, name)}
        return sorted(found)
