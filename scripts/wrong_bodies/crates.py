"""The repository's crates: what each line of crates.txt names, and which crates stand below which."""
import os

from read_definitions.texts import ROOT


def lines_of_crates():
    """Returns each crate of the repository with all libraries that its line in crates.txt has."""
    named = {}
    with open(f"{ROOT}/crates.txt", encoding="utf-8") as file:
        for line in file:
            name, colon, below = line.partition("#")[0].partition(":")
            if colon:
                named[name.split()[0]] = below.split()
    return named


def libraries():
    """Returns each crate of the repository with the crates of the repository that it names."""
    named = lines_of_crates()
    return {name: [it for it in below if it in named] for name, below in named.items()}


def all_below(name, named):
    """Returns the crates of the repository that a crate rests on."""
    found = set()
    waiting = list(named[name])
    while waiting:
        it = waiting.pop()
        if it not in found:
            found.add(it)
            waiting += named[it]
    return sorted(found)


def files_below(folder):
    """Yields the files of a folder and of the folders in it, in order."""
    for at, folders, files in os.walk(folder):
        folders.sort()
        for name in sorted(files):
            yield f"{at}/{name}"
