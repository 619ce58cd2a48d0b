#!/usr/bin/env python3
"""usage: build_static.py CRATE FILE

Proves and builds a crate that is a static library, over the libraries that `rt ci` left in this tree, and puts the archive into
FILE. `rt lib` would prove these libraries once more, one after the other. Says why if they can't be used, with status 3.
"""
import pathlib
import subprocess
import sys

sys.dont_write_bytecode = True
sys.path.insert(0, str(pathlib.Path(__file__).resolve().parent.parent))
from read_definitions.texts import ROOT  # noqa: E402
from wrong_bodies.checks import LibraryChecker  # noqa: E402


def words_of(crate, file):
    """Returns the command that builds the crate, or why there is none."""
    checker = LibraryChecker()
    words, why = checker.words(crate)
    if words is None:
        return None, why
    at = words.index("--links")
    words = [it for it in [words[0], "build", *words[2:at], *words[at + 2 :]] if it != "--progress"]
    return [*words, "--toolchain", f"{checker.kit}/toolchain", "--crate-type", "staticlib", "-o", file], None


def main(crate, file):
    """Builds the crate, and returns the exit status."""
    words, why = words_of(crate, str(pathlib.Path(file).resolve()))
    if words is None:
        print(why)
        return 3
    (pathlib.Path(ROOT) / "crates" / crate / "out").mkdir(exist_ok=True)
    return 1 if subprocess.run(words, cwd=f"{ROOT}/crates/{crate}").returncode else 0


if __name__ == "__main__":
    if len(sys.argv) != 3:
        print(__doc__, end="", file=sys.stderr)
        sys.exit(2)
    sys.exit(main(*sys.argv[1:]))
