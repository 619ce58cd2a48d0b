#!/usr/bin/env python3
"""usage: vectors.py c CALLER
       vectors.py python PROGRAM

Compares what the library for C answers over vectors/ with the files that stand there, as scripts/try-vectors does for the
program. With c it calls CALLER, which takes the program's words. With python it calls the module in python/orcm, whose library
ORCM_LIBRARY names, and compares each answer also with that of PROGRAM. A refusal of rows has no lines before it. Prints
each answer that differs, and last 'N passed, M failed'.
"""
import importlib.machinery
import importlib.util
import pathlib
import subprocess
import sys

sys.dont_write_bytecode = True
ROOT = pathlib.Path(__file__).resolve().parent.parent.parent
sys.path[:0] = [str(ROOT / "python"), str(ROOT / "scripts")]


def load(path):
    """A script as a module."""
    loader = importlib.machinery.SourceFileLoader(path.name.replace("-", "_"), str(path))
    module = importlib.util.module_from_spec(importlib.util.spec_from_loader(loader.name, loader))
    loader.exec_module(module)
    return module


vectors = load(ROOT / "scripts" / "try-vectors")
from common.room import room  # noqa: E402


def without_lines(answer):
    """An answer of the program as the library gives it: with a refusal come no lines."""
    status, printed, told = answer
    return (status, b"" if status == 1 else printed, told)


class ByC(vectors.Tries):
    """Answers of a C program, which takes the program's words."""

    def answers(self, wanted, *words):
        super().answers(without_lines(wanted), *words)


class ByPython(ByC):
    """Answers of the module, beside those of the program."""

    def run(self, *words, little=False):
        answer = self.call(*map(str, words))
        self.judge(f"{' '.join(map(str, words))} of the program", self.by_program(*map(str, words)), (answer, self.made(words)))
        return answer

    @staticmethod
    def call(name, *words):
        """What the module answers, as the program would."""
        import orcm

        try:
            if name == "merge":
                pathlib.Path(words[0]).write_bytes(orcm.merge(words[1:]))
                return 0, b"", b""
            if name == "write":
                options = dict(zip(words[0:-2:2], words[1:-2:2]))
                numbers = (int(options[f"--{name}"]) for name in ("rle", "stride", "stripe-rows"))
                pathlib.Path(words[-1]).write_bytes(orcm.write(options["--schema"], *numbers, words[-2]))
                return 0, b"", b""
            if name == "rows":
                printed = orcm.rows(words[-1], words[1] if len(words) > 1 else None)
            else:
                printed = getattr(orcm, name)(words[-1])
        except orcm.Fault as fault:
            if not fault.text.startswith(f"{fault.layer} {fault.number} {fault.name}"):
                return 1, b"", f"{fault.text} is told as {fault.layer} {fault.number} {fault.name}".encode()
            return 1, b"", f"orcm: {fault.text}\n".encode()
        return (3 if name == "check" and printed else 0), printed, b""

    @staticmethod
    def made(words):
        """The bytes of the file that a command made, or none."""
        path = {"merge": words[1], "write": words[-1]}.get(words[0])
        return (vectors.text(pathlib.Path(path)) or b"") if path else b""

    def by_program(self, *words):
        """What the program answers, with a file of its own, and the bytes of that file."""
        words = [str(self.other) if word == str(self.mine) else word for word in words]
        self.other.unlink(missing_ok=True)
        done = subprocess.run([self.program, *words], capture_output=True)
        return without_lines((done.returncode, done.stdout, done.stderr)), self.made(words)


def main(words):
    """Does what the words ask for, and returns the exit status."""
    if len(words) != 2 or words[0] not in ("c", "python"):
        print(__doc__, end="", file=sys.stderr)
        return 2
    with room("try-library.") as scratch:
        tries = (ByC if words[0] == "c" else ByPython)(words[1], vectors.FOLDER)
        tries.mine, tries.other = pathlib.Path(scratch) / "made", pathlib.Path(scratch) / "other"
        for path in sorted(vectors.FOLDER.rglob("*")):
            vectors.compare_vector(tries, path, tries.mine)
    passed = sum(tries.compared.values()) - tries.failed
    print(f"{passed} passed, {tries.failed} failed")
    return 1 if tries.failed or not passed else 0


if __name__ == "__main__":
    sys.exit(main(sys.argv[1:]))
