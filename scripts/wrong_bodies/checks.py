"""Checks of a crate: by `rt check`, or by the kit's rattle over libraries that were built of this text."""
import os
import signal
import subprocess
import tempfile
import threading

from read_definitions.texts import ROOT

from .crates import all_below, files_below, libraries, lines_of_crates
from .kit import kit_folder
from .spelling import spelled, spelled_definition


class Said:
    """What a check ended with: its status, what it printed, and its processor seconds."""

    def __init__(self, status, text, seconds):
        self.status = status
        self.text = text
        self.seconds = seconds


class Checker:
    """Checks crates in a tree, each over what `rt check` proves below it."""

    # whether a tree for it has to hold the crates below, too
    needs_crates_below = True

    def __init__(self):
        self.running = {}
        self.lock = threading.Lock()
        self.is_stopped = False

    def is_proved(self, crate):
        """Returns whether it is known by now that a crate is proved as it stands."""
        del crate
        return False

    def words(self, crate):
        """Returns the command, and nothing and why if a crate can't be checked."""
        del crate
        return ["rt", "check", "--jobs", "1"], None

    def check(self, tree, crate, functions=()):
        """Checks a crate, or these functions of it alone: if only their bodies changed, no other proof did."""
        words, why = self.words(crate)
        if why:
            return Said(2, why, 0)
        return self.run([*words, *[word for it in functions for word in ("--only", it)]], f"{tree}/crates/{crate}")

    def run(self, words, folder):
        with tempfile.TemporaryFile(mode="w+", encoding="utf-8", errors="replace", dir=folder) as out:
            with self.lock:
                if self.is_stopped:
                    return Said(2, "stopped", 0)
                ran = subprocess.Popen(
                    words, cwd=folder, stdin=subprocess.DEVNULL, stdout=out, stderr=subprocess.STDOUT, start_new_session=True
                )
                self.running[ran.pid] = ran
            _, status, usage = os.wait4(ran.pid, 0)
            ran.returncode = os.WEXITSTATUS(status) if os.WIFEXITED(status) else 2
            with self.lock:
                del self.running[ran.pid]
            out.seek(0)
            return Said(ran.returncode, out.read().rstrip("\n"), usage.ru_utime + usage.ru_stime)

    def stop(self):
        """Ends the checks that run, with what they began."""
        with self.lock:
            self.is_stopped = True
            for pid in self.running:
                try:
                    os.killpg(pid, signal.SIGTERM)
                except ProcessLookupError:
                    pass


class LibraryChecker(Checker):
    """Checks crates over the libraries that `rt ci` left in a tree: `rt check` would prove these once more, one after the other, which
    takes an hour and more for a crate high up."""

    needs_crates_below = False

    def __init__(self, tree=ROOT):
        super().__init__()
        self.tree = os.path.realpath(tree)
        self.kit = kit_folder()
        self.known = {}

    def is_proved(self, crate):
        # (`rt ci` leaves a library only of what it proved)
        return self.unfit(crate) is None

    def words(self, crate):
        if crate not in self.known:
            self.known[crate] = self.make_words(crate)
        return self.known[crate]

    def make_words(self, crate):
        lines = lines_of_crates()
        below = all_below(crate, libraries())
        for it in below:
            why = self.unfit(it)
            if why:
                return None, why
        root = "src/main.rt" if os.path.isfile(f"{ROOT}/crates/{crate}/src/main.rt") else "src/lib.rt"
        words = [f"{self.kit}/bin/rattle", "check", "--crate-name", crate, root, "--jobs", "1", "--links", f"{crate}=", "--progress"]
        for it in ["std", *lines[crate]]:
            words += ["--extern", f"{it}={self.rlib(it) if it in lines else f'{self.kit}/rlibs/{it}.rlib'}"]
        for folder in [f"{self.kit}/rlibs", *[os.path.dirname(self.rlib(it)) for it in below]]:
            words += ["-L", f"dependency={folder}"]
        words += ["--antt-project", f"{self.kit}/rattle/logic/antt-project.json", "--logic-built", f"{self.kit}/logic_built"]
        return [*words, "--incremental", "out/incremental"], None

    def rlib(self, crate):
        return f"{self.tree}/crates/{crate}/out/rlib/{crate}.rlib"

    def unfit(self, crate):
        """Returns why the library of a crate can't be used, and nothing if it can: `rt ci` left it there, and it is of this text."""
        made = self.rlib(crate)
        if not os.path.isfile(f"{made}/format"):
            return f"`rt ci` left no library of {crate} in {os.path.dirname(made)}"
        if os.path.exists(f"{os.path.dirname(made)}/stamp"):
            return f"the library of {crate} is one of `rt check`, and not of `rt ci`"
        for part in ("src", "specs", "proofs"):
            for it in files_below(f"{ROOT}/crates/{crate}/{part}"):
                if not self.is_of_library(it, made):
                    return f"the library of {crate} that `rt ci` left is of another {os.path.relpath(it, ROOT)}"
        return None

    def is_of_library(self, file, made):
        """Returns whether a file was there when a library was put into its place; in another tree than this one it has to be the same there.
        (The library's own files may be older: `rt ci` keeps what passed, and links it.)"""
        other = f"{self.tree}/{os.path.relpath(file, ROOT)}"
        if not os.path.isfile(other) or os.path.getmtime(other) > os.path.getmtime(made):
            return False
        return self.tree == os.path.realpath(ROOT) or spelled_file(file) == spelled_file(other)


def spelled_file(path):
    """Returns a file's text without its comments, which no other crate's proof reads."""
    with open(path, encoding="utf-8") as file:
        text = file.read()
    return spelled(text) if path.endswith(".rt") else spelled_definition(text)
