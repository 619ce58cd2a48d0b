"""Trees of a crate and the crates below it, in which edits are tried: hard links of the repository's files."""
import contextlib
import os
import shutil
import signal
import subprocess
import tempfile

from common.room import room
from read_definitions.texts import ROOT

from .crates import all_below, libraries


def end(number, _frame):
    """Ends the script as a signal asks for, so that what it made is removed on the way out."""
    raise SystemExit(128 + number)


@contextlib.contextmanager
def trial_room():
    """Makes a folder for trials, and removes it at the end. It lies in .git/, since a hard link has to be on the tree's own file system;
    without a git folder it lies where temporary folders do, and files are copied."""
    if not os.path.isdir(f"{ROOT}/.git"):
        with room("wrong-bodies-") as made:
            yield made
        return
    for it in (signal.SIGTERM, signal.SIGINT):
        signal.signal(it, end)
    made = tempfile.mkdtemp(prefix="wrong-bodies-", dir=f"{ROOT}/.git")
    try:
        yield made
    finally:
        shutil.rmtree(made, ignore_errors=True)


def link(from_folder, to_folder):
    """Makes a copy by hard links, or else by bytes: rt replaces what it keeps, and rewrites no file."""
    linked = subprocess.run(["cp", "-al", from_folder, to_folder], stderr=subprocess.DEVNULL, check=False)
    if linked.returncode:
        shutil.rmtree(to_folder, ignore_errors=True)
        subprocess.run(["cp", "-a", from_folder, to_folder], check=True)


def link_tree(crate, tree, alone):
    """Makes a tree of a crate, and of the crates below it unless it stands alone, with what their checks kept, and with nothing that rt
    would take for edits."""
    crates = [crate, *([] if alone else all_below(crate, libraries()))]
    for it in crates:
        os.makedirs(f"{tree}/crates/{it}")
        for part in ("src", "specs", "proofs", "out"):
            if os.path.isdir(f"{ROOT}/crates/{it}/{part}"):
                link(f"{ROOT}/crates/{it}/{part}", f"{tree}/crates/{it}/{part}")
    shutil.copy(f"{ROOT}/HANDLES", tree)
    with open(f"{ROOT}/crates.txt", encoding="utf-8") as file:
        lines = [it for it in file if (it.split() or [""])[0].rstrip(":") in crates]
    with open(f"{tree}/crates.txt", "w", encoding="utf-8") as file:
        file.writelines(lines)


def put(folder, texts):
    """Writes files of a tree."""
    for path, text in texts.items():
        # (the file is a hard link, so it is replaced and not written)
        os.remove(f"{folder}/{path}")
        with open(f"{folder}/{path}", "w", encoding="utf-8") as file:
            file.write(text)
