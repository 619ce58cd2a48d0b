"""What git keeps of this repository: which commit to compare with, and the sources in it."""
import io
import os
import re
import subprocess
import tarfile

from read_definitions.texts import ROOT

from .trees import OlderTree

# what a caller's git may have set, which would name another repository
ANOTHER = ("GIT_DIR", "GIT_WORK_TREE", "GIT_INDEX_FILE", "GIT_PREFIX")


def run(*words):
    """Runs a command with no word of another repository in its environment, and returns how it ended and what it printed."""
    environment = {name: value for name, value in os.environ.items() if name not in ANOTHER}
    return subprocess.run(words, env=environment, stdout=subprocess.PIPE, stderr=subprocess.PIPE, check=False)


def git(*words):
    """Returns what git prints of this repository, and nothing if it fails or isn't there."""
    try:
        ran = run("git", "-C", ROOT, *words)
    except FileNotFoundError:
        return None
    return ran.stdout if ran.returncode == 0 else None


def commit(name):
    """Returns the commit that a name stands for, and nothing if there is none."""
    found = git("rev-parse", "--verify", "--quiet", f"{name}^{{commit}}")
    return found.decode().strip() if found else None


def has_repository():
    """Returns whether this tree is a repository of git, and no folder within another one."""
    return git("rev-parse", "--show-prefix") == b"\n"


def landed():
    """Returns the commit that scripts/landed prints, else nothing and why there is none."""
    ran = run(f"{ROOT}/scripts/landed")
    return (ran.stdout.decode().strip(), None) if ran.returncode == 0 else (None, ran.stderr.decode().strip())


def file_of(rev, path):
    """Returns a file's text in a commit, and an empty one if it isn't there."""
    return (git("show", f"{rev}:{path}") or b"").decode()


def defines(rev, name):
    """Returns whether a commit has a definition of this name."""
    line = rf"^ *((abbrev|pub|unfoldable|record|data) )*{re.escape(name)}( |$)"
    return git("grep", "--quiet", "--extended-regexp", "-e", line, rev, "--", ":(glob)crates/*/specs/**") is not None


def tree_of(rev):
    """Returns the sources of a commit, which are none if it has no crates.txt and no crates."""
    packed = git("archive", "--format=tar", rev, "crates.txt", ":(glob)crates/*/src/**")
    if not packed:
        return OlderTree({})
    with tarfile.open(fileobj=io.BytesIO(packed)) as archive:
        return OlderTree({it.name: archive.extractfile(it).read().decode() for it in archive if it.isfile()})
