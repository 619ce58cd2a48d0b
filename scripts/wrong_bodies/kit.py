"""The kit that proves: its name, its logic, and the folder that it lies in."""
import os
import subprocess


def said_by(*words):
    return subprocess.run(["rt", *words], stdout=subprocess.PIPE, universal_newlines=True, check=True).stdout.strip()


def kit_line():
    """Returns the kit's name and logic, as a record's first line has them."""
    return said_by("version")


def logic_of(line):
    """Returns the logic of such a line. It is the logic that refuses an edit, whatever kit it comes in."""
    return line.partition(" ")[2]


def kit_folder():
    return os.path.dirname(said_by("doc"))
