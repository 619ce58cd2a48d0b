"""The repository's files, and the words of a text."""
import os
import re
import textwrap

ROOT = os.path.dirname(os.path.dirname(os.path.dirname(os.path.realpath(__file__))))
# words and brackets of a text of definitions or clauses
TOKEN = re.compile(r'"(?:\\.|[^"\\])*"|\[\]|[()\[\]{};,]|[^\s()\[\]{};,]+')
USE = re.compile(r"(?:pub )?use (?:Rattle\.)?([\w.]+?)(?:\.\{([^}]*)\}| as (\w+))?;?\s*$", re.S)


def text_of(path):
    with open(f"{ROOT}/{path}", encoding="utf-8") as file:
        return file.read()


def crates():
    """Returns the names of the repository's crates."""
    return re.findall(r"^(\w+)[^:#\n]*:", text_of("crates.txt"), re.M)


def imports(line):
    """Returns what a `use` line brings: a name to its module and its name there, or to a module alone."""
    found = USE.match(line.replace("ghost ", "").strip())
    if not found:
        return {}
    module, names, other = found.groups()
    if names is None:
        return {other or module.rpartition(".")[2]: (module, None)}
    brought = {}
    for it in names.split(","):
        name, _, other = it.strip().partition(" as ")
        if name:
            brought[other.strip() or name] = (module, name)
    return brought


def wrapped(text, indent=""):
    """Returns a text in lines of 100 columns."""
    return textwrap.fill(text, 100, subsequent_indent=indent, break_long_words=False, break_on_hyphens=False)


def too_long(text):
    """Returns the lines of more than 100 columns, but for quotes and rows of tables."""
    plain = re.sub(r"^```(?:.|\n)*?^```$", "", text, flags=re.M)
    return [it for it in plain.split("\n") if len(it) > 100 and not it.startswith("|")]
