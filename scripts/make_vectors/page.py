"""vectors/README.md: what the vectors are, how a reader uses them, and which rule each shows."""
from .classes import CLASSES, class_of, left_out, sentences_of
from .rules import OWN, RULES
from .sentences import SENTENCES

# what scripts/compare-with-protoc said last
PROTOC = (
    "2026-12-01, libprotoc 3.21.12: {same} messages decoded, no unknown field, encoded again to the\n"
    "same bytes; {otherwise} that are meant to be otherwise are so."
)
SAME, OTHERWISE = 8039, 100
# what no file here shows, and why
NOT_SHOWN = """Not kept here, since a file would be larger than a few KB: 4,096 types and more, 65,536 stripes and more,
2^40 rows, 2^40 bytes of stripes and more, a gap of 2^41 bytes between stripes. `scripts/make-vectors --large
FOLDER` makes these: in `FOLDER/tried` stands what is tried as the files here are, in `FOLDER/shown` files
whose stripes have so many bytes that none can be held, each with its `NAME.show` alone. What has so many
bytes is a hole in its file, and takes a few KB of a disk. Not shown, since they are no matter of files: the
text of a schema as it is read, lines of JSON as they are read, and a cap on what is read at once."""

# what stands above the tables
FILES = """The last column has the class, and for `must` the sentences of the specification, else its sections: *own*
where the published specification leaves the rule open or says less."""
LAYOUTS = """## As other writers lay files out

The folders `as-java/` to `as-rust/` have the same rows in the layouts of five writers, as far as these are
publicly known. **None of these files was compared with a file of the writer.** They were made from what is
known of the writers' public sources, without a copy of these at hand, and each writer may do otherwise today.
[docs/OTHER-TOOLS.md](../docs/OTHER-TOOLS.md#layouts-of-other-writers) says what `orcm` answers of them.

| Folder | Writer | What is known of it, and is so in the files | Known from |
|---|---|---|---|
| `as-java/` | Apache's Java writer | row indexes first; PRESENT and its positions stand only where a value of the stripe is null; streams without bytes are listed; a dictionary if at most 0.8 of the texts are distinct; patched runs whose gaps go above 255 by entries of patch 0; bytes on disk in the statistics of stripes and file; the writer's time zone in the stripe's footer; the calendar (field 11) and the software's version (field 12) in the file's footer; writer 0 | the sources of Apache ORC, `java/core` |
| `as-hive/` | Hive 0.11; Hive 0.12 in the files whose names end in `-12` | version 0.11 with runs of version 1 and a dictionary for all texts, 0.12 with runs of version 2; no hasNull, no element counts; no metadata, so no statistics of stripes; neither a writer nor a version of it | the sources of Hive, `ql/io/orc`; the specification's notes on versions |
| `as-cpp/` | Apache's C++ writer | PRESENT of each column always, also without bytes, and its three positions; streams without bytes are listed; LENGTH in front of DATA; no dictionary; writer 1 | the sources of Apache ORC, `c++/src` |
| `as-trino/` | Trino's | no hasNull, no element counts; data streams in the order of their lengths; user metadata with a version and the number of a query; writer 4 | the sources of Trino, `lib/trino-orc`; the list of writers in orc_proto.proto |
| `as-rust/` | a writer in Rust | no statistics at all, and no row index; writer and version of 2^32 - 1 | the sources of the crate `orc-rust` |

`NAME-twice` is the merge of `NAME` with itself. Where what is known leaves a choice, such as that of runs, the
files have what this project's writer chooses.
"""
LEFT_OUT = """## Files that leave out streams without bytes

`orcm write` leaves out a stream without bytes, and so do the files of this table, in these columns. A column
has such streams where all its values are null in a stripe, where it has no values since the lists or maps
above it are all empty or null or the structs above it are all null, and where its texts or bytes are all
empty. Apache's C++ reader is known to ask for DATA and LENGTH by name, and so to refuse such files. Whether
Apache's Java reader finds a group of such a column by the row index wasn't tried: the files of this table in
`indexes/` are for that, such as `indexes/of-empty-lists`. None of these files is `must`. `LEFT-OUT` has each stream, and those of
`written/` too."""

HEAD = """# Vectors

Small ORC files, version 1 of the format and without compression, and beside each what a reader has to
answer. {files} files are read or refused, {merges} lists of files are merged, and the rows of {written} files
are written again. `scripts/make-vectors` makes them all, by a writer of its own: from the published
specification and from the sentences of [docs/FORMAT.md](../docs/FORMAT.md), and not from the code of
`orcm`. What stands beside a file is what that writer meant; of the specification's own examples it
makes the bytes that stand there. `scripts/make-vectors --compare` says whether this folder is what it
makes, `scripts/try-vectors` runs `orcm` over all of it. [Their page](../scripts/make_vectors/README.md) says
how to add a vector in ten lines.

| Beside `NAME.orc` | What it is |
|---|---|
| `NAME.json` | its rows, a line each: compact JSON, the keys of an object in the order of their bytes |
| `NAME.show` | what the file says of itself: the schema's text, the version, stripes, statistics |
| `NAME.check` | what it says of its rows and is not so, a line each; most have none |
| `NAME.from-S-G.json` | the rows from group G of stripe S on, by the row indexes |
| `NAME.from-S-G.fault` | why these can't be read |
| `NAME.fault` | the file has to be refused, and why, in the words of `orcm` |
| `NAME.tools.json` | of a `must`: the rows in the form that `orc-tools data` is known to print |
| `NAME.merge` | in `merges/`, in `order/`, and of other writers' layouts: inputs, a line each; `NAME.orc` is what they become, byte for byte |

Each file with a `NAME.fault` has one fault, but for those of `order/`, which have two. Where a
`NAME.json` stands beside it, that has the rows of the stripes before the bad one. Where a `NAME.merge`
has no `NAME.orc`, its `NAME.fault` says why the inputs become none.

`NAME.show`, `NAME.check`, `NAME.merge` and the words of faults are for `orcm` and for who compares
with it; another reader needs `NAME.orc`, `NAME.json`, that there is a `NAME.fault`, and `from`.
Two lists stand in this folder. `CLASSES` has a line `NAME CLASS` for each vector ([classes](#classes)).
`LEFT-OUT` has a line `NAME STRIPE COLUMN KIND` for each stream without bytes that a file which is read
leaves out ([more on that](#files-that-leave-out-streams-without-bytes)).
In `written/` stands what this project's writer has to make of the rows of the vector of the same name,
byte for byte, by the words in `NAME.write`: other readers need not look at it.

`merges/in/` has the files that are merged. Of `tails/name-twice` and of each `tails/name-twice-in-*` the rows
alone can't be printed, since a struct names a field twice: who doesn't print objects of JSON may read them.

In JSON a text is a string, bytes are a string of lower-case hexadecimal digits, a day is a string
`YYYY-MM-DD` in the years 0001 to 9999 and else the number of days since 1970-01-01, a map is an array
of arrays of a key and a value.

In `NAME.tools.json` bytes are an array of numbers from 0 to 255, a map is an array of objects with the
keys `_key` and `_value`, and the keys of any other object stand in the order of the fields. That is how
`orc-tools data`, of Apache's Java tools, is publicly known to print rows; it wasn't run here. With the
schema of `NAME.show`, [examples/rows-as-tools.jq](../examples/rows-as-tools.jq) makes that form of the
other one: `jq -c --arg schema 'struct<n:bigint>' -f examples/rows-as-tools.jq NAME.json`.

## Classes

`CLASSES` says of each vector how much it asks of another reader:

{classes}

A class is of what stands beside the file: its rows or its refusal, and the rows from groups on. A file
that is refused is `must` only if something that its rows need isn't there or has no meaning: a value, a
type, or a part of the tail that leads to them. So these aren't `must`: values left over, texts and names that aren't UTF-8, a name that stands twice in a
struct, a root that is no struct, and how deep types may be. Neither are three sorts of files that are
read: those with days before 1582-10-15 or after 9999-12-31, which a calendar or a form of JSON decides;
those with a map whose keys are null or equal; and those that leave out streams without bytes. Each
`must` names its [sentences](#the-sentences-of-the-specification). What this project makes or decides, in
`merges/`, `order/`, `writing/` and `written/` and as `NAME-twice`, is `own`, although the files are good.

## How another reader uses them

`reader FILE` stands for a program that prints a file's rows as lines of JSON and ends with another
status than 0 where it refuses the file. Both loops go over what is `must`, and tell what differs. In
shell, with `jq` to compare JSON and not its text (`jq` 1.6 rounds integers above 2^53, which the lines in
Python compare exactly):

```sh
rows=$(mktemp) fault=$(mktemp)
cd vectors && grep ' must$' CLASSES | while read -r name class; do
    if [ -e "$name.fault" ]; then
        reader "$name.orc" >"$rows" 2>"$fault" </dev/null && echo "$name is read"
    elif ! reader "$name.orc" >"$rows" 2>"$fault" </dev/null; then
        echo "$name is refused: $(cat "$fault")"
    elif ! jq -en --slurpfile a "$rows" --slurpfile b "$name.json" '$a == $b' >"$fault" 2>&1; then
        echo "$name has other rows"
    fi
done
```

In Python:

```python
import json, pathlib, subprocess

folder = pathlib.Path("vectors")
for line in (folder / "CLASSES").read_text().splitlines():
    name, kind = line.split()
    if kind != "must":
        continue
    done = subprocess.run(["reader", folder / (name + ".orc")], capture_output=True)
    if (folder / (name + ".fault")).exists() != (done.returncode != 0):
        print(name, "is read" if done.returncode == 0 else "is refused")
    elif done.returncode == 0:
        rows, wanted = done.stdout.splitlines(), (folder / (name + ".json")).read_bytes().splitlines()
        if [json.loads(row) for row in rows] != [json.loads(row) for row in wanted]:
            print(name, "has other rows")
```

A reader that prints rows as `orc-tools data` does is compared with `NAME.tools.json`: put `.tools.json`
in place of `.json`. To go over `may` too, write `'must$\|may$'` or `not in ("must", "may")`: what differs
there is no fault of a reader. docs/FORMAT.md says what others do, where it is known.

## The messages by another's word

`scripts/compare-with-protoc` decodes each message of each file here, those of `written/` and of
`merges/` too, with `protoc` and a .proto written from the specification, and encodes what comes out.
{protoc}
These are named in the script, each with what is otherwise: unknown fields, other spellings, messages
that are cut.

"""


def in_folders(vectors):
    """The vectors by their folders."""
    found = {}
    for vector in vectors:
        found.setdefault(vector.name.rpartition("/")[0], []).append(vector)
    return found


def link(section):
    """A section of docs/FORMAT.md as a link."""
    anchor = "".join(sign for sign in section.lower().replace(" ", "-") if sign.isalnum() or sign == "-")
    return f"[{section}](../docs/FORMAT.md#{anchor})"


def spec_of(rule):
    """The section of the specification, or that the rule is this project's."""
    spec = RULES[rule][1]
    return "*own*" if spec == OWN else spec


def rules_table(vectors):
    """From each rule to its vectors."""
    lines = [
        "## From a rule to its vectors",
        "",
        "| Rule | In docs/FORMAT.md | In the specification | Vectors |",
        "|---|---|---|---|",
    ]
    for name, (section, _, sentence) in RULES.items():
        shown = [f"`{vector.name}`" for vector in vectors if name in vector.rules]
        assert shown, f"no vector shows {name}"
        lines.append(f"| `{name}`: {sentence} | {link(section)} | {spec_of(name)} | {', '.join(shown)} |")
    return lines + ["", NOT_SHOWN, ""]


def classes_table(vectors):
    """How many files of each class are read, and how many are refused."""
    lines = ["| Class | What it means | Read | Refused |", "|---|---|---|---|"]
    for name, meaning in CLASSES.items():
        refused = [bool(vector.fault) for vector in vectors if hasattr(vector, "file") and class_of(vector) == name]
        lines.append(f"| `{name}` | {meaning} | {refused.count(False)} | {refused.count(True)} |")
    return "\n".join(lines)


def sentences_table():
    """What the specification says, by the names that the files' lines have."""
    lines = [
        "## The sentences of the specification",
        "",
        "In words of our own. The sections are those of the ORC specification, version 1, and of the documents of",
        "Protocol Buffers.",
        "",
        "| Sentence | Section | What it says |",
        "|---|---|---|",
    ]
    return lines + [f"| `{name}` | {section} | {words} |" for name, (section, words) in SENTENCES.items()] + [""]


def left_out_table(vectors):
    """Which files leave out streams without bytes, and of which columns."""
    lines = [LEFT_OUT, "", "| File | Columns |", "|---|---|"]
    for vector in vectors:
        columns = list(dict.fromkeys(column for _, column, _ in left_out(vector)))
        if columns:
            lines.append(f"| `{vector.name}` | {', '.join(map(str, columns))} |")
    return lines + [""]


def line_of(vector):
    """The line of a file."""
    name = vector.name.rpartition("/")[2] + (".merge" if not hasattr(vector, "file") else "")
    rules = ", ".join(f"`{rule}`" for rule in vector.rules)
    specs = "; ".join(dict.fromkeys(spec_of(rule) for rule in vector.rules))
    said = ", ".join(f"`{name}`" for name in sentences_of(vector))
    said = f"must: {said}" if said else f"{class_of(vector)}: {specs}"
    return f"| `{name}`{' refused' if vector.fault else ''} | {vector.shows} | {rules} | {said} |"


def files_table(vectors):
    """A line a file."""
    lines = ["## From a file to what it shows", "", FILES, ""]
    for folder, inside in in_folders(vectors).items():
        title = ["| File | What it shows | Rules | Class, and in the specification |", "|---|---|---|---|"]
        lines += [f"### {folder}/", "", *title, *map(line_of, inside), ""]
    return lines


def page(vectors, written):
    """The whole page."""
    merges = [vector for vector in vectors if not hasattr(vector, "file")]
    head = HEAD.format(
        files=len(vectors) - len([merge for merge in merges if merge.fault]),
        merges=len(merges),
        written=len(written),
        protoc=PROTOC.format(same=SAME, otherwise=OTHERWISE),
        classes=classes_table(vectors),
    )
    tables = rules_table(vectors) + sentences_table() + [LAYOUTS] + left_out_table(vectors) + files_table(vectors)
    return head + "\n".join(tables).rstrip() + "\n"
