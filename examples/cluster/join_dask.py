#!/usr/bin/env python3
"""Joins ORC files into one by a tree of merges over Dask's scheduler (Debian: python3-distributed).

Files are joined in groups, these in groups again, up to one root: since merging gives the same
bytes in every grouping, it is the file that one merge of all inputs would give. Each node runs
`orcm merge` over paths, so workers need orcm and the folders under the same names. A node that
fails is run again, and so are the nodes of a worker that was lost. The root gets its name only
after `orcm check` has read it and its rows are as many as those of the inputs.
"""
import argparse
import os
import shutil
import subprocess
import tempfile
import uuid

from distributed import Client, progress


def run(*words, statuses=(0,)):
    """Runs the program, and returns what it prints, if its status is one of these."""
    done = subprocess.run(words, capture_output=True, text=True, check=False)
    if done.returncode not in statuses:
        said = " ".join((done.stderr + done.stdout[:300]).split())
        raise RuntimeError(f"{' '.join(words[1:3])}: status {done.returncode}: {said}")
    return done.stdout


def rows(orcm, path):
    """Returns how many rows a file has."""
    return next(int(line[5:]) for line in run(orcm, "show", path).splitlines() if line.startswith("rows "))


def join(orcm, out, inputs):
    """Joins inputs, each a path with its number of rows or without, and returns the joined file's path with the inputs' rows. It is
    written under another name first, so that a file with the right name is a whole one."""
    if not os.path.exists(out):
        part = f"{out}.{uuid.uuid4()}.part"
        run(orcm, "merge", part, *(path for path, _ in inputs))
        os.replace(part, out)
    return out, sum(rows(orcm, path) if count is None else count for path, count in inputs)


def tree(client, options, work):
    """Starts the nodes of each level over those of the level below, and returns the root."""
    nodes, level, started = [(os.path.abspath(path), None) for path in options.inputs], 0, []
    while level == 0 or len(nodes) > 1:
        level += 1
        groups = [nodes[at : at + options.fan_in] for at in range(0, len(nodes), options.fan_in)]
        nodes = [client.submit(join, options.orcm, f"{work}/{level}-{n}.orc", it, retries=3, pure=False) for n, it in enumerate(groups)]
        started += nodes
    progress(started, notebook=False)
    return nodes[0].result()


def main():
    """Reads the command line, joins the files, and gives the root its name."""
    parser = argparse.ArgumentParser(description=__doc__, formatter_class=argparse.RawDescriptionHelpFormatter)
    parser.add_argument("--orcm", default="orcm", help="the program, on each worker (default: orcm)")
    parser.add_argument("--fan-in", type=int, default=100, help="how many files one merge joins, 2 at least (default: 100)")
    parser.add_argument("--scheduler", help="the address of a scheduler, such as tcp://host:8786 (default: workers on this machine)")
    parser.add_argument("--findings", choices=("refuse", "allow"), default="refuse", help="whether `orcm check` may find something")
    parser.add_argument("root", help="the file that is made; it must not exist")
    parser.add_argument("inputs", nargs="+", help="the files that are joined, in this order")
    options = parser.parse_args()
    if options.fan_in < 2:
        parser.error("--fan-in is below 2")
    if os.path.exists(options.root):
        parser.error("the root exists")
    work = tempfile.mkdtemp(prefix=os.path.basename(options.root) + ".", dir=os.path.dirname(os.path.abspath(options.root)))
    try:
        with Client(options.scheduler) if options.scheduler else Client(threads_per_worker=1) as client:
            joined, count = tree(client, options, work)
        run(options.orcm, "check", joined, statuses=(0, 3) if options.findings == "allow" else (0,))
        if rows(options.orcm, joined) != count:
            raise RuntimeError(f"the root has {rows(options.orcm, joined)} rows, and the inputs have {count}")
        os.link(joined, options.root)
    finally:
        shutil.rmtree(work)


if __name__ == "__main__":
    main()
