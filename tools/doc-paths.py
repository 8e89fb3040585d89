#!/usr/bin/env python3
"""Sees that each path in the documents leads to a file, and that what is named in it stands there.
usage: tools/doc-paths.py

A path stands in backticks and begins with a crate and one of its folders (`semantic_model/specs/Inside`), or with a folder
of the repository (`tools/setup.sh`). In a row of a table a bare name behind such a path (`Step`, `walk.rt`) stands in the
same folder, but for names with a capital behind a file of code. A file of code is told with its ending, one of definitions or proofs without. In docs/proved.md a bare name
with a capital is a file of proofs or definitions of some crate. Names in parentheses directly behind a path are words of
that file. What isn't there is told, and the status is 1 then."""

import glob
import os
import re
import sys

TOP = os.path.dirname(os.path.dirname(os.path.abspath(__file__)))
TICKED = re.compile(r"`([^`\n]+)`(?: \(((?:`\w+`(?:, | and )?)+)\))?")
PATH = re.compile(r"^(?:crates/)?([a-z_]+)/((?:src|specs|proofs|must-fail|data)(?:/[\w+.-]+)*)$")
FOLDERS = ("bench/", "bin/", "docs/", "samples/", "tools/", "examples/", "include/")
BARE = re.compile(r"^(?:[A-Z][A-Za-z]+|[a-z_]+\.rt)$")


def documents():
    return sorted(path for place in ("", "docs/", "crates/*/") for path in glob.glob(f"{TOP}/{place}*.md"))


def files_of_proofs():
    """The files of proofs and definitions, by name."""
    found = {}
    for folder in ("proofs", "specs"):
        for path in glob.glob(f"{TOP}/crates/*/{folder}/**/*.antt", recursive=True):
            found.setdefault(os.path.basename(path)[: -len(".antt")], []).append(os.path.relpath(path, TOP))
    return found


def at(path):
    """The file or folder that a path leads to, if there is one."""
    return next((path + ending for ending in ("", ".antt", ".rt") if os.path.exists(f"{TOP}/{path}{ending}")), None)


def lacks(paths, name):
    """Whether the name is a word of none of the files."""
    files = [f"{TOP}/{path}" for path in paths if os.path.isfile(f"{TOP}/{path}")]
    return bool(files) and not any(re.search(rf"\b{name}\b", open(file, encoding="utf-8").read()) for file in files)


def faults(line, proofs):
    """What a line names and what isn't there. With files of proofs, bare names with a capital are looked up among them."""
    folder = None
    for found in TICKED.finditer(line):
        word, names = found[1], re.findall(r"\w+", found[2] or "")
        path = PATH.match(word)
        if path and os.path.isdir(f"{TOP}/crates/{path[1]}"):
            folder = os.path.dirname(f"crates/{path[1]}/{path[2]}")
            files = [at(f"crates/{path[1]}/{path[2]}")]
        elif word.startswith(FOLDERS):
            files = [at(word.split()[0].rstrip("/"))]
        elif BARE.match(word) and word in proofs:
            files = proofs[word]
        elif BARE.match(word) and folder and line.startswith("|") and not (word[0].isupper() and "/src" in folder):
            files = [at(f"{folder}/{word}")]
        else:
            continue
        if None in files:
            yield word
        else:
            yield from (f"{name} in {word}" for name in names if lacks(files, name))


def main():
    proofs = files_of_proofs()
    status = 0
    for path in documents():
        name = os.path.relpath(path, TOP)
        with open(path, encoding="utf-8") as file:
            for number, line in enumerate(file, 1):
                for word in faults(line, proofs if name == "docs/proved.md" else {}):
                    print(f"{name}:{number}: {word}", file=sys.stderr)
                    status = 1
    return status


if __name__ == "__main__":
    sys.exit(main())
