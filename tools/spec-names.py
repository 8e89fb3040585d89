#!/usr/bin/env python3
"""Sees that a name of the definitions has one meaning.
usage: tools/spec-names.py [--files]

A name that several files of `specs/` define means one idea in all of them, as a method's name does in several types, and stands in
tools/spec-names.txt: `NAME | the idea | CRATE/FILE CRATE/FILE`. What several files define and isn't listed so wants other names; it is
told with what each file says of it, as is what is listed and isn't there, and the status is 1 then. With --files each line gets the
files that there are now: look whether they mean its idea. The names are those of definitions, records and data that other files can
see; fields and constructors are told apart by what they belong to."""

import glob
import os
import re
import sys

TOP = os.path.dirname(os.path.dirname(os.path.abspath(__file__)))
LIST = f"{TOP}/tools/spec-names.txt"
DEFINED = re.compile(r"\s*(?:abbrev|unfoldable)\s+pub\s+([^\s:({]+)\s*[:({]")
DECLARED = re.compile(r"pub\s+(?:data|record)\s+([^\s:({]+)")
MUTUAL = re.compile(r"\s+pub\s+([^\s:({]+)\s*[:({]")


def definitions(path):
    """Each name that the file defines, with the comment above it."""
    said, is_mutual = "", False
    with open(path, encoding="utf-8") as file:
        for line in file:
            if line.strip() and not line.startswith(" "):
                is_mutual = "mutual" in line.split()
            found = DEFINED.match(line) or DECLARED.match(line) or (is_mutual and MUTUAL.match(line))
            if found:
                yield found[1], said
            comment = re.match(r"\s*-- (.*)", line)
            said = comment[1] if comment else ""


def file_named(path):
    """A file of definitions as the list names it."""
    crate, _, file = os.path.relpath(path, f"{TOP}/crates").partition("/specs/")
    return f"{crate}/{file.removesuffix('.antt')}"


def names_in_several_files():
    """The names that several files define, each with its files and what they say of it."""
    found = {}
    for path in sorted(glob.glob(f"{TOP}/crates/*/specs/**/*.antt", recursive=True)):
        for name, said in definitions(path):
            found.setdefault(name, {}).setdefault(file_named(path), said)
    return {name: files for name, files in found.items() if len(files) > 1}


def listed():
    """The names of the list, each with its idea and its files."""
    names = {}
    with open(LIST, encoding="utf-8") as file:
        for number, line in enumerate(file, 1):
            parts = [it.strip() for it in line.split(" | ")]
            if len(parts) != 3 or not all(parts):
                sys.exit(f"spec-names: line {number} of the list isn't `NAME | the idea | CRATE/FILE CRATE/FILE`")
            names[parts[0]] = parts[1], parts[2].split()
    return names


def write_files(there, named):
    """Gives each line of the list the files that there are."""
    with open(LIST, "w", encoding="utf-8") as file:
        for name, (idea, _) in sorted(named.items()):
            if name in there:
                file.write(" | ".join([name, idea, " ".join(sorted(there[name]))]) + "\n")


def faults(there, named):
    """What is wrong with the names, in lines."""
    for name, files in sorted(there.items()):
        if name not in named:
            yield " | ".join([f"{name} wants one meaning", *(f"{file}: {said}" for file, said in sorted(files.items()))])
        elif set(named[name][1]) != set(files):
            yield f"{name} | {named[name][0]} | {' '.join(sorted(files))} is wanted: the files aren't those of the list"
    for name in sorted(named):
        if name not in there:
            yield f"{name} doesn't stand in several files"


def main(words):
    if words not in ([], ["--files"]):
        print("usage: tools/spec-names.py [--files]", file=sys.stderr)
        return 2
    there, named = names_in_several_files(), listed()
    if words:
        write_files(there, named)
        return 0
    told = list(faults(there, named))
    for line in told:
        print(f"spec-names: {line}", file=sys.stderr)
    return 1 if told else 0


if __name__ == "__main__":
    sys.exit(main(sys.argv[1:]))
