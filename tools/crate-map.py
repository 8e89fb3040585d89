#!/usr/bin/env python3
"""Writes the map of the crates, the diagrams of what stands on what and the list of source files into docs/architecture.md,
from crates.txt and the first sentence of each file.
usage: tools/crate-map.py [--check]

The map stands between the lines `<!-- crates -->` and `<!-- end of crates -->`. A crate's layer is one above the highest
crate that it stands on; of those that it stands on, the map names the ones that no other of them stands on.

A diagram stands between the lines `<!-- diagram of CRATE .. -->` and `<!-- end of diagram -->`: a tree of these crates and
of all below them. Each crate has one line in all diagrams together, in the first one that has it, under a crate that
stands on it; what a crate stands on besides what is drawn under it is named behind it. `<!-- diagram of the others -->`
has the crates that no other diagram has.

The list of source files stands between the lines `<!-- files -->` and `<!-- end of files -->`. A file that doesn't begin with
what it is, is told, and the status is 1.

With --check nothing is written, and the status is 1 where map, diagrams and list aren't those of crates.txt and the files."""

import glob
import os
import re
import sys

TOP = os.path.dirname(os.path.dirname(os.path.abspath(__file__)))
DOC = f"{TOP}/docs/architecture.md"
MAP = re.compile(r"(?s)(<!-- crates -->\n).*(<!-- end of crates -->)")
FILES = re.compile(r"(?s)(<!-- files -->\n).*(<!-- end of files -->)")
DIAGRAM = re.compile(r"(?s)<!-- diagram of ([a-z_ ]+) -->\n.*?<!-- end of diagram -->")
OTHERS = "the others"


def crates_listed():
    """The crates of the repository that each crate names."""
    named = {}
    with open(f"{TOP}/crates.txt", encoding="utf-8") as file:
        for line in file:
            head, colon, words = line.partition("#")[0].partition(":")
            if colon:
                named[head.split()[0]] = words.split()
    return {name: [it for it in words if it in named] for name, words in named.items()}


def all_below(named):
    """All crates that each crate stands on."""
    found = {}

    def below(name):
        if name not in found:
            found[name] = set(named[name]).union(*(below(it) for it in named[name]))
        return found[name]

    for name in named:
        below(name)
    return found


def layers(named):
    """How many crates stand below each crate, one on the other."""
    found = {}

    def layer(name):
        if name not in found:
            found[name] = 1 + max((layer(it) for it in named[name]), default=-1)
        return found[name]

    for name in named:
        layer(name)
    return found


def directly_below(named):
    """Of the crates that each crate stands on, those that no other of them stands on."""
    below = all_below(named)
    return {name: [it for it in words if not any(it in below[other] for other in words)] for name, words in named.items()}


def first_sentence(path):
    """What a source file says of itself first."""
    with open(path, encoding="utf-8") as file:
        said = re.match(r"(?:\s*//!? ?(.*)\n)+", file.read())
    lines = [re.sub(r"^\s*//!? ?", "", it) for it in (said[0] if said else "").splitlines()]
    return re.split(r"(?<=[.:])\s", " ".join(lines).strip())[0].rstrip(":.")


def root_of(name):
    """The crate's root file."""
    return next(path for path in (f"{TOP}/crates/{name}/src/{root}.rt" for root in ("lib", "main")) if os.path.isfile(path))


def rows(named):
    direct, layer = directly_below(named), layers(named)
    yield "| Layer | Crate | What it is | Stands on |"
    yield "|---|---|---|---|"
    for name in sorted(named, key=lambda it: (layer[it], it)):
        yield f"| {layer[name]} | `{name}` | {first_sentence(root_of(name))} | {', '.join(direct[name])} |"


def sources(name):
    """The crate's source files but its root, by their paths below the crates."""
    found = glob.glob(f"{TOP}/crates/{name}/src/**/*.rt", recursive=True)
    return sorted(os.path.relpath(it, f"{TOP}/crates") for it in found if it != root_of(name))


def file_rows(named, silent):
    """The rows on source files; those that don't say what they are go to the list."""
    yield "| File | What it is |"
    yield "|---|---|"
    for path in (path for name in sorted(named) for path in sources(name)):
        said = first_sentence(f"{TOP}/crates/{path}").replace("|", "\\|")
        silent.extend([] if said else [path])
        yield f"| `{path}` | {said} |"


def homes(named, tops):
    """The crate under which each crate below the tops is drawn: the lowest that stands directly on it."""
    direct, below, layer = directly_below(named), all_below(named), layers(named)
    drawn = set(tops).union(*(below[it] for it in tops))
    above = {name: [it for it in drawn if name in direct[it]] for name in drawn}
    return {name: min(above[name], key=lambda it: (layer[it], it)) for name in drawn if above[name]}


def tree(named, tops, done):
    """The lines of a diagram, without the crates that are done; those that it draws are done then."""
    direct, layer = directly_below(named), layers(named)
    home = homes(named, tops)
    lines = []

    def draw(name, first, rest):
        done.add(name)
        under = [it for it in direct[name] if home.get(it) == name and it not in done]
        under.sort(key=lambda it: (layer[it], it))
        besides = sorted(it for it in direct[name] if it not in under)
        lines.append(f"{first}{name}{' .. ' + ', '.join(besides) if besides else ''}")
        for it in under:
            last = it == under[-1]
            draw(it, rest + ("└─ " if last else "├─ "), rest + ("   " if last else "│  "))

    for top in tops:
        if top not in home and top not in done:
            draw(top, "", "")
    return lines


def tops_of(named, words, drawn):
    """The crates at the top of a diagram; of the others those on which no other one stands."""
    if words != OTHERS:
        return words.split()
    left = [it for it in named if it not in drawn]
    return sorted(it for it in left if not any(it in named[other] for other in left))


def with_diagrams(named, text):
    below = all_below(named)
    named_tops = [top for words in DIAGRAM.findall(text) if words != OTHERS for top in words.split()]
    drawn = set(named_tops).union(*(below[it] for it in named_tops))
    done = set()

    def draw(found):
        lines = "\n".join(tree(named, tops_of(named, found[1], drawn), done))
        return f"<!-- diagram of {found[1]} -->\n\n```\n{lines}\n```\n\n<!-- end of diagram -->"

    return DIAGRAM.sub(draw, text)


def with_table(text, place, rows):
    """The text with a table in its place, which has to be there once."""
    table = "\n".join(rows)
    made, count = place.subn(lambda it: f"{it[1]}\n{table}\n\n{it[2]}", text)
    if count != 1:
        sys.exit(f"crate-map: docs/architecture.md has no single place {place.pattern}")
    return made


def main(words):
    if words not in ([], ["--check"]):
        print("usage: tools/crate-map.py [--check]", file=sys.stderr)
        return 2
    with open(DOC, encoding="utf-8") as file:
        text = file.read()
    named, silent = crates_listed(), []
    made = with_diagrams(named, with_table(text, MAP, rows(named)))
    made = with_table(made, FILES, file_rows(named, silent))
    for path in silent:
        print(f"crate-map: {path} doesn't say what it is in its first line", file=sys.stderr)
    if words:
        if made != text:
            print("crate-map: docs/architecture.md isn't of crates.txt and the files: run tools/crate-map.py", file=sys.stderr)
        return 1 if silent or made != text else 0
    with open(DOC, "w", encoding="utf-8") as file:
        file.write(made)
    return 1 if silent else 0


if __name__ == "__main__":
    sys.exit(main(sys.argv[1:]))
