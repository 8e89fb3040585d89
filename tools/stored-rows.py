#!/usr/bin/env python3
"""Writes the sources of the stored programs into crates/program_cases/rows.md, beside what each of them shows.
usage: tools/stored-rows.py [--check]

A table stands between the lines `<!-- programs of FOLDER -->` and `<!-- end of programs -->`, one row for each tree of the
folder, in the order in which a run takes them. Its last column is written by hand, and kept; a program without words there
is told. With --check nothing is written, and the status is 1 where a table isn't that of its folder, or a program says
nothing."""

import json
import os
import re
import sys

TOP = os.path.dirname(os.path.dirname(os.path.abspath(__file__)))
DOC = f"{TOP}/crates/program_cases/rows.md"
TABLE = re.compile(r"(?s)<!-- programs of (\S+) -->\n.*?<!-- end of programs -->")
ROW = re.compile(r"^\| `([^`|]+)` \|.*\| ((?:[^|]|\\\|)*) \|$", re.M)
LIMIT = 110


def order(folder):
    """The names of the folder's programs, in the order in which the file beside it has them."""
    there = sorted(it[: -len(".json")] for it in os.listdir(f"{TOP}/{folder}") if it.endswith(".json"))
    listed = []
    for name in ("names", "cases"):
        path = f"{TOP}/{os.path.dirname(folder)}/{name}"
        if os.path.isfile(path):
            with open(path, encoding="utf-8") as file:
                listed += [line.rstrip("\n").partition("|")[0] for line in file]
    ranks = {name: rank for rank, name in reversed(list(enumerate(listed)))}
    return sorted(there, key=lambda it: (ranks.get(it, len(ranks)), it))


def quoted(text):
    """A text as code in a table, in one line, its end left out where it is long."""
    line = " ".join(text.split())
    line = line if len(line) <= LIMIT else f"{line[:LIMIT].rstrip()} .."
    if not line:
        return ""
    ticks = "``" if "`" in line else "`"
    return f"{ticks}{line}{ticks}".replace("|", "\\|")


def source_of(tree):
    return tree.get("source", "") if isinstance(tree, dict) else ""


def module_text(module):
    """A module of a set: its name and its source."""
    try:
        tree = json.loads(module["tree"])
    except (KeyError, TypeError, ValueError):
        return f"{module.get('name', '')}: no tree" if isinstance(module, dict) else "no module"
    return f"{module['name']}: {quoted(source_of(tree)) or 'nothing'}"


def told(path):
    """The language and the source of a program, or the modules of a set."""
    try:
        with open(path, encoding="utf-8") as file:
            tree = json.load(file)
    except ValueError:
        return "", "no JSON"
    modules = tree.get("modules") if isinstance(tree, dict) else None
    if isinstance(modules, list):
        return "set", "; ".join(map(module_text, modules)) or "no modules"
    if not isinstance(tree, dict):
        return "", "no tree"
    goal = tree.get("goal", "")
    return f"{tree.get('lang', '')}{'' if goal == 'script' else ' ' + goal}".strip(), quoted(source_of(tree)) or "nothing"


def table(folder, rules):
    yield "| Program | Language | Source | What it shows |"
    yield "|---|---|---|---|"
    for name in order(folder):
        language, source = told(f"{TOP}/{folder}/{name}.json")
        yield f"| `{name}` | {language} | {source} | {rules.get(name, '')} |"


def with_tables(text, silent):
    def made(found):
        folder, rules = found[1], dict(ROW.findall(found[0]))
        silent.extend(f"{folder}/{name}" for name in order(folder) if not rules.get(name))
        lines = "\n".join(table(folder, rules))
        return f"<!-- programs of {folder} -->\n\n{lines}\n\n<!-- end of programs -->"

    return TABLE.sub(made, text)


def main(words):
    if words not in ([], ["--check"]):
        print("usage: tools/stored-rows.py [--check]", file=sys.stderr)
        return 2
    with open(DOC, encoding="utf-8") as file:
        text = file.read()
    silent = []
    made = with_tables(text, silent)
    for name in silent:
        print(f"stored-rows: crates/program_cases/rows.md says nothing of {name}", file=sys.stderr)
    if words:
        if made != text:
            print("stored-rows: crates/program_cases/rows.md isn't of the stored programs: run tools/stored-rows.py", file=sys.stderr)
        return 1 if silent or made != text else 0
    with open(DOC, "w", encoding="utf-8") as file:
        file.write(made)
    return 0


if __name__ == "__main__":
    sys.exit(main(sys.argv[1:]))
