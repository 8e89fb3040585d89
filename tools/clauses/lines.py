"""The lines of contracts: of the clauses `requires` and `ensures`, each of which is one or more lines up to its closing brace."""

import glob
import os
import re

TOP = os.path.dirname(os.path.dirname(os.path.dirname(os.path.abspath(__file__))))
# A line with more characters is wider than the page.
WIDEST = 100
CLAUSE = re.compile(r"\s*(?:requires|ensures)\b")


def marked(lines):
    """Each line, and whether it is of a clause: "first", "further" or "none"."""
    depth = 0
    for line in lines:
        is_first = depth == 0 and bool(CLAUSE.match(line))
        of_clause = "first" if is_first else "further" if depth > 0 else "none"
        if of_clause != "none":
            depth += line.count("{") - line.count("}")
        yield line, of_clause


def lines_in(path):
    with open(path, encoding="utf-8") as file:
        return file.read().split("\n")


def sources(crate="*"):
    return sorted(glob.glob(f"{TOP}/crates/{crate}/src/**/*.rt", recursive=True))
