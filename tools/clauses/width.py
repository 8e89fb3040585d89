#!/usr/bin/env python3
"""Counts the lines of contracts that are wider than the page, and sees that no crate gets more of them.
usage: tools/clauses/width.py [--lower]

`ceilings.txt` has for each crate how many lines of its `requires` and `ensures` may have more than 100 characters; a crate that isn't
there has none. More of them are told with their places, and the status is 1 then; fewer, too, so that the ceilings sink with them.
With --lower the ceilings sink to the counts. `break.py` breaks such lines."""

import os
import sys

sys.dont_write_bytecode = True

from lines import TOP, WIDEST, lines_in, marked, sources  # noqa: E402

CEILINGS = f"{TOP}/tools/clauses/ceilings.txt"


def wide_lines(path):
    """The numbers of the lines of clauses that are too wide."""
    for number, (line, of_clause) in enumerate(marked(lines_in(path)), 1):
        if of_clause != "none" and len(line) > WIDEST:
            yield number


def wide_by_crate():
    """The places of the lines that are too wide, by crate."""
    found = {}
    for path in sources():
        name = os.path.relpath(path, TOP)
        found.setdefault(name.split(os.sep)[1], []).extend(f"{name}:{number}" for number in wide_lines(path))
    return found


def ceilings():
    with open(CEILINGS, encoding="utf-8") as file:
        return {crate: int(count) for crate, count in (line.split() for line in file)}


def lower(counts, allowed):
    with open(CEILINGS, "w", encoding="utf-8") as file:
        for crate, count in sorted(counts.items()):
            ceiling = min(count, allowed.get(crate, 0))
            file.write(f"{crate} {ceiling}\n" if ceiling else "")


def main(words):
    if words not in ([], ["--lower"]):
        print("usage: tools/clauses/width.py [--lower]", file=sys.stderr)
        return 2
    found, allowed = wide_by_crate(), ceilings()
    counts = {crate: len(places) for crate, places in found.items()}
    if words:
        lower(counts, allowed)
        return 0
    status = 0
    for crate in sorted({*counts, *allowed}):
        count, ceiling = counts.get(crate, 0), allowed.get(crate, 0)
        if count == ceiling:
            continue
        status = 1
        advice = "run tools/clauses/width.py --lower" if count < ceiling else f"break {count - ceiling} of " + ", ".join(found[crate])
        print(f"clauses: {crate} has {count} lines that are too wide, its ceiling is {ceiling}: {advice}", file=sys.stderr)
    return status


if __name__ == "__main__":
    sys.exit(main(sys.argv[1:]))
