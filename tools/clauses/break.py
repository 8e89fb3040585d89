#!/usr/bin/env python3
"""Breaks the lines of contracts that are wider than the page.
usage: tools/clauses/break.py FILE.rt ..

A line of a clause is broken where the fewest brackets are open: before an operator, behind `in` or the head of a function, or else
between arguments. A record that is too wide is broken behind its brace, and `rattle fmt` gives each field a line. The tokens stay, but
for the semicolon behind a record's last field, so no proof changes; a file for which that doesn't hold is left as it was and told,
and the status is 1 then. It needs `rattle` on the path, or beside `rt`."""

import os
import re
import shutil
import subprocess
import sys

sys.dont_write_bytecode = True

from lines import WIDEST, lines_in, marked  # noqa: E402

TOKEN = re.compile(r'"(?:\\.|[^"\\])*"|[(){}\[\]⟦⟧]|[^\s"(){}\[\]⟦⟧]+')
OPENING, CLOSING = "({[⟦", ")}]⟧"
# How well a line breaks before an operator: the loosest first.
OPERATORS = {"→": 0, "×": 0, "⊎": 0, "↔": 0, "≡": 1, "≤": 1, "<": 1, "++": 2, "∷": 2, "&&": 2, "||": 2, "∙": 2}
BEHIND_HEAD, BEFORE_BRACKET, IN_RECORD, BEFORE_ARGUMENT = 2, 3, 4, 5
NEVER_BEFORE = {*CLOSING, "{", ".", ":", ";", "↦", "|", "="}
NEVER_BEHIND = {*OPENING, *OPERATORS, ":", "=", "↦", "|", "elim", "if", "then", "else", "record", "let"}
# Each open bracket weighs more than any difference between operators.
OPEN_BRACKET = 10
# A line that breaks before this column is mostly empty; so much worse a place further on is taken for it.
EARLIEST, WORSE = 32, 12
# The tries that a record in a record takes.
PASSES = 4


class Scan:
    """What is open at a place of a line."""

    def __init__(self):
        self.depth, self.lets, self.records = 0, [], []
        self.record_at, self.in_head, self.last = None, False, None
        self.ended_let = self.ended_head = False

    def step(self, token):
        """Goes past a token."""
        self.ended_let = token == "in" and self.lets[-1:] == [self.depth]
        self.ended_head = self.in_head and token.endswith(".")
        if token in OPENING:
            self.depth += 1
            if token == "{" and self.record_at == self.depth - 1:
                self.records.append(self.depth)
                self.record_at = None
        elif token in CLOSING:
            if self.records[-1:] == [self.depth]:
                self.records.pop()
            self.depth -= 1
        elif token == "record":
            self.record_at = self.depth
        elif token == "let":
            self.lets.append(self.depth)
        elif token == "λ":
            self.in_head = True
        if self.ended_let:
            self.lets.pop()
        self.in_head = self.in_head and not self.ended_head
        self.last = token

    def cost(self, token):
        """How badly the line breaks before the token; none where it can't."""
        if self.lets or self.in_head or self.last is None:
            return None
        if self.records:
            starts = self.last == "{" and self.records[-1] == self.depth
            return IN_RECORD if starts else None
        if self.ended_let:
            return 0
        if self.ended_head:
            return BEHIND_HEAD
        if token in OPERATORS:
            return OPERATORS[token]
        if token in NEVER_BEFORE or self.last in NEVER_BEHIND:
            return None
        return BEFORE_BRACKET if token == "(" else BEFORE_ARGUMENT


def places(line):
    """Where the line may be broken, and how badly it breaks there."""
    scan = Scan()
    for found in TOKEN.finditer(line):
        cost = scan.cost(found[0])
        if cost is not None and line[found.start() - 1] == " ":
            yield found.start(), scan.depth * OPEN_BRACKET + cost
        scan.step(found[0])


def best(line, first):
    """The best place to break the line, if there is one: of the cheapest the last."""
    head = re.match(r"\s*(?:requires|ensures)[^{]*\{ " if first else r"\s*", line).end()
    found = [(place, cost) for place, cost in places(line) if head < place - EARLIEST // 4 and place <= WIDEST + 1]
    if not found:
        return None
    cheapest = min(cost for _, cost in found)
    later = [(place, cost) for place, cost in found if place >= EARLIEST and cost <= cheapest + WORSE]
    cheapest = min((cost for _, cost in later), default=cheapest)
    return max(place for place, cost in later or found if cost == cheapest)


def parts(line, first):
    """The lines that a line of a clause is broken into."""
    indent = len(line) - len(line.lstrip())
    behind = indent + 4 if first or re.match(r"\s*[\w.]+ = ", line) else indent
    while len(line) > WIDEST and (place := best(line, first)) is not None:
        before = line[:place].rstrip()
        yield before
        line, first = " " * behind + line[place:], False
        if before.endswith("{"):
            break
    yield line


def broken(lines):
    for line, of_clause in marked(lines):
        yield from [line] if of_clause == "none" else parts(line, of_clause == "first")


def rattle(*words):
    beside = os.path.join(os.path.dirname(os.path.realpath(shutil.which("rt") or "rt")), "rattle")
    return subprocess.run([shutil.which("rattle") or beside, "fmt", *words], capture_output=True, text=True, check=False)


def tokens(path):
    """The kinds and texts of the file's tokens, without a semicolon before a closing brace; none where it isn't read."""
    ran = rattle("--tokens", path)
    told = [line.split(" ", 3)[3] for line in ran.stdout.splitlines() if not line.startswith("file ")]
    kept = [one for one, after in zip(told, [*told[1:], ""]) if (one, after) != ('Antt ";"', 'Antt "}"')]
    return None if ran.returncode else kept


def write(path, lines):
    with open(path, "w", encoding="utf-8") as file:
        file.write("\n".join(lines))


def break_file(path):
    """Breaks the clauses of a file, and tells whether its tokens stayed; else it is as it was."""
    was, before = lines_in(path), tokens(path)
    for _ in range(PASSES):
        lines = lines_in(path)
        now = list(broken(lines))
        if now == lines:
            break
        write(path, now)
        if rattle("--write", path).returncode:
            break
    if before is not None and tokens(path) == before:
        return True
    write(path, was)
    return False


def main(words):
    if not words:
        print("usage: tools/clauses/break.py FILE.rt ..", file=sys.stderr)
        return 2
    left = [path for path in words if not break_file(path)]
    for path in left:
        print(f"clauses: {path} would change, and is left as it was", file=sys.stderr)
    return 1 if left else 0


if __name__ == "__main__":
    sys.exit(main(sys.argv[1:]))
