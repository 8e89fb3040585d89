#!/bin/sh
# How the time of the module linker grows with a set of modules: for each family, how long the program takes on n and on 4n
# modules. Wanted: at most 6 times as long for 4 times as many. The time is the processor's, the least of three runs. The
# program is bin/module_linker, which is built first if need be, or the one that is given; it needs python3.
# usage: bench/module_linker.sh [PROGRAM [N]]
set -eu
cd "$(dirname "$0")/.."
exec python3 - "${1:-bin/module_linker}" "${2:-1000}" <<'SOURCE'
import json
import resource
import subprocess
import sys
import tempfile

RUNS = 3
MOST = 6.0


class Tree:
    """The rows of a module's tree, whose spans are all empty."""

    def __init__(self):
        self.rows = [[0, "root", "Program", 0, 0, "", []]]

    def add(self, depth, role, kind, text=""):
        self.rows.append([depth, role, kind, 0, 0, text, []])

    def import_names(self, names, source):
        """import { name, .. } from "source";"""
        self.add(1, "body", "ImportDeclaration")
        for name in names:
            self.add(2, "specifiers", "ImportSpecifier")
            self.add(3, "imported", "IdentifierName", name)
            self.add(3, "local", "BindingIdentifier", name)
        self.add(2, "source", "StringLiteral", source)

    def pass_on(self, name, source):
        """export { name } from "source";"""
        self.add(1, "body", "ExportFromDeclaration")
        self.add(2, "specifiers", "ExportSpecifier")
        self.add(3, "local", "IdentifierName", name)
        self.add(3, "exported", "IdentifierName", name)
        self.add(2, "source", "StringLiteral", source)

    def pass_on_all(self, source):
        """export * from "source";"""
        self.add(1, "body", "ExportAllDeclaration")
        self.add(2, "source", "StringLiteral", source)

    def declare(self, name):
        """export let name;"""
        self.add(1, "body", "ExportDeclaration")
        self.add(2, "declaration", "VariableDeclaration", "let")
        self.add(3, "declarators", "VariableDeclarator")
        self.add(4, "id", "BindingIdentifier", name)

    def text(self):
        tree = {"comments": [], "format": 1, "goal": "module", "lang": "js", "rows": self.rows, "source": ""}
        return json.dumps(tree, separators=(",", ":"))


def chain(n):
    """Each module imports the name of the next and passes it on; the last declares it."""
    trees = [Tree() for _ in range(n)]
    for i, tree in enumerate(trees[:-1]):
        tree.import_names(["x"], f"m{i + 1}")
        tree.pass_on("x", f"m{i + 1}")
    trees[-1].declare("x")
    return trees


def ring(n):
    """The same, and the last passes on the name of the first."""
    trees = [Tree() for _ in range(n)]
    for i, tree in enumerate(trees):
        tree.import_names(["x"], f"m{(i + 1) % n}")
        tree.pass_on("x", f"m{(i + 1) % n}")
    return trees


def star(n):
    """One module imports 100 names of another, which passes on all names of n modules, of which 100 declare one."""
    names = [f"x{i}" for i in range(100)]
    trees = [Tree() for _ in range(n + 2)]
    trees[0].import_names(names, "m1")
    for i in range(n):
        trees[1].pass_on_all(f"m{i + 2}")
    for i, name in enumerate(names[:n]):
        trees[i + 2].declare(name)
    return trees


def stars_in_a_ring(n):
    """Each module passes on all names of the next, the last those of the first; one declares a name that all import."""
    trees = [Tree() for _ in range(n)]
    for i, tree in enumerate(trees):
        tree.import_names(["x", "y"], f"m{(i + 1) % n}")
        tree.pass_on_all(f"m{(i + 1) % n}")
    trees[n // 2].declare("x")
    return trees


def used():
    """The processor time of the programs that were run so far, in seconds."""
    children = resource.getrusage(resource.RUSAGE_CHILDREN)
    return children.ru_utime + children.ru_stime


def seconds(program, trees):
    """The least processor time of some runs over the set, and how many lines the program writes."""
    modules = [{"name": f"m{i}", "tree": tree.text()} for i, tree in enumerate(trees)]
    with tempfile.TemporaryFile() as given, tempfile.TemporaryFile() as told:
        given.write(json.dumps({"modules": modules}, separators=(",", ":")).encode())
        best = None
        for _ in range(RUNS):
            given.seek(0)
            told.seek(0)
            told.truncate()
            before = used()
            status = subprocess.run([program], stdin=given, stdout=told).returncode
            time = used() - before
            if status not in (0, 1):
                sys.exit(f"bench: {program} ended with status {status}")
            best = time if best is None else min(best, time)
        told.seek(0)
        return best, told.read().count(b"\n")


program, n = sys.argv[1], int(sys.argv[2])
slow = False
for family in (chain, ring, star, stars_in_a_ring):
    once, lines = seconds(program, family(n))
    more, _ = seconds(program, family(4 * n))
    ratio = more / once
    slow = slow or ratio > MOST
    name = family.__name__.replace("_", " ")
    print(f"{name}, {n} modules: {1000 * once:.1f} ms, {lines} lines; {4 * n} modules: {1000 * more:.1f} ms, ratio {ratio:.1f} (wanted at most {MOST:.0f})")
sys.exit(1 if slow else 0)
SOURCE
