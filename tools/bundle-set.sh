#!/bin/sh
# Writes the JSON text of a set of modules to standard output, of files with the trees of its modules, in order. A module's
# name, which is what specifiers name it by, is the file's name without `.json`, or NAME where a word is NAME=FILE.
# usage: tools/bundle-set.sh [NAME=]FILE..
set -eu
[ $# -gt 0 ] || { echo "usage: tools/bundle-set.sh [NAME=]FILE.." >&2; exit 2; }
exec python3 -c '
import json, os, sys

modules = []
for word in sys.argv[1:]:
    name, equals, path = word.partition("=")
    if not equals:
        path = word
        name = os.path.basename(path).removesuffix(".json")
    with open(path, encoding="utf-8") as file:
        modules.append({"name": name, "tree": file.read()})
sys.stdout.write(json.dumps({"modules": modules}, ensure_ascii=False, separators=(",", ":")))
sys.stdout.write("\n")
' "$@"
