#!/bin/sh
# Makes pages with bolgwyr scopes and tries them in a headless Chromium: clicks, keys, parts of the address, findings, renaming in
# place, a project of several files, the pictures of scopes and modules, a page of ten thousand lines, and how all looks in light and
# dark, wide and narrow. The pages stay in the folder given as word, else in a scratch one that goes.
set -eu
here="$(cd "$(dirname "$0")" && pwd)"
if [ $# -gt 0 ]; then
    mkdir -p "$1"
    folder="$(cd "$1" && pwd)"
else
    folder="$(mktemp -d)"
    trap 'rm -rf "$folder"' EXIT
fi
cd "$here/analyse/test"
bolgwyr="$here/../bin/bolgwyr"
# A page is made by the one program that has all tools; the one with the report alone isn't asked.
"$bolgwyr" check shown.mjs >/dev/null || true
mkdir -p "$folder/programs"
ln -sf "$("$here/programs/ready.sh" tools_main | cut -d ' ' -f 2-)" "$folder/programs/tools_main"
ln -sf /bin/false "$folder/programs/report_main"
BOLGWYR_PROGRAMS="$folder/programs" "$bolgwyr" scopes shown.mjs -o "$folder/shown.html"
# The page of a report that has lines of every kind.
BOLGWYR_REPORT=./stored-report.sh "$bolgwyr" scopes faulty.ts -o "$folder/faulty.html"
"$bolgwyr" scopes renamed.ts -o "$folder/renamed.html"
"$bolgwyr" scopes property.ts -o "$folder/property.html"
(cd project && "$bolgwyr" scopes --project main.mjs -o "$folder/project.html")
node long-source.js >"$folder/long.mjs"
"$bolgwyr" scopes "$folder/long.mjs" -o "$folder/long.html"
node whole.js "$folder/shown.html" shown.mjs "$folder/faulty.html" faulty.ts "$folder/long.html" "$folder/long.mjs" \
    "$folder/renamed.html" renamed.ts "$folder/property.html" property.ts "$folder/project.html" project/main.mjs
node page.js "$folder"
