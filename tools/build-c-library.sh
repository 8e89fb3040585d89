#!/bin/sh
# Proves and builds the library for C, and puts libbolgwyr.a and libbolgwyr.so into a folder (out/c where none is named).
# With the variable BOLGWYR_ARCHIVE it takes that archive of the crate in place of proving and building one.
# usage: tools/build-c-library.sh [FOLDER]
set -eu
tools="$(cd "$(dirname "$0")" && pwd)"
folder="${1:-$tools/../out/c}"
archive="${BOLGWYR_ARCHIVE:-$tools/../crates/analysis_c/out/libanalysis_c.a}"

[ -n "${BOLGWYR_ARCHIVE:-}" ] || python3 "$tools/programs/prove.py" analysis_c </dev/null >&2
mkdir -p "$folder"
folder="$(cd "$folder" && pwd)"
room="$(mktemp -d)"
trap 'rm -rf "$room"' EXIT

# The kit's calls of `malloc`, `realloc` and `free` go with it.
cp "$archive" "$room/libbolgwyr.a"
(cd "$room" && ar x "$(dirname "$(rt doc)")/c/liblibc_c.a" && ar qs libbolgwyr.a ./*.o)
echo '{ global: bolgwyr_report; local: *; };' >"$room/exports"
cc -shared -o "$room/libbolgwyr.so" -Wl,--version-script="$room/exports" -Wl,--no-undefined \
    -Wl,--whole-archive "$room/libbolgwyr.a" -Wl,--no-whole-archive
mv "$room/libbolgwyr.a" "$room/libbolgwyr.so" "$folder"
