#!/bin/sh
# Runs the program of a crate with the words and the standard input given: the proved one where there is one of the sources as they
# stand, else one built without a proof, which is built first if need be. What is built, and how far it is, stands on standard error.
# The exit status is the program's, or if it can't be built UNBUILT, which is 8 where it isn't set.
# usage: tools/run-program.sh CRATE WORD..
set -eu
programs="$(dirname "$0")/programs"
crate="$1"
shift
unbuilt="${UNBUILT:-8}"

ready="$("$programs/ready.sh" "$crate")"
[ "$ready" = none ] || exec "${ready#* }" "$@"
if ! command -v python3 >/dev/null 2>&1; then
    echo "$crate: Python is wanted to build it: apt-get install python3" >&2
    exit "$unbuilt"
fi
exec python3 "$programs/build.py" --unbuilt "$unbuilt" --run "$crate" "$@"
