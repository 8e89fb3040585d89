#!/bin/sh
# Runs the programs over real ends that no stored run can have (tools/test-runs.sh runs those), and compares each exit status and the
# line on standard error with what they must be: of the report an input one byte over the limit, an input that can't be read, and a
# full device as output; of the renamer and the lint a word that is no text.
set -u
cd "$(dirname "$0")/.."
lines="$(mktemp)"
trap 'rm -f "$lines"' EXIT
failed=0

# expect NAME STATUS LINE, of the run just done
expect() {
    line="$(cat "$lines")"
    if [ "$status" = "$2" ] && [ "$line" = "$3" ]; then
        echo "ok: $1: status $status $line"
    else
        echo "FAILED: $1: status $status for $2, line '$line' for '$3'"
        failed=1
    fi
}

head -c 67108865 /dev/zero | tr '\0' ' ' | bin/report >/dev/null 2>"$lines"; status=$?
expect "one byte over the limit" 4 "input too long"
bin/report </ >/dev/null 2>"$lines"; status=$?
expect "an input that can't be read" 5 "read failed"
bin/report <samples/function.json >/dev/full 2>"$lines"; status=$?
expect "a full device" 6 "write failed"

word="$(printf '\377')"
bin/renamer 2 "$word" <samples/function.json >/dev/null 2>"$lines"; status=$?
expect "a name that is no text" 2 "usage: renamer SYMBOL NAME"
bin/name_lint "$word" <samples/names.json >/dev/null 2>"$lines"; status=$?
expect "a known name that is no text" 2 "usage: name_lint [NAME ..]"
exit $failed
