#!/bin/bash
# Refuses the report program each request for memory in turn: those of the report of each of some programs, with all that the
# words ask for, and some of those of a script that is made. A run of which one is refused ends with status 7, a front of the
# report and a front of the line on it, or as the run without a refusal does. It prints how many runs ended so. The words are
# programs of crates/program_cases/data/reports/programs. REPORT names the program, which is else the one that bin/report runs. It needs a C compiler.
set -eu
cd "$(dirname "$0")/.."
[ $# -gt 0 ] || set -- let-a-1-a-2 try-catch-a-a let-a-let-a import-readfile-from-fs-const-limit-10-e
room="$(mktemp -d)"
trap 'rm -rf "$room"' EXIT
report="${REPORT:-}"
if [ -z "$report" ]; then
    bin/report <samples/function.json >"$room/sample"
    report="$(tools/programs/ready.sh report_main)"
    report="${report#* }"
fi
cc -O2 -shared -fPIC -o "$room/refuse.so" tools/refused-memory/refuse.c
echo 'out of memory' >"$room/line"
failed=0

# refuse NUMBER INPUT WORD..: the run whose request of the number is refused, of which 0 refuses none; it sets `status`
refuse() {
    status=0
    LD_PRELOAD="$room/refuse.so" REFUSE="$1" REQUESTS="$room/requests" "$report" "${@:3}" \
        <"$2" >"$room/out" 2>"$room/errs" || status=$?
}

# True where the first file is a front of the second.
is_front() {
    cmp -s -n "$(stat -c %s "$1")" "$1" "$2"
}

# True where the run ended with status 7, a front of the report and a front of the line.
is_stopped() {
    [ "$status" = 7 ] && is_front "$room/out" "$room/whole" && is_front "$room/errs" "$room/line"
}

# True where it ended as the run without a refusal.
is_whole() {
    [ "$status" = "$ended" ] && cmp -s "$room/out" "$room/whole" && [ ! -s "$room/errs" ]
}

# try_all NAME STEP INPUT WORD..: refuses each STEPth request in turn
try_all() {
    local stopped=0 whole=0 number
    refuse 0 "${@:3}"
    ended="$status"
    cp "$room/out" "$room/whole"
    requests="$(cat "$room/requests")"
    for ((number = $2; number <= requests; number += $2)); do
        refuse "$number" "${@:3}"
        if is_stopped; then
            stopped=$((stopped + 1))
        elif is_whole; then
            whole=$((whole + 1))
        else
            echo "FAILED: $1, request $number: status $status"
            failed=1
        fi
    done
    echo "$1: $requests requests, $stopped runs stopped, $whole whole"
}

for name in "$@"; do
    tree="crates/program_cases/data/reports/programs/$name.json"
    try_all "$name" 1 "$tree"
    try_all "$name, with all words" 1 "$tree" --nodes --classes --stats
done
try_all "a script of 10000 functions" 1000 /dev/null --make 10000
exit $failed
