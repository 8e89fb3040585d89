#!/bin/bash
# Runs the programs as they are stored in tools/test-runs, a folder for each run: its words, one a line, of which the first names the
# tool (`args`), what it reads (`stdin`), and what it must write and answer (`stdout`, `stderr`, `status`). Where the repository has such a
# text elsewhere, `stdin.path` or `stdout.path` says where. There is one for each status that a file can cause. The report runs in its own
# program, too.
# usage: tools/test-runs.sh
set -u
cd "$(dirname "$0")/.." || exit 1
told="$(mktemp -d)"
trap 'rm -rf "$told"' EXIT
passed=0 failed=0

# stored RUN PART: where the part of the run stands.
stored() {
    if [ -f "$1/$2.path" ]; then cat "$1/$2.path"; else echo "$1/$2"; fi
}

# try RUN PROGRAM WORD..: what the program does is what stands stored.
try() {
    tools/run-program.sh "${@:2}" <"$(stored "$1" stdin)" >"$told/stdout" 2>"$told/stderr"
    echo $? >"$told/status"
    local differs=
    for part in status stderr stdout; do
        cmp -s "$(stored "$1" "$part")" "$told/$part" || differs="$differs $part"
    done
    if [ -z "$differs" ]; then
        passed=$((passed + 1))
    else
        failed=$((failed + 1))
        echo "FAILED: $1 by $2:$differs; status $(cat "$told/status"), $(head -c 200 "$told/stderr")"
    fi
}

# A program that has to be built tells how that goes on standard error.
for program in report_main tools_main; do
    tools/run-program.sh "$program" --build </dev/null >/dev/null 2>&1
done

for run in tools/test-runs/*/; do
    run="${run%/}"
    mapfile -t words <"$run/args"
    try "$run" tools_main "${words[@]}"
    [ "${words[0]}" != report ] || try "$run" report_main "${words[@]:1}"
done

echo "$passed passed, $failed failed"
[ "$failed" = 0 ]
