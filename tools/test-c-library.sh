#!/bin/bash
# Builds the library for C, and compares what the examples in C and Python make of it with the stored report of the report
# program. It needs a C compiler and Python.
# usage: tools/test-c-library.sh [FOLDER]   (where the library is put)
set -u
top="$(cd "$(dirname "$0")/.." && pwd)"
room="$(mktemp -d)"
trap 'rm -rf "$room"' EXIT
library="${1:-$room}"
"$top/tools/build-c-library.sh" "$library" || exit 1
cc -std=c99 -Wall -Wextra -pedantic -Werror -I"$top/include" -o "$room/report" "$top/examples/c/report.c" "$library/libbolgwyr.a" || exit 1
in_python=(python3 "$top/examples/python/report.py" "$library/libbolgwyr.so")
failed=0

# expect NAME WANTED FOUND
expect() {
    if [ "$2" = "$3" ]; then
        echo "ok: $1"
    else
        printf 'FAILED: %s\n  wanted: %s\n  found:  %s\n' "$1" "$2" "$3"
        failed=1
    fi
}

# answer INPUT COMMAND..: the status, the bytes that were written and the line on errors
answer() {
    "${@:2}" <"$1" >"$room/out" 2>"$room/errs"
    echo "$? $(cksum <"$room/out") $(cat "$room/errs")"
}

none="$(cksum </dev/null)"
tree="$top/crates/report_main/stdin"
stored="0 $(cksum <"$top/crates/report_main/stdout") "
usage="2 $none usage: report [--check] [--nodes] [--classes] [--stats] [--make N]"
printf '{"format":1' >"$room/broken"
for language in C Python; do
    command=("$room/report")
    [ "$language" = C ] || command=("${in_python[@]}")
    expect "$language: the stored report" "$stored" "$(answer "$tree" "${command[@]}")"
    expect "$language: bytes that are no tree" "3 $none tree: not JSON" "$(answer "$room/broken" "${command[@]}")"
    expect "$language: no bytes" "3 $none tree: not JSON" "$(answer /dev/null "${command[@]}")"
    expect "$language: a word that isn't known" "$usage" "$(answer "$tree" "${command[@]}" --what)"
    expect "$language: a word that isn't UTF-8" "$usage" "$(answer "$tree" "${command[@]}" "$(printf '\377')")"
done

# Buffers of each size up to the report's: its front, and nothing behind the buffer.
cat >"$room/sizes.py" <<'PYTHON'
import ctypes, sys
sys.path.insert(0, sys.argv[1])
from report import load, report
call, tree = load(sys.argv[2]), open(sys.argv[3], "rb").read()
status, whole, line = report(call, tree)
assert (status, line) == (0, b"")
assert report(call, tree, size=1) == (0, whole, b"")
for size in range(len(whole) + 2):
    buffer = ctypes.create_string_buffer(b"?" * (len(whole) + 9))
    answer = call(tree, len(tree), b"", 0, buffer, size, b"", 0)
    assert answer.report_len == len(whole)
    assert buffer.raw[: len(whole) + 9] == whole[:size] + b"?" * (len(whole) + 9 - min(size, len(whole)))
print("whole")
PYTHON
expect "buffers of each size" whole "$(python3 "$room/sizes.py" "$top/examples/python" "$library/libbolgwyr.so" "$tree" 2>&1)"
exit $failed
