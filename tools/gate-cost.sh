#!/bin/sh
# Runs the gate, `rt ci` with the words given, and then prints in processor seconds what each crate, its tests and its
# must-fail edits cost, the dearest crate first, and the dearest edits. A crate with two edits or more is proved once
# more for them, which is its seed. What the gate kept from an earlier run costs nothing: the word --anew measures from
# nothing. Where the gate keeps nothing from run to run, the word changes nothing.
# The last lines say what all of it cost, and which part of the time the machine's host took: then the minutes are no measure.
# The exit status is the gate's. It needs rt, python3 and Linux's /proc.
set -eu
cd "$(dirname "$0")/.."
exec python3 tools/gate_cost.py "$@"
