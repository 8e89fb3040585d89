#!/bin/sh
# Notes that the programs which a gate built are proved, once it has passed: FILE was written when it began, and no source is newer.
# usage: tools/programs/stamp-gate.sh FILE
exec python3 "$(dirname "$0")/prove.py" --gate-since "$1" report_main tools_main
