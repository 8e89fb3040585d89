#!/bin/sh
# Tries the wrong bodies that the gate leaves out: each edit of crates/NAME/wrong-bodies changes a body, or a definition in a crate of
# laws, and the prover must refuse it. Edits of different functions of a crate are tried together, since a proof rests on the contracts
# of what is called, not on bodies. All together take an hour or two of a processor, and the crates below them are proved first, as
# `bolgwyr prove` does it, where they aren't yet. The words are crates, or edits by their files; with none it takes all edits of all
# crates. A line for each edit says what refused it, and the last one how many were. The status is 1 where one isn't refused. It needs rt
# and python3.
set -eu
cd "$(dirname "$0")/.."
exec python3 tools/wrong_bodies.py "$@"
