#!/bin/sh
# Tells in a line which program of a crate is to run: `proved PATH`, proved from the sources as they stand; `unproved PATH`, built
# from them without a proof; `given PATH`, in the folder BOLGWYR_PROGRAMS; or `none`, if it is still to be built. It builds nothing.
# usage: tools/programs/ready.sh CRATE
set -eu
here="$(dirname "$0")"
top="$here/../.."
crate="$1"

# True if that folder's program was made from the sources as they stand: nothing that its stamp names is newer than the stamp.
is_fresh() {
    [ -x "$1/$crate" ] && [ -f "$1/stamp" ] || return 1
    # shellcheck disable=SC2046 # each file and folder is a word of its own
    newer="$(cd "$top" && find $(sed 1d "$1/stamp") -newer "$1/stamp" -print -quit 2>&1)" || return 1
    [ -z "$newer" ]
}

tell() {
    echo "$1 $2/$crate"
    exit
}

[ -z "${BOLGWYR_PROGRAMS:-}" ] || tell given "$BOLGWYR_PROGRAMS"
# In an installed copy the programs stand beside the tools, and no sources do.
if [ -d "$top/programs" ]; then
    state="$(sed -n "s/^$crate //p" "$top/programs/states")"
    [ -z "$state" ] || tell "$state" "$top/programs"
    echo none
    exit
fi
top="$(cd "$top" && pwd)"
out="$top/crates/$crate/out"
is_fresh "$out/proved" && tell proved "$out/proved"
is_fresh "$out/unproved" && tell unproved "$out/unproved"
echo none
