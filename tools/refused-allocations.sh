#!/bin/sh
# Refuses each allocation of a long row of edits of the tables of scopes, one at a time, and of a clone of them. After a
# refused edit the tables must be those before it, and the edit must succeed when it is made again, so each run must end
# as the run without a refusal does. Words are the numbers of the allocations to refuse; without any it is each of them,
# which takes long, since each is a build and a run of its own. It works on a scratch copy, and needs rt.
set -eu
cd "$(dirname "$0")/.."
. bench/scratch.sh
new_program refusing 'scoping semantic_syntax'
for part in edits long_row table_text; do
    cp "crates/library_cases/src/tables/$part.rt" "$program/src/"
done

cat >"$program/src/main.rt" <<'SOURCE'
// Makes the long row of edits. An edit that is refused is made again, once the tables are seen to be as before.
#![tactic(auto)]

mod edits;
mod long_row;
mod table_text;

use edits::{Edit, take};
use long_row::{LONG_ROW, LONG_ROW_END};
use scoping::Scoping;
use std::io;
use table_text::text_of;

// The text of the tables, at the second attempt if the first is refused.
fn text_twice(rt: &HostRuntime, scoping: &Scoping) -> io::Result<String> {
    if let Ok(text) = text_of(rt.alloc(), scoping) {
        return Ok(text);
    }
    println!(rt; "refused: the text")?;
    Ok(text_of(rt.alloc(), scoping)?)
}

fn compare(rt: &HostRuntime, scoping: &Scoping, wanted: &str) -> io::Result<()> {
    let text = text_twice(rt, scoping)?;
    if text.as_str() != wanted {
        println!(rt; "changed: {text} for {wanted}")?;
    }
    Ok(())
}

// Makes the edit, at the second attempt if the first is refused.
fn take_twice(
    rt: &HostRuntime,
    scoping: &mut Scoping,
    edit: &Edit,
    before: &str,
) -> io::Result<()> {
    if take(scoping, edit).is_ok() {
        return Ok(());
    }
    println!(rt; "refused: an edit of {before}")?;
    compare(rt, scoping, before)?;
    take(scoping, edit)?;
    Ok(())
}

// The clone, at the second attempt if the first is refused.
fn clone_twice(rt: &HostRuntime, scoping: &Scoping) -> io::Result<Scoping> {
    if let Ok(copy) = scoping.clone_in_with_semantic_ids_with_another_arena(rt.alloc()) {
        return Ok(copy);
    }
    println!(rt; "refused: the clone")?;
    Ok(scoping.clone_in_with_semantic_ids_with_another_arena(rt.alloc())?)
}

fn main(rt: HostRuntime) -> io::Result<()> {
    let mut scoping = Scoping::new(rt.alloc());
    let mut before = "p[]";
    for (edit, after) in LONG_ROW {
        take_twice(&rt, &mut scoping, edit, before)?;
        before = *after;
    }
    let copy = clone_twice(&rt, &scoping)?;
    compare(&rt, &scoping, LONG_ROW_END)?;
    compare(&rt, &copy, LONG_ROW_END)?;
    println!(rt; "done")
}
SOURCE

cd "$program"
failed=0
# The run with that allocation refused names what was refused, and ends as a run without a refusal does.
refuse() {
    log="$(rt try --fail-alloc "$1" 2>&1)" || true
    lines="$(printf '%s\n' "$log" | sed '/^allocations: /,$d')"
    refused="$(printf '%s\n' "$lines" | sed -n '1s/^refused: //p')"
    if [ -n "$refused" ] && [ "$(printf '%s\n' "$lines" | sed 1d)" = done ] && printf '%s\n' "$log" | grep -q '^run=ended status=0'; then
        echo "ok: allocation $1, $refused"
    else
        echo "FAILED: allocation $1"
        printf '%s\n' "$log"
        failed=1
    fi
}
if [ $# -eq 0 ]; then
    # More than there are: none is refused, and they are counted.
    log="$(rt try --fail-alloc 1000000 2>&1)" || true
    count="$(printf '%s\n' "$log" | sed -n 's/^allocations: //p')"
    set -- $(seq "$count")
fi
for number in "$@"; do
    refuse "$number"
done
exit $failed
