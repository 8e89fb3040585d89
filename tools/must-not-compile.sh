#!/bin/bash
# Compiles programs that the compiler must refuse, each beside one that differs in little and must compile and run: an analysis
# is kept past the program that was analysed, from which it borrows; and a look-up probes on a counter that its caller doesn't
# have. None is proved, and each takes a minute or some. It works on a scratch copy, and needs rt.
set -eu
cd "$(dirname "$0")/.."
room="$(mktemp -d)"
trap 'rm -rf "$room"' EXIT
git init --quiet "$room"
tar -cf - --exclude='crates/*/out' crates crates.txt HANDLES | tar -xf - -C "$room"
cat >>"$room/crates.txt" <<'CRATES'
kept_analysis: semantic_tree tree_json semantic
counted_look_ups: semantic_syntax scoping resolver
CRATES
mkdir -p "$room"/crates/{kept_analysis,counted_look_ups}/src
failed=0

# has CRATE PATTERN TEXT: what compiling the crate and running it says has a line of the pattern, as the text promises.
has() {
    local log
    log="$(cd "$room/crates/$1" && rt try --steps 1 2>&1)" || true
    if grep -q "$2" <<<"$log"; then
        echo "ok: $3"
    else
        printf 'FAILED: %s\n%s\n' "$3" "$log"
        failed=1
    fi
}

cat >"$room/crates/kept_analysis/src/main.rt" <<'SOURCE'
//! Says how many scopes a program has.
#![tactic(auto)]

use semantic::SemanticBuilder;
use semantic_tree::Program;
use std::alloc::{AllocError, Global};
use std::io;
use tree_json::read_program;

const TREE: &str =
    r#"{"format":1,"source":"","goal":"script","lang":"js","comments":[],"rows":[[0,"root","Program",0,0,"",[]]]}"#;

fn scopes(alloc: Global, program: Program) -> Result<usize, AllocError> {
    let ret = SemanticBuilder::new().build(alloc, &program)?;
    let scopes = ret.semantic.scoping().scopes_len();
    drop(ret);
    drop(program);
    Ok(scopes)
}

fn main(rt: HostRuntime) -> io::Result<()> {
    match read_program(rt.alloc(), TREE.as_bytes()) {
        Ok(program) => {
            let scopes = scopes(rt.alloc(), program)?;
            println!(rt; "scopes: {scopes}")
        }
        Err(_) => println!(rt; "no program"),
    }
}
SOURCE
has kept_analysis '^scopes: 1$' 'an analysis that goes before its program compiles'

# The program goes first.
sed -i -e '/^    drop(program);$/d' -e 's/^    let scopes = /    drop(program);\n    let scopes = /' \
    "$room/crates/kept_analysis/src/main.rt"
has kept_analysis 'error\[borrow-e0505\].*`program`' 'an analysis that outlives its program is refused'

cat >"$room/crates/counted_look_ups/src/main.rt" <<'SOURCE'
//! Says how many scopes a look-up asks.
#![tactic(auto)]

use resolver::{UnresolvedReference, UnresolvedReferences, resolve_all};
use scoping::Scoping;
use semantic_syntax::{
    Ident, NodeId, Reference, ReferenceFlags, ReferenceId, ScopeFlags, ScopeId, Steps,
};
use std::alloc::{AllocError, Global};
use std::io;

fn probes(alloc: Global) -> Result<u64, AllocError> {
    let root = ScopeId::new(0);
    let mut scoping = Scoping::new(alloc);
    scoping.add_scope(None, NodeId::ROOT, ScopeFlags::Top)?;
    scoping.create_reference(Reference::new(NodeId::ROOT, root, ReferenceFlags::Read))?;
    let mut waiting = UnresolvedReferences::new(alloc);
    waiting.push(UnresolvedReference {
        name: Ident::new("x"),
        reference_id: ReferenceId::new(0),
        lookup_scope_id: root,
    })?;
    let mut steps = Steps::new(());
    let _outcomes = resolve_all(alloc, &waiting, &scoping, &mut steps)?;
    Ok(steps.count())
}

fn main(rt: HostRuntime) -> io::Result<()> {
    let probes = probes(rt.alloc())?;
    println!(rt; "probes: {probes}")
}
SOURCE
has counted_look_ups '^probes: 1$' "a look-up that probes on its caller's counter compiles"

# The look-up ticks that counter once, and asks the scope twice on another one.
probe='let symbol = source.probe_at(scope, name, place, steps)?;'
uncounted='steps.tick(); let mut own = Steps::new(()); let _again = source.probe_at(scope, name, place, \&mut own); let symbol = source.probe_at(scope, name, place, \&mut own)?;'
sed -i "s/^    $probe\$/    $uncounted/" "$room/crates/resolver/src/lookup.rt"
grep -q 'Steps::new' "$room/crates/resolver/src/lookup.rt"
has counted_look_ups 'error.*Steps' "a look-up that probes on a counter of its own is refused"
exit $failed
