#!/bin/sh
# How long bindings take: 1,000,000 of them in 100,000 scopes made and looked up, against the same in std's `HashMap`
# alone (wanted: a ratio below 4), and the bindings of all scopes listed scope by scope, against one pass over a flat table
# of them (wanted: below 2). It works on a scratch copy, and proves what it measures there; it needs rt and awk. How many
# scopes there are, of ten bindings each, can be given as a word.
set -eu
cd "$(dirname "$0")/.."
scopes="${1:-100000}"
. bench/scratch.sh
new_program binding 'scoping semantic_syntax indexmap'

sed "s/COUNT_OF_SCOPES/$scopes/" >"$program/src/main.rt" <<'SOURCE'
// Makes, looks up and lists bindings, against std's map and against one pass over a map in order, and prints the times.
#![tactic(auto)]

use indexmap::IndexMap;
use scoping::{Bindings, Scoping};
use semantic_syntax::{Ident, NodeId, ScopeFlags, ScopeId, Span, SymbolFlags};
use std::alloc::{AllocError, Global};
use std::collections::HashMap;
use std::io;
use std::time::{Duration, Instant};

// How many scopes there are.
const SCOPES: u32 = COUNT_OF_SCOPES;

// How many names each scope binds.
const EACH: u32 = 10;

// How many different names there are.
const NAMES: u32 = 1000;

// How far apart the bindings are that are looked up one after the other.
const STRIDE: usize = 7919;

// How often each part is timed; the least time counts.
const TIMES: u32 = 5;

// A scope and a name that it binds.
type Key<'n> = (u32, &'n str);

fn names(alloc: Global) -> Result<Vec<String>, AllocError> {
    let mut names = Vec::new(alloc);
    for number in 0..NAMES {
        names.push(format!(in alloc; "name{number}")?)?;
    }
    Ok(names)
}

fn push_keys<'n>(
    keys: &mut Vec<Key<'n>>,
    names: &'n [String],
    scope: u32,
) -> Result<(), AllocError> {
    for number in 0..EACH {
        if let Some(name) = names.get(keys.len() % NAMES as usize) {
            keys.push((scope, name.as_str()))?;
        }
    }
    Ok(())
}

// The scopes with the names that they bind, in the order of binding.
fn keys(alloc: Global, names: &[String]) -> Result<Vec<Key<'_>>, AllocError> {
    let mut keys = Vec::new(alloc);
    for scope in 0..SCOPES {
        push_keys(&mut keys, names, scope)?;
    }
    Ok(keys)
}

// The same in the order of looking up.
fn scattered<'n>(alloc: Global, keys: &[Key<'n>]) -> Result<Vec<Key<'n>>, AllocError> {
    let mut scattered = Vec::new(alloc);
    let mut place = 0;
    for _ in 0..keys.len() {
        if let Some((scope, name)) = keys.get(place) {
            scattered.push((*scope, *name))?;
        }
        place = place.wrapping_add(STRIDE) % keys.len();
    }
    Ok(scattered)
}

fn add_scopes(tables: &mut Scoping) -> Result<(), AllocError> {
    for _ in 0..SCOPES {
        if tables.scopes_len() < SCOPES as usize {
            tables.add_scope(None, NodeId::ROOT, ScopeFlags::Top)?;
        }
    }
    Ok(())
}

fn bind(tables: &mut Scoping, scope: u32, name: &str) -> Result<(), AllocError> {
    if scope >= SCOPES {
        return Ok(());
    }
    let scope = ScopeId::new(scope);
    let flags = SymbolFlags::BlockScopedVariable;
    if tables.symbols_len() < 1_000_000_000 && scope.index() < tables.scopes_len() {
        let name = Ident::new(name);
        tables.create_symbol_with_binding(
            Span::new(0, 1),
            name,
            flags,
            scope,
            scope,
            NodeId::ROOT,
        )?;
    }
    Ok(())
}

fn tables(alloc: Global, keys: &[Key<'_>]) -> Result<Scoping, AllocError> {
    let mut tables = Scoping::new(alloc);
    add_scopes(&mut tables)?;
    for (scope, name) in keys {
        bind(&mut tables, *scope, *name)?;
    }
    Ok(tables)
}

fn find(tables: &Scoping, scope: u32, name: &str) -> usize {
    if scope >= SCOPES {
        return 0;
    }
    let scope = ScopeId::new(scope);
    if scope.index() >= tables.scopes_len() {
        return 0;
    }
    match tables.get_binding(scope, Ident::new(name)) {
        Some(symbol) => symbol.index(),
        None => 0,
    }
}

// The sum of the symbols that are found in the tables.
fn find_in_tables(tables: &Scoping, keys: &[Key<'_>]) -> usize {
    let mut sum: usize = 0;
    for (scope, name) in keys {
        sum = sum.wrapping_add(find(tables, *scope, *name));
    }
    sum
}

fn map<'n>(alloc: Global, keys: &[Key<'n>]) -> Result<HashMap<Key<'n>, usize>, AllocError> {
    let mut map = HashMap::new(alloc);
    for (scope, name) in keys {
        let symbol = map.len();
        map.insert((*scope, *name), symbol)?;
    }
    Ok(map)
}

// The sum of the symbols that are found in the map.
fn find_in_map<'n>(map: &HashMap<Key<'n>, usize>, keys: &[Key<'n>]) -> usize {
    let mut sum: usize = 0;
    for (scope, name) in keys {
        if let Some(symbol) = map.get(&(*scope, *name)) {
            sum = sum.wrapping_add(*symbol);
        }
    }
    sum
}

// A flat table in the order of binding, without the lists of the scopes.
fn flat(alloc: Global, keys: &[Key<'_>]) -> Result<IndexMap<(u32, usize), usize>, AllocError> {
    let mut flat = IndexMap::new(alloc);
    for (scope, _) in keys {
        let symbol = flat.len();
        flat.insert((*scope, symbol % NAMES as usize), symbol)?;
    }
    Ok(flat)
}

// The sum of the symbols and of the lengths of the names in one pass.
fn pass(flat: &IndexMap<(u32, usize), usize>, names: &[String]) -> usize {
    let mut sum: usize = 0;
    for ((_, number), symbol) in flat.iter() {
        if let Some(name) = names.get(*number) {
            sum = sum.wrapping_add(*symbol).wrapping_add(name.len());
        }
    }
    sum
}

fn list_one(bindings: &Bindings<'_>) -> usize {
    let mut sum: usize = 0;
    for (name, symbol) in bindings.iter() {
        sum = sum
            .wrapping_add(symbol.index())
            .wrapping_add(name.as_str().len());
    }
    sum
}

// The sum of the symbols and of the lengths of the names, scope by scope.
fn list(tables: &Scoping) -> usize {
    let mut sum: usize = 0;
    for (_, bindings) in tables.iter_bindings() {
        sum = sum.wrapping_add(list_one(&bindings));
    }
    sum
}

// A time, and the sum that was made in it.
#[derive(Clone, Copy)]
struct Timed {
    time: Duration,
    sum: usize,
}

fn time_of_tables(rt: &HostRuntime, keys: &[Key<'_>]) -> io::Result<Duration> {
    let start = Instant::now(rt)?;
    let _tables = tables(rt.alloc(), keys)?;
    start.elapsed(rt)
}

fn time_of_map(rt: &HostRuntime, keys: &[Key<'_>]) -> io::Result<Duration> {
    let start = Instant::now(rt)?;
    let _map = map(rt.alloc(), keys)?;
    start.elapsed(rt)
}

fn measure_making(rt: &HostRuntime, keys: &[Key<'_>]) -> io::Result<()> {
    let mut by_tables = Duration::MAX;
    let mut by_map = Duration::MAX;
    for _ in 0..TIMES {
        by_tables = by_tables.min(time_of_tables(rt, keys)?);
        by_map = by_map.min(time_of_map(rt, keys)?);
    }
    println!(rt; "make {} {}", by_tables.as_nanos(), by_map.as_nanos())
}

fn timed_in_tables(rt: &HostRuntime, tables: &Scoping, keys: &[Key<'_>]) -> io::Result<Timed> {
    let start = Instant::now(rt)?;
    let sum = find_in_tables(tables, keys);
    let time = start.elapsed(rt)?;
    Ok(Timed { time, sum })
}

fn timed_in_map<'n>(
    rt: &HostRuntime,
    map: &HashMap<Key<'n>, usize>,
    keys: &[Key<'n>],
) -> io::Result<Timed> {
    let start = Instant::now(rt)?;
    let sum = find_in_map(map, keys);
    let time = start.elapsed(rt)?;
    Ok(Timed { time, sum })
}

fn print_finding<'n>(
    rt: &HostRuntime,
    tables: &Scoping,
    map: &HashMap<Key<'n>, usize>,
    keys: &[Key<'n>],
) -> io::Result<()> {
    let mut by_tables = Duration::MAX;
    let mut by_map = Duration::MAX;
    let mut same = true;
    for _ in 0..TIMES {
        let in_tables = timed_in_tables(rt, tables, keys)?;
        let in_map = timed_in_map(rt, map, keys)?;
        by_tables = by_tables.min(in_tables.time);
        by_map = by_map.min(in_map.time);
        same = same && in_tables.sum == in_map.sum;
    }
    println!(rt;
        "find {} {} {same}",
        by_tables.as_nanos(),
        by_map.as_nanos()
    )
}

fn measure_finding(rt: &HostRuntime, keys: &[Key<'_>]) -> io::Result<()> {
    let order = scattered(rt.alloc(), keys)?;
    let tables = tables(rt.alloc(), keys)?;
    let map = map(rt.alloc(), keys)?;
    print_finding(rt, &tables, &map, &order)
}

fn timed_listing(rt: &HostRuntime, tables: &Scoping) -> io::Result<Timed> {
    let start = Instant::now(rt)?;
    let sum = list(tables);
    let time = start.elapsed(rt)?;
    Ok(Timed { time, sum })
}

fn timed_pass(
    rt: &HostRuntime,
    flat: &IndexMap<(u32, usize), usize>,
    names: &[String],
) -> io::Result<Timed> {
    let start = Instant::now(rt)?;
    let sum = pass(flat, names);
    let time = start.elapsed(rt)?;
    Ok(Timed { time, sum })
}

fn print_listing(
    rt: &HostRuntime,
    tables: &Scoping,
    flat: &IndexMap<(u32, usize), usize>,
    names: &[String],
) -> io::Result<()> {
    let mut by_tables = Duration::MAX;
    let mut by_pass = Duration::MAX;
    let mut same = true;
    for _ in 0..TIMES {
        let listed = timed_listing(rt, tables)?;
        let passed = timed_pass(rt, flat, names)?;
        by_tables = by_tables.min(listed.time);
        by_pass = by_pass.min(passed.time);
        same = same && listed.sum == passed.sum;
    }
    println!(rt;
        "list {} {} {same}",
        by_tables.as_nanos(),
        by_pass.as_nanos()
    )
}

fn measure_listing(rt: &HostRuntime, keys: &[Key<'_>], names: &[String]) -> io::Result<()> {
    let tables = tables(rt.alloc(), keys)?;
    let flat = flat(rt.alloc(), keys)?;
    print_listing(rt, &tables, &flat, names)
}

fn main(rt: HostRuntime) -> io::Result<()> {
    let names = names(rt.alloc())?;
    let keys = keys(rt.alloc(), &names)?;
    measure_making(&rt, &keys)?;
    measure_finding(&rt, &keys)?;
    measure_listing(&rt, &keys, &names)
}
SOURCE

build_program
"$program/out/binding" | awk -v scopes="$scopes" '
    $1 == "make" { made = $2; put = $3 }
    $1 == "find" { found = $2; got = $3 }
    $1 == "list" { listed = $2; passed = $3 }
    $4 == "false" { print "FAILED: the sums of " $1 " differ"; failed = 1 }
    END {
        printf "%d bindings in %d scopes\n", 10 * scopes, scopes
        printf "made: %.0f ms, std map %.0f ms, ratio %.2f\n", made / 1e6, put / 1e6, made / put
        printf "looked up: %.0f ms, std map %.0f ms, ratio %.2f\n", found / 1e6, got / 1e6, found / got
        printf "made and looked up: ratio %.2f (wanted below 4)\n", (made + found) / (put + got)
        printf "listed: %.1f ms, one pass %.1f ms, ratio %.2f (wanted below 2)\n", listed / 1e6, passed / 1e6, listed / passed
        exit failed
    }'
