#!/bin/sh
# How long the analysis of a tree takes. For trees of ten thousand, a hundred thousand and a million nodes, with scopes of
# all sorts, `var`s in blocks, headers in headers, classes and catch clauses, it prints the time of the analysis for each
# node and against that of reading the tree in the same run. Wanted: times for a node that differ by less than 1.3 from
# size to size, and at most as long as reading. It works on a scratch copy, and proves what it measures there; it needs rt
# and awk. The numbers of nodes can be given as words.
set -eu
cd "$(dirname "$0")/.."
[ $# -gt 0 ] || set -- 10000 100000 1000000
. bench/scratch.sh
. bench/functions.sh
new_program analysing 'semantic tree_json semantic_tree'

cat >"$program/src/main.rt" <<'SOURCE'
// Times the reading of the tree on standard input, and its analysis.
#![tactic(auto)]

use semantic::SemanticBuilder;
use semantic_tree::Program;
use std::alloc::Global;
use std::io::{self, ErrorKind, Read};
use std::time::{Duration, Instant};
use tree_json::read_program;

// How often each is timed; the least time counts.
const TIMES: u32 = 5;

// Bytes of a large block.
const LARGE: usize = 1 << 20;

fn bytes_of(rt: &HostRuntime) -> io::Result<Vec<u8>> {
    let mut bytes = Vec::new(rt.alloc());
    rt.stdin().read_to_end(&mut bytes)?;
    Ok(bytes)
}

fn invalid() -> io::Error {
    io::Error::from(ErrorKind::InvalidData)
}

fn program_of(alloc: Global, bytes: &[u8]) -> io::Result<Program> {
    match read_program(alloc, bytes).ok() {
        Some(program) => Ok(program),
        None => Err(invalid()),
    }
}

// Takes a large block and gives it back. The C library joins freed blocks only once someone asks for a large one, and
// the clock of the analysis isn't to count what reading freed.
fn join_freed_blocks(alloc: Global) -> io::Result<()> {
    let mut block: Vec<u8> = Vec::new(alloc);
    block.reserve(LARGE)?;
    Ok(())
}

fn time_of_reading(rt: &HostRuntime, bytes: &[u8]) -> io::Result<Duration> {
    let start = Instant::now(rt)?;
    let _program = program_of(rt.alloc(), bytes)?;
    start.elapsed(rt)
}

fn time_of_analysis(rt: &HostRuntime, program: &Program) -> io::Result<Duration> {
    join_freed_blocks(rt.alloc())?;
    let start = Instant::now(rt)?;
    let ret = SemanticBuilder::new().build(rt.alloc(), program);
    if ret.is_err() {
        return Err(invalid());
    }
    start.elapsed(rt)
}

fn print_times(rt: &HostRuntime, bytes: &[u8]) -> io::Result<()> {
    let program = program_of(rt.alloc(), bytes)?;
    let mut reading = Duration::MAX;
    let mut analysis = Duration::MAX;
    for _ in 0..TIMES {
        reading = reading.min(time_of_reading(rt, bytes)?);
        analysis = analysis.min(time_of_analysis(rt, &program)?);
    }
    println!(rt; "{} {} {}", program.node_count(), reading.as_nanos(), analysis.as_nanos())
}

fn main(rt: HostRuntime) -> io::Result<()> {
    let bytes = bytes_of(&rt)?;
    if bytes.is_empty() {
        return Ok(());
    }
    print_times(&rt, &bytes)
}
SOURCE

build_program
for count in "$@"; do
    tree_of_functions "$count" >"$scratch/tree"
    "$program/out/analysing" <"$scratch/tree"
done | awk '
    {
        each = $3 / $1
        printf "%d nodes: analysis %.1f ms, %.0f ns for a node; reading %.1f ms; ratio %.2f (wanted at most 1)\n",
            $1, $3 / 1e6, each, $2 / 1e6, $3 / $2
        if (NR == 1 || each < least) least = each
        if (each > most) most = each
    }
    END { printf "the greatest time for a node is %.2f times the least (wanted below 1.3)\n", most / least }'
