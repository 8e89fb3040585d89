#!/bin/sh
# How long writing a report takes: a report of a million lines, against writing the same lines by std's buffered writer in
# the same run. Wanted: a ratio below 6. It works on a scratch copy, and proves what it measures there; it needs rt and
# awk. The number of declarations, of three lines each, can be given as a word.
set -eu
cd "$(dirname "$0")/.."
count="${1:-333334}"
. bench/scratch.sh
new_program writing 'report report_ends semantic semantic_tree tree_json'

cat >"$program/src/main.rt" <<'SOURCE'
// Reads a tree on standard input, times both writers of its report on standard output, and prints the times on standard
// error.
#![tactic(auto)]

use report::{Options, write_report};
use report_ends::{Sink, SureSink, Writing};
use semantic::{SemanticBuilder, SemanticBuilderReturn};
use semantic_tree::Program;
use std::alloc::Global;
use std::io::{self, BufWriter, ErrorKind, Read, Stdout, Write};
use std::time::{Duration, Instant};
use tree_json::read_program;

// How often each writer is timed; the least time counts.
const TIMES: u32 = 5;

// How many bytes are handed on at once.
const BUFFER: usize = 65_536;

fn bytes_of(rt: &HostRuntime) -> io::Result<Vec<u8>> {
    let mut bytes = Vec::new(rt.alloc());
    rt.stdin().read_to_end(&mut bytes)?;
    Ok(bytes)
}

fn program_of(alloc: Global, bytes: &[u8]) -> io::Result<Program> {
    match read_program(alloc, bytes).ok() {
        Some(program) => Ok(program),
        None => Err(io::Error::from(ErrorKind::InvalidData)),
    }
}

// Writes the report, and tells whether that went well.
fn write_to<K: Sink>(alloc: Global, ret: &SemanticBuilderReturn<'_>, out: &mut K) -> bool {
    write_report(alloc, ret, Options::default(), out).is_ok()
}

fn write_lines<W: Write>(lines: &[&[u8]], out: &mut W) -> io::Result<()> {
    for line in lines {
        out.write_all(line)?;
    }
    out.flush()
}

fn lines_of(alloc: Global, text: &[u8]) -> io::Result<Vec<&[u8]>> {
    let mut lines = Vec::new(alloc);
    for line in text.split_inclusive(|byte| *byte == b'\n') {
        match lines.push(line) {
            Ok(()) => {}
            Err(_) => return Err(io::Error::from(ErrorKind::OutOfMemory)),
        }
    }
    Ok(lines)
}

fn buffer_of(rt: &HostRuntime) -> io::Result<BufWriter<Stdout>> {
    BufWriter::with_capacity(rt.alloc(), BUFFER, rt.stdout())
}

fn time_of_report(rt: &HostRuntime, ret: &SemanticBuilderReturn<'_>) -> io::Result<Duration> {
    let mut out = Writing::new(buffer_of(rt)?);
    let start = Instant::now(rt)?;
    let written = write_to(rt.alloc(), ret, &mut out);
    let flushed = out.flush().is_ok();
    let time = start.elapsed(rt)?;
    if written && flushed {
        Ok(time)
    } else {
        Err(io::Error::from(ErrorKind::Other))
    }
}

fn time_of_lines(rt: &HostRuntime, lines: &[&[u8]]) -> io::Result<Duration> {
    let mut out = buffer_of(rt)?;
    let start = Instant::now(rt)?;
    write_lines(lines, &mut out)?;
    start.elapsed(rt)
}

fn print_times(
    rt: &HostRuntime,
    ret: &SemanticBuilderReturn<'_>,
    lines: &[&[u8]],
) -> io::Result<()> {
    let mut by_report = Duration::MAX;
    let mut by_buffer = Duration::MAX;
    for _ in 0..TIMES {
        by_report = by_report.min(time_of_report(rt, ret)?);
        by_buffer = by_buffer.min(time_of_lines(rt, lines)?);
    }
    eprintln!(rt;
        "{} {} {}",
        lines.len(),
        by_report.as_nanos(),
        by_buffer.as_nanos()
    )
}

fn measure(rt: &HostRuntime, ret: &SemanticBuilderReturn<'_>) -> io::Result<()> {
    let mut text = SureSink::new(rt.alloc());
    if !write_to(rt.alloc(), ret, &mut text) {
        return Err(io::Error::from(ErrorKind::OutOfMemory));
    }
    let lines = lines_of(rt.alloc(), text.held())?;
    print_times(rt, ret, &lines)
}

fn main(rt: HostRuntime) -> io::Result<()> {
    let bytes = bytes_of(&rt)?;
    if bytes.is_empty() {
        return Ok(());
    }
    let program = program_of(rt.alloc(), &bytes)?;
    match SemanticBuilder::new().build(rt.alloc(), &program) {
        Ok(ret) => measure(&rt, &ret),
        Err(_) => Err(io::Error::from(ErrorKind::OutOfMemory)),
    }
}
SOURCE

# The tree of one declaration of so many names.
tree() {
    awk -v count="$1" 'BEGIN {
        printf "{\"comments\":[],\"format\":1,\"goal\":\"script\",\"lang\":\"js\",\"source\":\"\""
        printf ",\"rows\":[[0,\"root\",\"Program\",0,0,\"\",[]],[1,\"body\",\"VariableDeclaration\",0,0,\"let\",[]]"
        for (i = 0; i < count; i++) {
            printf ",[2,\"declarators\",\"VariableDeclarator\",0,0,\"\",[]]"
            printf ",[3,\"id\",\"BindingIdentifier\",0,0,\"name%d\",[]]", i
        }
        printf "]}"
    }'
}

build_program
tree "$count" >"$scratch/tree"
"$program/out/writing" <"$scratch/tree" 2>&1 >/dev/null |
    awk '{ printf "%d lines: report %.1f ms, buffered writer %.1f ms, ratio %.2f (wanted below 6)\n", $1, $2 / 1e6, $3 / 1e6, $2 / $3 }'
