#!/bin/sh
# How long reading a tree takes, and how much memory it uses. For trees of 1, 8 and 60 MB it prints the time of
# `read_program` against that of serde_json's `Value::from_slice` on the same bytes in the same run, and the peak memory
# of one reading as a multiple of the input. Wanted: ratios below 2.5 that differ by less than 1.3 from size to size, and
# less than 30 times the input. The trees have the writer's form, which is read with no value between. It works on a
# scratch copy, and proves what it measures there; it needs rt, awk and a /proc. The sizes, in bytes, can be given as words.
set -eu
cd "$(dirname "$0")/.."
[ $# -gt 0 ] || set -- 1000000 8000000 60000000
. bench/scratch.sh
new_program reading 'tree_json semantic_tree serde_json'

cat >"$program/src/main.rt" <<'SOURCE'
// Times both readers over the bytes on standard input. The word `once` reads the tree once, and prints the peak memory.
#![tactic(auto)]

use semantic_tree::{Program, SpanFault, TreeError};
use serde_json::Value;
use std::alloc::Global;
use std::fs;
use std::io::{self, ErrorKind, Read};
use std::time::{Duration, Instant};
use tree_json::read_program;

// How often each reader is timed; the least time counts.
const TIMES: u32 = 5;

fn bytes_of(rt: &HostRuntime) -> io::Result<Vec<u8>> {
    let mut bytes = Vec::new(rt.alloc());
    rt.stdin().read_to_end(&mut bytes)?;
    Ok(bytes)
}

fn value_of(alloc: Global, bytes: &[u8]) -> io::Result<Value> {
    Value::from_slice(alloc, bytes).map_err(|_| io::Error::from(ErrorKind::InvalidData))
}

fn program_of(alloc: Global, bytes: &[u8]) -> io::Result<Program> {
    match read_program(alloc, bytes) {
        Ok(program) => Ok(program),
        Err(TreeError::Span(SpanFault::Node(_) | SpanFault::Comment(_))) => {
            Err(io::Error::from(ErrorKind::InvalidData))
        }
        Err(_) => Err(io::Error::from(ErrorKind::InvalidData)),
    }
}

fn time_of_value(rt: &HostRuntime, bytes: &[u8]) -> io::Result<Duration> {
    let start = Instant::now(rt)?;
    let _value = value_of(rt.alloc(), bytes)?;
    start.elapsed(rt)
}

fn time_of_program(rt: &HostRuntime, bytes: &[u8]) -> io::Result<Duration> {
    let start = Instant::now(rt)?;
    let _program = program_of(rt.alloc(), bytes)?;
    start.elapsed(rt)
}

fn print_times(rt: &HostRuntime, bytes: &[u8]) -> io::Result<()> {
    let mut value = Duration::MAX;
    let mut program = Duration::MAX;
    for _ in 0..TIMES {
        value = value.min(time_of_value(rt, bytes)?);
        program = program.min(time_of_program(rt, bytes)?);
    }
    println!(rt; "{} {}", value.as_nanos(), program.as_nanos())
}

fn print_memory(rt: &HostRuntime, bytes: &[u8]) -> io::Result<()> {
    let program = program_of(rt.alloc(), bytes)?;
    let status = fs::read_to_string(rt, "/proc/self/status")?;
    for line in status.lines() {
        if line.starts_with("VmHWM:") {
            println!(rt; "{} {line}", program.node_count())?;
        }
    }
    Ok(())
}

fn main(rt: HostRuntime) -> io::Result<()> {
    let bytes = bytes_of(&rt)?;
    if bytes.is_empty() {
        return Ok(());
    }
    if std::env::args(&rt)?.count() > 1 {
        print_memory(&rt, &bytes)
    } else {
        print_times(&rt, &bytes)
    }
}
SOURCE

# A tree of so many bytes at least: one function behind the other, each of 27 nodes.
tree() {
    awk -v wanted="$1" '
    function row(depth, role, kind, from, to, text, marks) {
        printf ",[%d,\"%s\",\"%s\",%d,%d,\"%s\",[%s]]", depth, role, kind, base + from, base + to, text, marks
    }
    BEGIN {
        line = "function f%06d(a, b = 1) { const c = a.size + b; if (c !== 12) { return g(c, \"text\"); } }\\n"
        count = int(wanted / 1560) + 1
        width = length(sprintf(line, 0)) - 1
        printf "{\"comments\":[],\"format\":1,\"goal\":\"script\",\"lang\":\"js\",\"rows\":"
        printf "[[0,\"root\",\"Program\",0,%d,\"\",[]]", count * width
        for (i = 0; i < count; i++) {
            base = i * width
            row(1, "body", "Function", 0, 91, "declaration", "")
            row(2, "id", "BindingIdentifier", 9, 16, sprintf("f%06d", i), "")
            row(2, "params", "FormalParameters", 16, 26, "formal", "")
            row(3, "items", "FormalParameter", 17, 18, "", "")
            row(4, "pattern", "BindingIdentifier", 17, 18, "a", "")
            row(3, "items", "FormalParameter", 20, 25, "", "")
            row(4, "pattern", "BindingIdentifier", 20, 21, "b", "")
            row(4, "initializer", "NumericLiteral", 24, 25, "1", "\"decimal\"")
            row(2, "body", "FunctionBody", 27, 91, "", "")
            row(3, "body", "VariableDeclaration", 29, 50, "const", "")
            row(4, "declarators", "VariableDeclarator", 35, 49, "", "")
            row(5, "id", "BindingIdentifier", 35, 36, "c", "")
            row(5, "init", "BinaryExpression", 39, 49, "+", "")
            row(6, "left", "StaticMemberExpression", 39, 45, "", "")
            row(7, "object", "IdentifierReference", 39, 40, "a", "")
            row(7, "property", "IdentifierName", 41, 45, "size", "")
            row(6, "right", "IdentifierReference", 48, 49, "b", "")
            row(3, "body", "IfStatement", 51, 89, "", "")
            row(4, "test", "BinaryExpression", 55, 63, "!==", "")
            row(5, "left", "IdentifierReference", 55, 56, "c", "")
            row(5, "right", "NumericLiteral", 61, 63, "12", "\"decimal\"")
            row(4, "consequent", "BlockStatement", 65, 89, "", "")
            row(5, "body", "ReturnStatement", 67, 87, "", "")
            row(6, "argument", "CallExpression", 74, 86, "", "")
            row(7, "callee", "IdentifierReference", 74, 75, "g", "")
            row(7, "arguments", "IdentifierReference", 76, 77, "c", "")
            row(7, "arguments", "StringLiteral", 79, 85, "text", "")
        }
        printf "],\"source\":\""
        escaped = line; gsub(/"/, "\\\"", escaped)
        for (i = 0; i < count; i++) printf escaped, i
        printf "\"}"
    }'
}

build_program
for size in "$@"; do
    tree "$size" >"$scratch/tree"
    bytes="$(wc -c <"$scratch/tree")"
    times="$("$program/out/reading" <"$scratch/tree")"
    memory="$("$program/out/reading" once <"$scratch/tree")"
    echo "$bytes $times $memory"
done | awk '
    {
        ratio = $3 / $2
        printf "%d bytes, %d nodes: %.1f ms for the program, %.1f ms for the value, ratio %.2f; peak memory %.1f times the input\n",
            $1, $4, $3 / 1e6, $2 / 1e6, ratio, $6 * 1024 / $1
        if (NR == 1 || ratio < least) least = ratio
        if (ratio > most) most = ratio
    }
    END { printf "the greatest ratio is %.2f times the least\n", most / least }'
