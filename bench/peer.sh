#!/bin/bash
# What the analysis costs beside its peers, on real files: `build` beside eslint-scope's analysis of the same source, the first
# one of a process and one of many, a whole report beside reading its input as a JSON value alone, and the report's peak of
# memory beside its input. Then the analysis of made trees of ten thousand, a hundred thousand and a million nodes. A second table
# has what eslint-scope, TypeScript's binder, the crawl of Babel's scopes and terser's scopes take, in analyses, those that are
# installed. The rounds of all are interleaved, and the least processor time of each counts. docs/speed.md takes the tables.
# The words are source files; with none it takes those of the list below that are there. REPORT names the report program
# (bin/report), ROUNDS the rounds (5), PROGRAM a program that is timed in the place of the proved one. It works on a scratch
# copy, and proves what it measures there; it needs rt, node, awk and GNU time.
set -eu
cd "$(dirname "$0")/.."
files='
/usr/share/javascript/underscore/underscore.js
/usr/share/nodejs/acorn/dist/acorn.js
/usr/share/javascript/jquery/jquery.js
/usr/share/nodejs/typescript/lib/typingsInstaller.js
/usr/share/nodejs/typescript/lib/tsc.js
'
# shellcheck disable=SC2086
[ $# -gt 0 ] || set -- $(ls $files 2>/dev/null || true)
report="${REPORT:-bin/report}"
rounds="${ROUNDS:-5}"
. bench/scratch.sh
. bench/functions.sh
new_program peers 'semantic tree_json semantic_tree serde_json'

cat >"$program/src/main.rt" <<'SOURCE'
// Times, for the tree on standard input, the first analysis, its JSON value and an analysis of many, in nanoseconds of the
// processor.
#![tactic(auto)]

use semantic::SemanticBuilder;
use semantic_tree::Program;
use serde_json::Value;
use std::alloc::Global;
use std::io::{self, ErrorKind, Read};
use std::time::{CpuClock, Duration};
use tree_json::read_program;

// For so many nodes the analysis is made again and again, so that the clock can tell what one of many takes.
const NODES_AT_ONCE: u32 = 300_000;

// So often that is timed, and the least counts, as it does of a peer.
const TIMES_OF_ANALYSIS: u32 = 9;

// For so many nodes the value is read again and again.
const NODES_OF_VALUES: u32 = 3_000_000;

// Bytes of a large block.
const LARGE: usize = 1 << 20;

fn bytes_of(rt: &HostRuntime) -> io::Result<Vec<u8>> {
    let mut bytes = Vec::new(rt.alloc());
    rt.stdin().read_to_end(&mut bytes)?;
    Ok(bytes)
}

fn invalid() -> io::Error {
    io::Error::from(ErrorKind::InvalidData)
}

// What each of so many times took from one time of the processor to another.
fn each(start: Duration, end: Duration, times: u32) -> u64 {
    let took = end.checked_sub(start).unwrap_or(Duration::ZERO);
    u64::try_from(took.as_nanos()).unwrap_or(u64::MAX) / u64::from(times.max(1))
}

// Takes a large block and gives it back. The C library joins freed blocks only once someone asks for a large one, and
// no clock is to count what was freed before.
fn join_freed_blocks(alloc: Global) -> io::Result<()> {
    let mut block: Vec<u8> = Vec::new(alloc);
    block.reserve(LARGE)?;
    Ok(())
}

fn time_of_value(rt: &HostRuntime, bytes: &[u8], times: u32) -> io::Result<u64> {
    join_freed_blocks(rt.alloc())?;
    let start = rt.thread_cpu_time()?;
    for _ in 0..times {
        if Value::from_slice(rt.alloc(), bytes).is_err() {
            return Err(invalid());
        }
    }
    Ok(each(start, rt.thread_cpu_time()?, times))
}

fn time_of_analysis(rt: &HostRuntime, program: &Program, times: u32) -> io::Result<u64> {
    join_freed_blocks(rt.alloc())?;
    let start = rt.thread_cpu_time()?;
    for _ in 0..times {
        if SemanticBuilder::new().build(rt.alloc(), program).is_err() {
            return Err(invalid());
        }
    }
    Ok(each(start, rt.thread_cpu_time()?, times))
}

fn least_time_of_analysis(rt: &HostRuntime, program: &Program) -> io::Result<u64> {
    let times = NODES_AT_ONCE / program.node_count().max(1) + 1;
    let mut least = u64::MAX;
    for _ in 0..TIMES_OF_ANALYSIS {
        least = least.min(time_of_analysis(rt, program, times)?);
    }
    Ok(least)
}

fn print_times(rt: &HostRuntime, bytes: &[u8]) -> io::Result<()> {
    let program = match read_program(rt.alloc(), bytes).ok() {
        Some(program) => program,
        None => return Err(invalid()),
    };
    let first = time_of_analysis(rt, &program, 1)?;
    let value = time_of_value(rt, bytes, NODES_OF_VALUES / program.node_count().max(1) + 1)?;
    let analysis = least_time_of_analysis(rt, &program)?;
    println!(rt; "{} {} {} {}", program.node_count(), value, analysis, first)
}

fn main(rt: HostRuntime) -> io::Result<()> {
    let bytes = bytes_of(&rt)?;
    if bytes.is_empty() {
        return Ok(());
    }
    print_times(&rt, &bytes)
}
SOURCE

# The processor time of one report of the tree, in nanoseconds: of so many that the clock of the processor can tell.
time_of_report() {
    local runs=$((20000000 / $(wc -c <"$1") + 1)) status=0
    TIMEFORMAT='%U %S'
    {
        time for _ in $(seq "$runs"); do
            "$report" <"$1" >/dev/null 2>&1 || status=$?
            [ "$status" -le 1 ] || exit 1
        done
    } 2>"$scratch/time"
    awk -v runs="$runs" '{ printf "%d\n", ($1 + $2) * 1e9 / runs }' "$scratch/time"
}

# Its peak of memory, in bytes.
peak_of_report() {
    command time -f '%M' -o "$scratch/peak" "$report" <"$1" >/dev/null 2>&1 || true
    awk 'END { print $1 * 1024 }' "$scratch/peak"
}

# What each peer takes for a file, one of many analyses and then the first of a process. A made tree has no source.
times_of_peers() {
    local peer
    for peer in eslint-scope typescript babel terser; do
        if [ -n "$1" ]; then echo "$(node bench/peer.js "$1" 9 "$peer") $(node bench/peer.js "$1" 1 "$peer")"; else echo '0 0'; fi
    done
}

# What glibc is told of the memory of a program that gets the tree, as by the commands (tools/programs/pages.js).
tunables_for() {
    if [ "$(wc -c <"$1")" -ge 4194304 ]; then echo glibc.malloc.hugetlb=1; fi
}

# A row of times for the tree of a file, or of a made one.
time_once() {
    # shellcheck disable=SC2046
    echo "$1" $(times_of_peers "$3") "$(GLIBC_TUNABLES="$(tunables_for "$2")" "$timed" <"$2") $(time_of_report "$2") $(peak_of_report "$2") $(wc -c <"$2")"
}

if [ -n "${PROGRAM:-}" ]; then
    timed="$PROGRAM"
else
    build_program
    timed="$program/out/peers"
fi
number=0
for file in "$@"; do
    number=$((number + 1))
    node tools/source-to-tree/main.js "$file" >"$scratch/tree$number"
    echo "$(basename "$file") $scratch/tree$number $file" >>"$scratch/list"
done
for count in 10000 100000 1000000; do
    tree_of_functions "$count" >"$scratch/made$count"
    echo "made_$count $scratch/made$count" >>"$scratch/list"
done
for _ in $(seq "$rounds"); do
    while read -r name tree source; do
        time_once "$name" "$tree" "$source"
    done <"$scratch/list"
done | awk '
    # The columns: name, four peers with one of many and the first of each, nodes, value, analysis, the first, report, peak, bytes.
    function keep(table, key, time) {
        if (!(key in table) || time < table[key]) table[key] = time
    }
    # How many of our analyses one of a peer takes.
    function beside(peer, ours) {
        return peer > 0 ? sprintf("%.1f", peer / ours) : "-"
    }
    !($1 in nodes) { order[++count] = $1 }
    {
        nodes[$1] = $10
        bytes[$1] = $16
        for (i = 1; i <= 4; i++) {
            keep(peer, $1 " " i, $(2 * i)); keep(first_peer, $1 " " i, $(2 * i + 1))
        }
        keep(value, $1, $11); keep(analysis, $1, $12); keep(first, $1, $13); keep(report, $1, $14); keep(peak, $1, $15)
    }
    END {
        print "| tree | nodes | analysis, ns a node | eslint-scope in analyses | the first of a process, ns a node | eslint-scope\047s first in these | report in JSON values | peak in inputs |"
        print "|---|---|---|---|---|---|---|---|"
        for (i = 1; i <= count; i++) {
            name = order[i]
            printf "| %s | %d | %.0f | %s | %.0f | %s | %.1f | %.1f |\n", name, nodes[name], analysis[name] / nodes[name],
                beside(peer[name " 1"], analysis[name]), first[name] / nodes[name], beside(first_peer[name " 1"], first[name]),
                report[name] / value[name], peak[name] / bytes[name]
        }
        print "\n| one of many analyses; the first of a process | eslint-scope | TypeScript\047s binder | Babel\047s crawl | terser\047s scopes |"
        print "|---|---|---|---|---|"
        for (i = 1; i <= count; i++) {
            name = order[i]
            if (peer[name " 1"] == 0) continue
            printf "| %s |", name
            for (j = 1; j <= 4; j++)
                printf " %s; %s |", beside(peer[name " " j], analysis[name]), beside(first_peer[name " " j], first[name])
            print ""
        }
    }'
