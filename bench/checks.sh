#!/usr/bin/env bash
# What the checks of early errors cost.
#
# First, for trees of all languages and for trees of 10,000 to 1,000,000 nodes, the time of the analysis with checks against
# the one without. Wanted: at most 1.5. The time of an analysis is that of a run whose report can't be written (/dev/full
# takes none), less that of a run on the same tree with a comment that is out of place, which is read and refused.
#
# Then, for families of trees that are made to be slow, the time of a run with checks on one tree and on one four times as
# large, and the ratio. Wanted: at most 6.
#
# All times are processor time, the least of some runs. It needs awk; the first part needs Node and TypeScript's compiler
# (tools/setup.sh). SIZE is the smaller size of the families, NODES the sizes of the trees in JavaScript.
# usage: bench/checks.sh [PROGRAM [PART ..]]   (PROGRAM: the report program, bin/report if none is named; PART: `languages`,
# `sizes` or a family of those at the end of this file; without any it takes all)
set -euo pipefail
cd "$(dirname "$0")/.."
program="${1:-bin/report}"
[ $# -eq 0 ] || shift
size="${SIZE:-16000}"
nodes="${NODES:-10000 100000 1000000}"
scratch="$(mktemp -d)"
trap 'rm -rf "$scratch"' EXIT

# ---- times

# The processor time of so many runs of the program with these words on a file, in microseconds for a run.
time_of_runs() {
    local runs="$1" file="$2" times
    shift 2
    TIMEFORMAT='%U %S'
    times="$({ time for _ in $(seq "$runs"); do
        "$program" "$@" <"$file" >/dev/full 2>/dev/null || true
    done; } 2>&1)"
    awk -v runs="$runs" '{ printf "%d\n", ($1 + $2) * 1000000 / runs }' <<<"$times"
}

# The least number of a list.
least() {
    printf '%s\n' "$@" | sort -n | head -n 1
}

# ---- analysis with checks against analysis without

# The tree of so many copies of a unit of source, in which @ is the number of the copy.
tree_of() {
    local name="$1" unit="$2" copies="$3"
    awk -v unit="$unit" -v copies="$copies" 'BEGIN {
        for (i = 0; i < copies; i++) { line = unit; gsub(/@/, i, line); print line }
    }' >"$scratch/$name"
    node tools/source-to-tree/main.js "$scratch/$name" >"$scratch/tree"
}

# How many nodes the tree has.
nodes_of() {
    grep -o '\[[0-9]*,"[a-zA-Z]*","[A-Z]' "$1" | wc -l
}

# Prints the times of the tree, whose name and unit are given too.
compare() {
    local name="$1" count runs told reading=() plain=() checking=()
    sed 's/"comments":\[/"comments":[[0,4294967295,"line"],/; s/,\]/]/' "$scratch/tree" >"$scratch/refused"
    told="$({ "$program" --check <"$scratch/tree" || true; } | grep -c '^diag' || true)"
    count="$(nodes_of "$scratch/tree")"
    runs=$((count > 600000 ? 1 : 600000 / (count + 1)))
    for _ in 1 2 3 4 5 6 7; do
        reading+=("$(time_of_runs "$runs" "$scratch/refused")")
        plain+=("$(time_of_runs "$runs" "$scratch/tree")")
        checking+=("$(time_of_runs "$runs" "$scratch/tree" --check)")
    done
    awk -v name="$name" -v count="$count" -v told="$told" -v reading="$(least "${reading[@]}")" \
        -v plain="$(least "${plain[@]}")" -v checking="$(least "${checking[@]}")" 'BEGIN {
        without = plain - reading
        with = checking - reading
        printf "%s, %d nodes: analysis %.1f ms, with checks %.1f ms, ratio %.2f (wanted at most 1.5); %d diagnostics\n",
            name, count, without / 1000, with / 1000, with / without, told
    }'
}

javascript='function f@(a, b = (c = a) => c) { l: for (var i = 0; i < a.length; i++) { if (a[i]) continue l; else break; } try { b(...a); } catch ({ e }) { let w = e; throw w; } switch (a) { case 1: return "x\\n1"; default: break; } const { p: q, ...r } = { __proto__: null, a, [b]: 2 }; delete a.b; class C extends f@ { static s = 1; constructor(x) { super(x); this.x = 0.5 + 10; } get p() { return super.p; } m() { return async () => { await q; for (const y of r) this.m(y); }; } } return C; }'
private='class P@ { static #n = "a b c d e f g h i j"; #p = 1; #q() { return this.#p; } get #r() { return P@.#n; } set #r(v) { this.#p = v; } m(o) { return #p in o ? o.#q() : o?.#r; } static { P@.#n += "x"; } }'
module='import { a@ } from "a"; export function g@(x) { "use strict"; return arguments.length + x; } export const b@ = { m() { return super.m(); } }; export { a@ as c@ };'
jsx='const E@ = (p) => <div className="a" {...p}><E@.b c={p.c}>text {p.d}</E@.b><></></div>;'
typescript='namespace N@ { export interface I<T> extends J { x?: T; m(a: T, b: string): a is T; new (a: T): I<T>; } export abstract class C<T> implements I<T> { private readonly y: T; constructor(public z: T) {} m(a: T): void; m(a: any) {} abstract n(): void; get p(): T { return this.y; } } export enum E { A = 1, B, C = "x" } export type U<T> = T extends (infer V)[] ? V : { [K in keyof T]: T[K] }; export function f(a: unknown): asserts a; export function f(a?) { for (const b of a as number[]) b!; } }'
definitions='declare namespace D@ { interface I<T> { x: T; m(a: T): void; } class C { constructor(a: string); m(a: number): void; get p(): string; } function f(a: string, b?: number): void; const c: number; enum E { A, B } type U = "a" | `b${string}`; }'

languages() {
    tree_of unit.cjs "$javascript" 700
    compare script
    tree_of unit.mjs "$javascript" 700
    compare module
    tree_of unit.js "$private" 700
    compare 'private names'
    tree_of unit.mjs "$module" 1500
    compare 'imports and exports'
    tree_of unit.jsx "$jsx" 1500
    compare JSX
    tree_of unit.ts "$typescript" 500
    compare TypeScript
    tree_of unit.tsx "$typescript$jsx" 400
    compare 'TypeScript with JSX'
    tree_of unit.d.ts "$definitions" 1000
    compare definitions
}

sizes() {
    local count
    for count in $nodes; do
        tree_of unit.cjs "$javascript" $((count / 145 + 1))
        compare script
    done
}

# ---- trees that are made to be slow

# The tree of a program whose rows an awk program writes, of which `part` is called with each number below a count.
rows() {
    awk -v goal="$1" -v lang="$2" -v count="$4" '
    function row(depth, role, kind, text, marks) {
        printf ",[%d,\"%s\",\"%s\",0,0,\"%s\",[%s]]", depth, role, kind, text, marks
    }
    function class(depth) { row(depth, "body", "Class", "declaration"); row(depth + 1, "id", "BindingIdentifier", "C"); row(depth + 1, "body", "ClassBody", "") }
    function field(depth, kind, name) { row(depth, "body", "PropertyDefinition", ""); row(depth + 1, "key", kind, name) }
    function method(depth, text, kind, name) {
        row(depth, "body", "MethodDefinition", text); row(depth + 1, "key", kind, name)
        row(depth + 1, "value", "Function", "expression"); row(depth + 2, "params", "FormalParameters", "unique"); row(depth + 2, "body", "FunctionBody", "")
    }
    function bodiless(depth, text, name) {
        row(depth, "body", "MethodDefinition", text); row(depth + 1, "key", "IdentifierName", name)
        row(depth + 1, "value", "Function", "ts-empty-body"); row(depth + 2, "params", "FormalParameters", "unique")
    }
    function use(depth, name) {
        row(depth, "body", "ExpressionStatement", ""); row(depth + 1, "expression", "PrivateFieldExpression", "")
        row(depth + 2, "object", "ThisExpression", ""); row(depth + 2, "field", "PrivateIdentifier", name)
    }
    function declaration(depth, kind, name) { row(depth, "body", "VariableDeclaration", kind); row(depth + 1, "declarators", "VariableDeclarator", ""); row(depth + 2, "id", "BindingIdentifier", name) }
    function function_declaration(depth, name, marks) {
        row(depth, "body", "Function", "declaration", marks); row(depth + 1, "id", "BindingIdentifier", name)
        row(depth + 1, "params", "FormalParameters", "formal"); row(depth + 1, "body", "FunctionBody", "")
    }
    function signature(depth) { row(depth, "body", "TSTypeAliasDeclaration", ""); row(depth + 1, "id", "BindingIdentifier", "T"); row(depth + 1, "valueType", "TSFunctionType", ""); row(depth + 2, "params", "FormalParameters", "signature") }
    function parameter(depth, name) { row(depth, "items", "FormalParameter", ""); row(depth + 1, "pattern", "BindingIdentifier", name) }
    function specifier(depth, local, exported) { row(depth, "specifiers", "ExportSpecifier", ""); row(depth + 1, "local", "IdentifierReference", local); row(depth + 1, "exported", "IdentifierName", exported) }
    function imported(depth, name) { row(depth, "specifiers", "ImportSpecifier", ""); row(depth + 1, "imported", "IdentifierName", name); row(depth + 1, "local", "BindingIdentifier", name) }
    function label(depth, name) { row(depth, "body", "LabeledStatement", ""); row(depth + 1, "label", "LabelIdentifier", name) }
    function jump(depth, name) { row(depth, "body", "BreakStatement", ""); row(depth + 1, "label", "LabelIdentifier", name) }
    function blocks(depth, most) { for (; depth < most; depth++) row(depth, "body", "BlockStatement", "") }
    '"$3"'
    BEGIN {
        printf "{\"comments\":[],\"format\":1,\"goal\":\"%s\",\"lang\":\"%s\",\"source\":\"\"", goal, lang
        printf ",\"rows\":[[0,\"root\",\"Program\",0,0,\"\",[]]"
        before()
        for (i = 0; i < count; i++) part(i)
        after()
        printf "]}"
    }'
}

# Elements of a class: private, public and half of a pair, of names that are all different or all the same.
private_elements() { rows script js 'function before() { class(1) } function part(i) { field(3, "PrivateIdentifier", "a" i) } function after() {}' "$1"; }
equal_private_elements() { rows script js 'function before() { class(1) } function part(i) { field(3, "PrivateIdentifier", "a") } function after() {}' "$1"; }
public_elements() { rows script ts 'function before() { class(1) } function part(i) { field(3, "IdentifierName", "a" i) } function after() {}' "$1"; }
equal_public_elements() { rows script ts 'function before() { class(1) } function part(i) { field(3, "IdentifierName", "a") } function after() {}' "$1"; }
getters_and_setters() { rows script js 'function before() { class(1) } function part(i) { method(3, i % 2 ? "get" : "set", "PrivateIdentifier", "a") } function after() {}' "$1"; }

# Methods without body, and constructors.
overloads() { rows script ts 'function before() { class(1) } function part(i) { bodiless(3, "method", "a") } function after() {}' "$1"; }
methods_without_body() { rows script ts 'function before() { class(1) } function part(i) { bodiless(3, "method", "a" i) } function after() {}' "$1"; }
constructors() { rows script js 'function before() { class(1) } function part(i) { method(3, "constructor", "IdentifierName", "constructor") } function after() {}' "$1"; }

# Uses of private names beside as many elements: names that the class defines, and names that none does.
private_uses() { rows script js 'function before() { class(1); row(3, "body", "StaticBlock", "") } function part(i) { use(4, "a" i) } function after() { for (i = 0; i < count; i++) field(3, "PrivateIdentifier", "a" i) }' "$1"; }
undefined_private_uses() { rows script js 'function before() { class(1); row(3, "body", "StaticBlock", "") } function part(i) { use(4, "b" i) } function after() { for (i = 0; i < count; i++) field(3, "PrivateIdentifier", "a" i) }' "$1"; }
private_uses_of_the_class_around() { rows script js 'function before() { class(1); for (i = 0; i < count; i++) field(3, "PrivateIdentifier", "a" i); row(3, "body", "StaticBlock", ""); class(4); row(6, "body", "StaticBlock", "") } function part(i) { use(7, "a" i) } function after() {}' "$1"; }

# Parameters of a signature.
parameters() { rows script ts 'function before() { signature(1) } function part(i) { parameter(4, "a" i) } function after() {}' "$1"; }
equal_parameters() { rows script ts 'function before() { signature(1) } function part(i) { parameter(4, "a") } function after() {}' "$1"; }

# Names of one pattern: of a `var` in a block, in an array and in an object, and of a parameter of a signature.
names_of_a_var() { rows script js 'function before() { row(1, "body", "BlockStatement", ""); row(2, "body", "VariableDeclaration", "var"); row(3, "declarators", "VariableDeclarator", ""); row(4, "id", "ArrayPattern", "") } function part(i) { row(5, "elements", "BindingIdentifier", "a" i) } function after() { row(4, "init", "IdentifierReference", "b") }' "$1"; }
properties_of_a_var() { rows script js 'function before() { row(1, "body", "BlockStatement", ""); row(2, "body", "VariableDeclaration", "var"); row(3, "declarators", "VariableDeclarator", ""); row(4, "id", "ObjectPattern", "") } function part(i) { row(5, "properties", "BindingProperty", ""); row(6, "key", "IdentifierName", "a" i); row(6, "value", "BindingIdentifier", "a" i) } function after() { row(4, "init", "IdentifierReference", "b") }' "$1"; }
names_of_a_parameter() { rows script ts 'function before() { signature(1); parameter(4, "b"); row(4, "items", "FormalParameter", ""); row(5, "pattern", "ArrayPattern", "") } function part(i) { row(6, "elements", "BindingIdentifier", "a" i) } function after() {}' "$1"; }

# Exports that something declares, that nothing declares, and that nothing declares under one name; export assignments.
exports() { rows module js 'function before() { row(1, "body", "ExportNamedDeclaration", "") } function part(i) { specifier(2, "a" i, "a" i) } function after() { for (i = 0; i < count; i++) declaration(1, "let", "a" i) }' "$1"; }
undefined_exports() { rows module js 'function before() { row(1, "body", "ExportNamedDeclaration", "") } function part(i) { specifier(2, "a" i, "a" i) } function after() {}' "$1"; }
equal_undefined_exports() { rows module js 'function before() { row(1, "body", "ExportNamedDeclaration", "") } function part(i) { specifier(2, "a", "a" i) } function after() {}' "$1"; }
export_assignments() { rows module ts 'function before() { row(1, "body", "ExportDefaultDeclaration", ""); row(2, "declaration", "NullLiteral", "") } function part(i) { row(1, "body", "TSExportAssignment", ""); row(2, "expression", "NullLiteral", "") } function after() {}' "$1"; }

# Imports that are declared again, each once, and one many times.
imports() { rows module js 'function before() { row(1, "body", "ImportDeclaration", "") } function part(i) { imported(2, "a" i) } function after() { row(2, "source", "StringLiteral", "b"); for (i = 0; i < count; i++) declaration(1, "let", "a" i) }' "$1"; }
equal_imports() { rows module js 'function before() { row(1, "body", "ImportDeclaration", ""); imported(2, "a"); row(2, "source", "StringLiteral", "b") } function part(i) { declaration(1, "var", "a") } function after() {}' "$1"; }

# Functions of one name: plain ones in a block, behind an async one, and round one, those in strict code, and `var`s of a
# function's name.
functions() { rows script js 'function before() { row(1, "body", "BlockStatement", "") } function part(i) { function_declaration(2, "f") } function after() {}' "$1"; }
functions_behind_an_async_one() { rows script js 'function before() { row(1, "body", "BlockStatement", ""); function_declaration(2, "f", "\"async\"") } function part(i) { function_declaration(2, "f") } function after() {}' "$1"; }
functions_round_an_async_one() { rows script js 'function before() { row(1, "body", "BlockStatement", "") } function part(i) { function_declaration(2, "f", i == int(count / 2) ? "\"async\"" : "") } function after() {}' "$1"; }
strict_functions() { rows module js 'function before() { row(1, "body", "BlockStatement", "") } function part(i) { function_declaration(2, "f") } function after() {}' "$1"; }
vars_of_a_function() { rows script js 'function before() { row(1, "body", "BlockStatement", ""); function_declaration(2, "f") } function part(i) { declaration(2, "var", "f") } function after() {}' "$1"; }

# Labels beside each other, and jumps, names and calls of `super` at the end of a deep path.
labels() { rows script js 'function before() {} function part(i) { label(1, "a" i); row(2, "body", "EmptyStatement", "") } function after() {}' "$1"; }
jumps_to_a_far_label() { rows script js 'function before() { label(1, "a"); row(2, "body", "BlockStatement", ""); blocks(3, 900) } function part(i) { jump(900, "a") } function after() {}' "$1"; }
jumps_to_no_label() { rows script js 'function before() { row(1, "body", "BlockStatement", ""); blocks(2, 900) } function part(i) { jump(900, "a" i) } function after() {}' "$1"; }
deep_names() { rows module js 'function before() { row(1, "body", "BlockStatement", ""); blocks(2, 900) } function part(i) { row(900, "body", "ExpressionStatement", ""); row(901, "expression", "IdentifierReference", "arguments") } function after() {}' "$1"; }
deep_supers() { rows script js 'function before() { row(1, "body", "BlockStatement", ""); blocks(2, 900) } function part(i) { row(900, "body", "ExpressionStatement", ""); row(901, "expression", "CallExpression", ""); row(902, "callee", "Super", "") } function after() {}' "$1"; }

# Members of an enum behind a text, and prototypes of an object.
enum_members() { rows script ts 'function before() { row(1, "body", "TSEnumDeclaration", ""); row(2, "id", "BindingIdentifier", "E"); row(2, "body", "TSEnumBody", ""); row(3, "members", "TSEnumMember", ""); row(4, "id", "IdentifierName", "x"); row(4, "initializer", "NullLiteral", "") } function part(i) { row(3, "members", "TSEnumMember", ""); row(4, "id", "IdentifierName", "a" i) } function after() {}' "$1"; }
prototypes() { rows script js 'function before() { row(1, "body", "ExpressionStatement", ""); row(2, "expression", "ObjectExpression", "") } function part(i) { row(3, "properties", "ObjectProperty", "init"); row(4, "key", "IdentifierName", "__proto__"); row(4, "value", "NullLiteral", "") } function after() {}' "$1"; }

# One string with 16 times so many escapes.
escapes() {
    awk -v count="$1" 'BEGIN {
        bytes = 32 * count + 2
        printf "{\"comments\":[],\"format\":1,\"goal\":\"module\",\"lang\":\"js\""
        printf ",\"rows\":[[0,\"root\",\"Program\",0,%d,\"\",[]],[1,\"body\",\"ExpressionStatement\",0,%d,\"\",[]]", bytes, bytes
        printf ",[2,\"expression\",\"StringLiteral\",0,%d,\"x\",[]]],\"source\":\"\\\"", bytes
        for (i = 0; i < 16 * count; i++) printf "\\\\n"
        printf "\\\"\"}"
    }'
}

# Prints the times of a family at both sizes.
grow() {
    local small large
    "$1" "$size" >"$scratch/small"
    "$1" $((4 * size)) >"$scratch/large"
    small="$(least "$(time_of_runs 4 "$scratch/small" --check)" "$(time_of_runs 4 "$scratch/small" --check)" "$(time_of_runs 4 "$scratch/small" --check)")"
    large="$(least "$(time_of_runs 1 "$scratch/large" --check)" "$(time_of_runs 1 "$scratch/large" --check)" "$(time_of_runs 1 "$scratch/large" --check)")"
    awk -v family="$1" -v size="$size" -v small="$small" -v large="$large" 'BEGIN {
        printf "%s: %d %d ms, %d %d ms, ratio %.1f (wanted at most 6)\n", family, size, small / 1000, 4 * size, large / 1000, large / (small + 1)
    }'
}

families='private_elements equal_private_elements public_elements equal_public_elements getters_and_setters overloads
    methods_without_body constructors private_uses undefined_private_uses private_uses_of_the_class_around parameters
    equal_parameters names_of_a_var properties_of_a_var names_of_a_parameter exports undefined_exports equal_undefined_exports export_assignments imports equal_imports functions
    functions_behind_an_async_one functions_round_an_async_one strict_functions vars_of_a_function labels jumps_to_a_far_label jumps_to_no_label deep_names
    deep_supers enum_members prototypes escapes'

# shellcheck disable=SC2086 # the names are words of their own
[ $# -gt 0 ] || set -- languages sizes $families
for part; do
    case "$part" in
        languages | sizes) "$part" ;;
        *) grow "$part" ;;
    esac
done
