# Read by the scripts of bench/ and of tools/, at the top of the repository: a scratch copy, gone when the script ends, in
# which a program is proved and run. It needs rt.
scratch="$(mktemp -d)"
trap 'rm -rf "$scratch"' EXIT

# The crates of crates.txt among these libraries and all below them, a line each.
crates_below() {
    awk -v wanted="$1" '
    function take(name,    parts, count, i) {
        if (!(name in uses) || name in taken) return
        taken[name]
        count = split(uses[name], parts, " ")
        for (i = 1; i <= count; i++) take(parts[i])
        print name
    }
    /^[a-z]/ { name = $1; sub(/:$/, "", name); rest = $0; sub(/^[^:]*:/, "", rest); uses[name] = rest }
    END { count = split(wanted, words, " "); for (j = 1; j <= count; j++) take(words[j]) }' crates.txt
}

# new_program NAME LIBRARIES: copies the crates among these libraries and all below them, lists a program that uses the
# libraries, and sets `program` to its folder.
new_program() {
    listed="$1: $2"
    program="$scratch/crates/$1"
    for crate in $(crates_below "$2"); do
        mkdir -p "$scratch/crates/$crate"
        for part in src specs proofs; do
            [ ! -d "crates/$crate/$part" ] || cp -R "crates/$crate/$part" "$scratch/crates/$crate/"
        done
        grep "^$crate:" crates.txt >>"$scratch/crates.txt"
    done
    echo "$listed" >>"$scratch/crates.txt"
    [ ! -f HANDLES ] || cp HANDLES "$scratch/"
    mkdir -p "$program/src"
    (cd "$scratch" && git init -q)
}

# Proves and builds the program, which stays as out/NAME in its folder. Where that fails it ends the script.
build_program() {
    log="$(cd "$program" && rt run </dev/null 2>&1)" || true
    if [ ! -x "$program/out/$(basename "$program")" ]; then
        printf '%s\n' "$log" >&2
        exit 1
    fi
}
