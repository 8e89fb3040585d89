#!/bin/bash
# Tries the installation: into an empty prefix, run from another folder with no kit and no git on the path, and removed again with
# nothing left; the manual, the completions, and the package for Debian, whose contents run where they are unpacked. It takes the
# programs as they are built.
# usage: tools/test-install.sh
set -u
cd "$(dirname "$0")/.." || exit 1
room="$(mktemp -d)"
trap 'rm -rf "$room"' EXIT
prefix="$room/prefix"
unset BOLGWYR_PROGRAMS BOLGWYR_REPORT
passed=0 failed=0

# expect WHAT WANTED FOUND
expect() {
    if [ "$2" = "$3" ]; then
        passed=$((passed + 1))
    else
        failed=$((failed + 1))
        printf 'FAILED: %s\n  wanted: %s\n  found:  %s\n' "$1" "$2" "$3"
    fi
}

# A path with Node and the tools of every system alone, so that no kit, git or Python is found.
mkdir "$room/few"
for tool in node sh dirname readlink sed grep cat env; do ln -s "$(command -v "$tool")" "$room/few/"; done

# installed COMMAND WORD..: runs a command of an installed copy from a folder of its own.
installed() {
    (cd "$room/elsewhere" && PATH="$room/few" "$@")
}
mkdir "$room/elsewhere"
printf 'let a = 1; function f(b) { return b; } f(a);\n' >"$room/elsewhere/sum.js"

make -s install PREFIX="$prefix" >"$room/said" 2>&1
expect "make install" "0 installed: $prefix/bin/bolgwyr" "$? $(tail -n 1 "$room/said")"
expect "the link of the command" ../lib/bolgwyr/bin/bolgwyr "$(readlink "$prefix/bin/bolgwyr")"
wanted="$(bin/bolgwyr --version | tail -n 2)"
found="$(installed "$prefix/bin/bolgwyr" --version)"
expect "the version" "0 bolgwyr $(node -p 'require("./package.json").version')" "$? $(head -n 1 <<<"$found" | cut -d' ' -f1,2)"
expect "it tells how the programs were made" "$wanted" "$(tail -n 2 <<<"$found")"
expect "report" "$(bin/bolgwyr report "$room/elsewhere/sum.js")" "$(installed "$prefix/bin/bolgwyr" report sum.js)"
expect "the programs run too" "$(bin/report <samples/function.json)" "$(installed "$prefix/lib/bolgwyr/bin/report" <samples/function.json)"
installed "$prefix/bin/bolgwyr" prove >"$room/said" 2>&1
expect "an installed copy proves nothing" "3 1" "$? $(wc -l <"$room/said")"
manual="$(zcat "$prefix/share/man/man1/bolgwyr.1.gz")"
expect "the manual has each command" "$(bin/bolgwyr --help | sed -n '/^Commands:/,/^$/s/^  \([a-z-]*\) .*/\1/p' | grep -v '^$\|^help$')" \
    "$(sed -n 's/^\.SS bolgwyr \([^ ]*\).*/\1/p' <<<"$manual" | tr -d '\\')"
# Each module is loaded, so that none that another one needs is left out of the copy. Those that run when they
# are loaded, or in a page, aren't.
(cd "$prefix/lib/bolgwyr" && grep -rL 'require.main\|process.argv\|workerData\|document\.' --include='*.js' tools index.js | grep -v '^tools/analyse/page/client/') >"$room/modules"
installed node -e '
  for (const module of require("fs").readFileSync(process.argv[1], "utf8").trim().split("\n")) require(`${process.argv[2]}/${module}`);
' "$room/modules" "$prefix/lib/bolgwyr" >"$room/said" 2>&1
expect "each module is whole" "0 " "$? $(grep -m 1 Error "$room/said")"
expect "nothing of tests is installed" "" "$(find "$prefix/lib" -name 'test*' -o -name '__pycache__')"
if command -v man >/dev/null 2>&1; then
    expect "the manual is well formed" "" "$(man --warnings -l "$prefix/share/man/man1/bolgwyr.1.gz" 2>&1 >/dev/null)"
fi

# completed WORD..: what bash offers for the last word.
completed() {
    bash -c '. "$1"; shift; COMP_WORDS=("$@"); COMP_CWORD=$(($# - 1)); _bolgwyr; echo "${COMPREPLY[*]}"' bash "$prefix/share/bash-completion/completions/bolgwyr" "$@"
}
expect "completion of a command" prove "$(completed bolgwyr pro)"
expect "of an option" --stdin-name "$(completed bolgwyr tree --std)"
expect "of its value" "acorn typescript babel" "$(completed bolgwyr tree --parser "")"
expect "of a name" report_main "$(completed bolgwyr prove r)"

make -s uninstall PREFIX="$prefix"
expect "make uninstall" "" "$(find "$prefix" ! -type d)"

if command -v dpkg-deb >/dev/null 2>&1; then
    tools/install/package.sh "$room/package" >/dev/null
    expect "make deb" 0 $?
    package="$(ls "$room"/package/*.deb)"
    dpkg-deb -x "$package" "$room/unpacked"
    expect "the package runs" "$found" "$(installed "$room/unpacked/usr/bin/bolgwyr" --version)"
    expect "it names root and no other owner" "root/root" "$(dpkg-deb -c "$package" | awk '{ print $2 }' | sort -u)"
    expect "its sums are right" "" "$(dpkg-deb --ctrl-tarfile "$package" | tar -xO ./md5sums | (cd "$room/unpacked" && md5sum -c --quiet 2>&1))"
    # What it depends on is what tools/setup.sh installs.
    for name in $(dpkg-deb -f "$package" Depends | tr ',' '\n' | sed 's/(.*//' | grep '^ *node-'); do
        expect "tools/setup.sh installs $name" 0 "$(grep -qw -- "$name" tools/setup.sh; echo $?)"
    done
    mkdir -p "$room/root/var/lib/dpkg/updates" "$room/root/var/lib/dpkg/info"
    touch "$room/root/var/lib/dpkg/status"
    if [ "$(id -u)" = 0 ]; then
        dpkg --root="$room/root" --force-depends --install "$package" >"$room/said" 2>&1
        expect "dpkg installs it" "0 0" "$? $(installed "$room/root/usr/bin/bolgwyr" --version >/dev/null; echo $?)"
        dpkg --root="$room/root" --purge bolgwyr >"$room/said" 2>&1
        expect "and removes it" "0 " "$? $(find "$room/root/usr" ! -type d 2>/dev/null)"
    fi
fi
echo "$passed passed, $failed failed"
[ "$failed" = 0 ]
