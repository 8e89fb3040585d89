#!/bin/sh
# Installs the command below a prefix: the tools and the programs in lib/bolgwyr, a link in bin, the manual, the completions of bash
# and the documents. The programs have to be built. It notes how each was made, so that an installed copy never looks for sources.
# usage: tools/install/install.sh DESTDIR PREFIX   (an empty DESTDIR is the machine itself)
set -eu
here="$(cd "$(dirname "$0")" && pwd)"
top="$(cd "$here/../.." && pwd)"
case "$2" in /*) ;; *) echo "install: PREFIX is a folder by its whole name, from / on, and not '$2'" >&2; exit 2 ;; esac
to="$1$2"
lib="$to/lib/bolgwyr"
share="$to/share"

fail() {
    echo "install: $1" >&2
    exit 1
}

command -v node >/dev/null 2>&1 || fail "Node is wanted, 18 or later: tools/setup.sh installs it"
mkdir -p "$to" 2>/dev/null && [ -w "$to" ] || fail "$to can't be written: call make install as root, or with PREFIX=\$HOME/.local"

"$here/uninstall.sh" "$1" "$2"
mkdir -p "$to/bin" "$lib/programs" "$share/man/man1" "$share/bash-completion/completions" "$share/doc/bolgwyr"

# The programs, and how each was made.
{
    echo "commit $(git -C "$top" describe --always --dirty --exclude '*' 2>/dev/null || echo unknown)"
    echo "kit $(rt version 2>/dev/null || echo unknown)"
} >"$lib/programs/states"
for crate in report_main tools_main; do
    ready="$("$top/tools/programs/ready.sh" "$crate")"
    [ "$ready" != none ] || fail "$crate isn't built: make builds it"
    install -m 755 "${ready#* }" "$lib/programs/$crate"
    echo "$crate ${ready%% *}" >>"$lib/programs/states"
done

# The tools that package.json lists, and behind them, with a !, what is left out.
cd "$top"
node -p 'require("./package.json").files.join("\n")' | while read -r part; do
    case "$part" in !*) rm -rf "$lib/${part#!}"; continue ;; esac
    [ -e "$part" ] || fail "$part isn't there, and package.json lists it"
    mkdir -p "$lib/$(dirname "$part")"
    cp -R "$part" "$lib/$part"
done
cp package.json LICENSE "$lib/"
find "$lib" -name __pycache__ -prune -exec rm -rf {} +
chmod -R u=rwX,go=rX "$lib"
ln -s ../lib/bolgwyr/bin/bolgwyr "$to/bin/bolgwyr"

node tools/install/manual.js | gzip -9n >"$share/man/man1/bolgwyr.1.gz"
node tools/install/completions.js >"$share/bash-completion/completions/bolgwyr"
cp -R README.md CALLING.md docs "$share/doc/bolgwyr/"
cp LICENSE "$share/doc/bolgwyr/copyright"
chmod -R u=rwX,go=rX "$share/doc/bolgwyr" "$share/man/man1/bolgwyr.1.gz" "$share/bash-completion/completions/bolgwyr"
echo "installed: $to/bin/bolgwyr"
