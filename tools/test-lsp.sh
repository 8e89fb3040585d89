#!/bin/sh
# Tries bolgwyr lsp with frames that are written by hand, and with the editors that are there: Neovim, and Emacs with Eglot
# (apt-get install neovim emacs-nox elpa-eglot). It needs the programs.
# usage: tools/test-lsp.sh [frames] [neovim] [emacs]
set -eu
here="$(dirname "$(readlink -f "$0")")"
BOLGWYR="$here/../bin/bolgwyr"
scratch="$(mktemp -d)"
trap 'rm -rf "$scratch"' EXIT
status=0

# The file is one for each client. What an editor keeps goes to the scratch folder.
client() {
    name="$1"
    shift
    mkdir "$scratch/$name"
    HOME="$scratch/$name" XDG_CONFIG_HOME="$scratch/$name" XDG_STATE_HOME="$scratch/$name" XDG_CACHE_HOME="$scratch/$name" \
        BOLGWYR="$BOLGWYR" FILE="$scratch/$name/module.mjs" "$@" || {
        echo "FAILED: $name" >&2
        status=1
    }
}

frames() {
    node "$here/test-lsp.js" || status=1
}

neovim() {
    if command -v nvim >/dev/null 2>&1; then
        client neovim nvim --headless -u NONE -n -i NONE -c "luafile $here/test-lsp/neovim.lua" -c 'cquit'
    else
        echo "skipped: Neovim isn't there"
    fi
}

emacs_with_eglot() {
    if ! command -v emacs >/dev/null 2>&1; then
        echo "skipped: Emacs isn't there"
    elif ! emacs --batch --eval '(progn (package-initialize) (require (quote eglot)))' >/dev/null 2>&1; then
        echo "skipped: Eglot isn't there"
    else
        client emacs emacs --batch -l "$here/test-lsp/eglot.el"
    fi
}

[ "$#" -gt 0 ] || set -- frames neovim emacs
for which in "$@"; do
    case "$which" in
    frames) frames ;;
    neovim) neovim ;;
    emacs) emacs_with_eglot ;;
    *)
        echo "test-lsp: there is no client $which" >&2
        exit 2
        ;;
    esac
done
exit "$status"
