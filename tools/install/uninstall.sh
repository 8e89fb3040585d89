#!/bin/sh
# Removes what install.sh puts below a prefix, and nothing else.
# usage: tools/install/uninstall.sh DESTDIR PREFIX
set -eu
to="$1$2"
[ -n "$to" ] || { echo "uninstall: no PREFIX is named" >&2; exit 2; }
rm -rf "$to/lib/bolgwyr" "$to/share/doc/bolgwyr"
rm -f "$to/bin/bolgwyr" "$to/share/man/man1/bolgwyr.1.gz" "$to/share/bash-completion/completions/bolgwyr"
