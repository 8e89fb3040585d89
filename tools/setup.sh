#!/bin/sh
# Installs what the tools round the analyser need and isn't there: Node, the modules that package.json names (node-acorn has
# acorn-jsx too) and that tests compare with, GNU parallel, rsync for runs on other machines, a C compiler, Python, and a browser
# for tests. Debian's packages by apt-get alone, as root or with sudo; none of them stands against a Node from elsewhere. It can be
# run again at any time.
# usage: tools/setup.sh [--without-browser]
set -eu

packages="node-acorn node-typescript node-commander node-globby node-ignore node-enhanced-resolve node-magic-string node-source-map"
packages="$packages node-globals node-chalk node-eslint-scope parallel rsync time"
[ "${1:-}" = --without-browser ] || packages="$packages chromium"

# A Node from elsewhere serves as well as Debian's.
command -v node >/dev/null 2>&1 || packages="nodejs $packages"
command -v cc >/dev/null 2>&1 || packages="$packages gcc libc6-dev"
command -v python3 >/dev/null 2>&1 || packages="$packages python3"

# True where the package is installed.
installed() {
    [ "$(dpkg-query -W -f '${db:Status-Status}' "$1" 2>/dev/null)" = installed ]
}

wanted=
for package in $packages; do
    if installed "$package"; then
        echo "there: $package"
    else
        wanted="$wanted $package"
    fi
done
if [ -z "$wanted" ]; then
    echo "nothing to install"
    exit 0
fi

as_root=
[ "$(id -u)" = 0 ] || as_root=sudo
if [ -n "$as_root" ] && ! command -v sudo >/dev/null 2>&1; then
    echo "setup: as root or with sudo: apt-get install$wanted" >&2
    exit 1
fi
echo "installing:$wanted"
$as_root apt-get -o DPkg::Lock::Timeout=300 update
# shellcheck disable=SC2086 # the names are words of their own
$as_root env DEBIAN_FRONTEND=noninteractive apt-get -o DPkg::Lock::Timeout=300 install -y --no-install-recommends $wanted
