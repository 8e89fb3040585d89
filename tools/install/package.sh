#!/bin/sh
# Makes a package for Debian, out/bolgwyr_VERSION_ARCHITECTURE.deb, of the programs as they are built.
# usage: tools/install/package.sh [FOLDER]   (FOLDER: where the package goes, out where none is named)
set -eu
here="$(cd "$(dirname "$0")" && pwd)"
top="$(cd "$here/../.." && pwd)"
folder="${1:-$top/out}"
command -v dpkg-deb >/dev/null 2>&1 || { echo "package: dpkg-deb is wanted, which Debian has" >&2; exit 1; }
room="$(mktemp -d)"
trap 'rm -rf "$room"' EXIT
trap 'exit 130' INT
trap 'exit 143' TERM

chmod 755 "$room"
"$here/install.sh" "$room" /usr >/dev/null
architecture="$(dpkg --print-architecture)"
mkdir "$room/DEBIAN"
node "$here/control.js" "$architecture" "$(du -sk "$room/usr" | cut -f1)" >"$room/DEBIAN/control"
(cd "$room" && find usr -type f -exec md5sum {} +) >"$room/DEBIAN/md5sums"
mkdir -p "$folder"
version="$(sed -n 's/^Version: //p' "$room/DEBIAN/control")"
dpkg-deb --root-owner-group --build "$room" "$folder/bolgwyr_${version}_$architecture.deb" >/dev/null
echo "made: $folder/bolgwyr_${version}_$architecture.deb"
