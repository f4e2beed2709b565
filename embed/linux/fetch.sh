#!/bin/sh
# fetch.sh FOLDER [PACKAGE]
# Takes drivers/tee and the headers of `kernel/taken` from Debian's package of the kernel's source into FOLDER, as they are.
# The package comes from the package manager (apt-get download, for which nobody has to be root) and isn't kept.
# FOLDER/source says which version it was, and FOLDER/sums has the SHA-256 of each file.
set -eu
[ $# -ge 1 ] || { echo "usage: fetch.sh FOLDER [PACKAGE]" >&2; exit 2; }
here=$(cd "$(dirname "$0")" && pwd) package=${2:-linux-source-6.1}
mkdir -p "$1"
folder=$(cd "$1" && pwd)
work=$(mktemp -d)
trap 'rm -rf "$work"' EXIT
cd "$work"
apt-get download "$package" 2>&1 | grep -v "^W: Download is performed unsandboxed" >&2 || true
set -- "$package"_*.deb
[ -f "$1" ] || { echo "fetch.sh: apt-get has no $package (run apt-get update first)" >&2; exit 1; }
deb=$1
mkdir source
name=$(dpkg-deb --fsys-tarfile "$deb" | tar -t | sed -n 's|^\./usr/src/\(linux-source-[^/]*\)\.tar\.xz$|\1|p')
dpkg-deb --fsys-tarfile "$deb" | tar -xO "./usr/src/$name.tar.xz" |
	tar -xJ -C source --strip-components=1 "$name/drivers/tee" "$name/include" "$name/COPYING"
rm -rf "$folder/drivers" "$folder/include"
mkdir -p "$folder/drivers"
cp -r source/drivers/tee "$folder/drivers/tee"
grep -v '^#' "$here/kernel/taken" | while read -r header; do
	[ -f "source/include/$header" ] || continue
	mkdir -p "$(dirname "$folder/include/$header")"
	cp "source/include/$header" "$folder/include/$header"
done
cp source/COPYING "$folder/COPYING"
(cd "$folder" && find drivers include COPYING -type f | sort | xargs sha256sum >sums)
dpkg-deb -f "$deb" Package Version >"$folder/source"
cat "$folder/source"
echo "Licence: GPL-2.0, as each file says; $folder/COPYING"
