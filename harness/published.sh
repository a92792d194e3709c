#!/bin/sh
# Runs the harness on HDF4 files that others published: it fetches two Debian packages, takes the HDF4 files out of them and
# compares library and reader on each. It needs the network and Debian's apt-get, so it is no part of the regular checks.
#
#     HARNESS=path/to/harness ./published.sh

set -eu
unset CDPATH

here=$(cd "$(dirname "$0")" && pwd)
harness=${HARNESS:-$here/target/release/harness}
harness=$(cd "$(dirname "$harness")" && pwd)/$(basename "$harness")
test -x "$harness" || { echo "no harness at $harness: cargo build --release" >&2; exit 1; }

folder=$(mktemp -d)
trap 'rm -rf "$folder"' EXIT
cd "$folder"

apt-get download libncarg-data dxsamples
for package in *.deb; do
    dpkg-deb -x "$package" "${package%%_*}"
done

# An HDF4 file begins with the bytes 0e 03 13 01.
is_hdf4() {
    test "$(head -c 4 "$1" | od -An -tx1 | tr -d ' \n')" = 0e031301
}

find . -type f ! -name '*.deb' -size +9c >list
found=0
while IFS= read -r file; do
    if is_hdf4 "$file"; then
        echo "$file"
        "$harness" --file "$file"
        found=$((found + 1))
    fi
done <list
echo "$found published files compared"
test "$found" -gt 0
