#!/bin/sh
# Proves the archive and writes target/staticlib/libarchive.a, unless the one that is there was made from the same files.
set -eu
cd "$(dirname "$0")/.."
: "${RT:=rt}"
export RT
. tools/made.sh
archive=$(product archive)

if is_made "$(sum_of_sources)" archive; then
    echo "$archive is there, and what it is made of has not changed."
    exit
fi
echo "Proving the archive and what it stands on, and writing $archive .."
sh tools/prove.sh target/archive.out archive
echo "$archive is written."
