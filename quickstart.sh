#!/bin/bash
# Makes the index and the chunk store of an image, assembles the image from them over a damaged and too long
# old output, on real files, and compares every byte. Works in a folder of its own under the system's temporary
# folder, which it removes.
set -euo pipefail
top=$(cd "$(dirname "$0")" && pwd)
size=$((6 * 1024 * 1024))

say() { printf '== %s\n' "$*"; }

say 'the program'
"$top/build"
desync() { "$top/bin/desync" "$@"; }

folder=$(mktemp -d "${TMPDIR:-/tmp}/desync-quickstart-XXXXXX")
trap 'rm -rf "$folder"' EXIT
cd "$folder"

say "an image of $size random bytes"
head -c "$size" /dev/urandom > image
mkdir store

say 'desync make -s store image.caibx image'
desync make -s store image.caibx image
say "$(find store -type f | wc -l) chunks in the store, $(wc -c < image.caibx) bytes of index"

say 'an old output: the image with 100,000 bytes overwritten in the middle and 5,000 too many at the end'
cp image output
head -c 100000 /dev/zero | dd of=output bs=4096 seek=$((size / 8192)) conv=notrunc status=none
head -c 5000 /dev/urandom >> output
if cmp -s image output; then
    say 'FAILED: the old output is the image already'
    exit 1
fi

say 'desync extract -k -s store image.caibx output'
desync extract -k -s store image.caibx output

say 'cmp image output'
if ! cmp image output; then
    say 'FAILED: the output is not the image'
    exit 1
fi
say "done: all $size bytes agree"
