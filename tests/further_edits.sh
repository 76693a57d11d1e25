#!/bin/bash
# Tries the edits that the gate doesn't: crates/NAME/further-edits/*.edit, of the crates that are named, or of all. Each
# must be refused, like those of must-fail/, which the gate tries. It takes a proof of each crate, and 10 to 60 seconds
# more for each edit. `--apply` tries none, and only checks whether each edit still fits the code that it changes.
cd "$(dirname "$0")/.." || exit 1

# Tells of each edit whose old line doesn't stand once in its file, or that lacks a line.
unfit() {
    python3 - << 'END'
from glob import glob
for path in sorted(glob('crates/*/further-edits/*')):
    crate = path.rsplit('/', 2)[0]
    texts, file, old, pairs = {}, None, None, 0
    for line in open(path, encoding='utf-8'):
        word, _, rest = line.rstrip('\n').partition(':')
        rest = rest.removeprefix(' ')
        if word == 'file':
            file = rest
            texts[file] = texts.get(file) or open(f'{crate}/{file}', encoding='utf-8').read()
        elif word == 'old':
            old = rest
            if texts[file].count(old) != 1:
                print(f'{path}: this stands {texts[file].count(old)} times: {old}')
        elif word == 'new':
            texts[file], pairs = texts[file].replace(old, rest), pairs + 1
    if not pairs:
        print(f'{path}: it changes nothing')
END
}

if [ "${1:-}" = --apply ]; then
    found=$(unfit)
    [ -z "$found" ] || printf '%s\n' "$found"
    [ -z "$found" ]
    exit
fi
names=("$@")
if [ "${#names[@]}" -eq 0 ]; then
    for folder in crates/*/further-edits; do names+=("$(basename "$(dirname "$folder")")"); done
fi
copy=$(mktemp -d)
trap 'rm -rf "$copy"' EXIT
cp crates.txt HANDLES "$copy/"
tar --exclude=out --exclude=must-fail -cf - crates | tar -xf - -C "$copy"
for folder in "$copy"/crates/*/further-edits; do mv "$folder" "${folder%/*}/must-fail"; done
cd "$copy" && rt must-fail "${names[@]}"
