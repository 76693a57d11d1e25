#!/usr/bin/env python3
"""`desync cat` of a whole image from a folder store into a file, beside `extract -k -n 1` into an absent one on the
same disk; and the first byte of the last chunk of an index of 2^22 entries, beside that of the first chunk.

The image is of random bytes, cut every 64 KiB. Needs twice the image's size and 168 MB under the temporary folder.
"""

import os

import side_by_side
import formats
import program
import sliced

# The memory beside the index and the chunks that are kept, in KiB, and how many these are.
MEMORY, KEPT = 16384, 8
CHUNK = b'x'


def row(what, script, words, prepare=lambda: None, at_most=None):
    """A run through bash, which becomes the program and sends its output to a file."""
    return side_by_side.Row(what, ['-c', script, program.DESYNC, *words], prepare, at_most=at_most, command='/bin/bash')


def whole_image(folder, size, runs):
    sliced.lay_out(folder, size, store='st')
    clear = side_by_side.remover(os.path.join(folder, 'out'))
    words = ['extract', '-k', '-n', '1', '-s', 'st', 'image.caibx', 'out']
    extracting = side_by_side.Row('extract -k -n 1, output absent', words, clear)
    printing = row('cat into a new file', 'exec "$0" cat -s st image.caibx > out', [], clear, at_most=1.15)
    rows = [extracting, printing]
    side_by_side.measure(rows, folder, runs)
    print(f'an image of {size} bytes, {-(-size // sliced.CHUNK)} chunks; medians of {runs} runs')
    side_by_side.print_table(rows, size)
    index = os.path.getsize(os.path.join(folder, 'image.caibx')) // 1024
    kept = KEPT * sliced.CHUNK // 1024
    print(f'memory: {printing.peak} KiB, the index has {index} and {KEPT} chunks {kept}; '
          f'at most {MEMORY} beside them\n')


def one_byte(folder, runs):
    name = formats.digest_of(CHUNK)
    data = formats.long_index(formats.ITEM_LIMIT, name)
    formats.write_chunk(os.path.join(folder, 'one'), name, CHUNK)
    with open(os.path.join(folder, 'long.caibx'), 'wb') as file:
        file.write(data)
    last = formats.ITEM_LIMIT - 1
    script = 'exec "$0" cat -s one -l 1 -o "$1" long.caibx > out'
    rows = [row('the first byte of the first chunk', script, ['0']),
            row('the first byte of the last chunk', script, [str(last)], at_most=1.2)]
    side_by_side.measure(rows, folder, runs)
    print(f'an index of {len(data)} bytes, {formats.ITEM_LIMIT} entries; medians of {runs} runs')
    side_by_side.print_table(rows, len(data))


def main():
    options = side_by_side.arguments(__doc__, 512)
    with side_by_side.work_folder() as folder:
        whole_image(folder, options.size * side_by_side.MIB, options.runs)
        one_byte(folder, options.runs)


if __name__ == '__main__':
    main()
