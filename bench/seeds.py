#!/usr/bin/env python3
"""`desync extract -k` of an image of random bytes in chunks of 16 to 256 KiB into an absent output, with an older
version of it as seed, beside openssl's digest of it.

The seed has 94 % of the chunks: these are read from it, named and written, and the others come from the store. casync's
extraction with the same seed, from a store of its own, is measured beside it, where it is installed. Needs five times
the image's size under the temporary folder.
"""

import filecmp
import os
import random
import sys

import extract
import formats
import side_by_side


def write_seed(folder, index):
    """Writes the older version: each 16th chunk is another one. Answers how many chunks it has in common."""
    chance = random.Random(94)
    older = formats.Index([])
    start = 0
    with open(os.path.join(folder, 'image'), 'rb') as image, open(os.path.join(folder, 'older'), 'wb') as seed:
        for number, (end, _) in enumerate(index.entries):
            chunk = image.read(end - start)
            if number % 16 == 0:
                chunk = chance.randbytes(end - start)
            older.add(chunk)
            seed.write(chunk)
            start = end
    formats.write_index(os.path.join(folder, 'older.caibx'), older)
    return len(index.names() & older.names())


def main():
    options = side_by_side.arguments(__doc__, 512)
    size = options.size * side_by_side.MIB
    with side_by_side.work_folder() as folder:
        index = extract.write_image(folder, size)
        common = write_seed(folder, index)
        image, output = os.path.join(folder, 'image'), os.path.join(folder, 'output')

        remove_output = side_by_side.remover(output)
        words = ['extract', '-n', '1', '-k', '-s', 'store', '--seed', 'older.caibx', 'image.caibx', 'output']
        rows = [side_by_side.openssl(image),
                side_by_side.Row('extract -k --seed, output absent', words, remove_output, at_most=2.0)]
        rows += side_by_side.casync_rows(folder, image, output, remove_output,
                                         [('no seed', None), ('the older version as seed', 'older')])
        side_by_side.measure(rows, folder, options.runs)
        if not filecmp.cmp(image, output, shallow=False):
            sys.exit('the output is not the image')

        print(f'an image of {size} bytes, {len(index.entries)} chunks, of which the seed has {common}; medians of '
              f'{options.runs} runs')
        side_by_side.print_table(rows, size)
        print('Peak memory is wanted at most 16384 KiB beside the indexes and the plan.')
        side_by_side.print_openings(rows[1], folder, output)


if __name__ == '__main__':
    main()
