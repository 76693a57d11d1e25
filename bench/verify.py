#!/usr/bin/env python3
"""`desync verify -n 1` over a store of chunks of random bytes, beside one `openssl dgst -sha512-256` over all of its
files together; and over a store of 100,000 small chunk files, beside `find FOLDER -type f | sort`. Over both also with
two and four workers beside one.

The first store has chunks of 64 KiB. Needs the first store's size under the temporary folder, and 100,000 files.
"""

import os
import random
import shutil

# First, since tests/, which side_by_side looks into, has a module of this name.
import workers
import side_by_side
import formats

CHUNK = 65536
COUNT = 100_000
SMALL = 256

# The wanted ratios to one worker: with two, and with four.
WANTED = (0.65, 0.4)


def lay_out(folder, count, size, seed):
    """Writes a store of so many chunks of a size; answers how many bytes they have."""
    chance = random.Random(seed)
    os.makedirs(folder)
    for _ in range(count):
        piece = chance.randbytes(size)
        formats.write_chunk(folder, formats.digest_of(piece), piece)
    return count * size


def shell(what, text):
    return side_by_side.Row(what, ['-c', text], command=shutil.which('sh'))


def verify(what, store, at_most=None):
    return side_by_side.Row(what, ['verify', '-n', '1', '-s', store], at_most=at_most)


def crews(what, store, wanted):
    return workers.job(what, ['-s', store], lambda: None, wanted, ['verify'])


def main():
    options = side_by_side.arguments(__doc__, 512)
    with side_by_side.work_folder() as folder:
        size = lay_out(os.path.join(folder, 'large'), options.size * side_by_side.MIB // CHUNK, CHUNK, 3)
        rows = [shell('openssl dgst of all files', 'find large -type f -print0 | xargs -0 openssl dgst -sha512-256'),
                verify('verify -n 1', 'large', 1.6)]
        several = crews('chunks of 64 KiB', 'large', WANTED)
        side_by_side.measure([*rows, *several], folder, options.runs)
        print(f'{size} bytes in {size // CHUNK} chunks; medians of {options.runs} runs')
        side_by_side.print_table(rows, size)
        side_by_side.print_table(several, size)

        size = lay_out(os.path.join(folder, 'many'), COUNT, SMALL, 4)
        rows = [shell('find | sort', 'find many -type f | LC_ALL=C sort'), verify('verify -n 1', 'many')]
        several = crews('100,000 files', 'many', (None, None))
        side_by_side.measure([*rows, *several], folder, options.runs)
        print(f'{COUNT} chunk files of {SMALL} bytes; medians of {options.runs} runs')
        side_by_side.print_table(rows, size)
        side_by_side.print_table(several, size)


if __name__ == '__main__':
    main()
