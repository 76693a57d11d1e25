#!/usr/bin/env python3
"""`desync chop -n 1` of an image of random bytes into a store that has all of its chunks, beside openssl's digest of
the image; and with two and four workers beside one. Their limit is as many openssl digests of the image at once, over
that many times one digest.

Every byte of the image is read and named, and compared with the store's. Needs twice the image's size under the
temporary folder.
"""

import os

# First, since tests/, which side_by_side looks into, has a module of this name.
import workers
import extract
import side_by_side

# The wanted ratios to one worker: with two, and with four.
WANTED = (0.6, 0.35)


def main():
    options = side_by_side.arguments(__doc__, 512)
    size = options.size * side_by_side.MIB
    with side_by_side.work_folder() as folder:
        index = extract.write_image(folder, size)
        listed = ['-s', 'store', 'image.caibx', 'image']
        rows = [side_by_side.openssl(os.path.join(folder, 'image')),
                side_by_side.Row('chop -n 1, store has all chunks', ['chop', '-n', '1', *listed], at_most=2.0)]
        crews = workers.job('store has all chunks', listed, lambda: None, WANTED, ['chop'])
        limits = workers.digests(os.path.join(folder, 'image'))
        side_by_side.measure([*rows, *limits, *crews], folder, options.runs)
        print(f'an image of {size} bytes, {len(index.entries)} chunks; medians of {options.runs} runs')
        side_by_side.print_table(rows, size)
        workers.print_limits(limits, size)
        side_by_side.print_table(crews, size)


if __name__ == '__main__':
    main()
