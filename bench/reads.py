#!/usr/bin/env python3
"""`desync` reading an index of the greatest number of entries, and holding an image against its index with one worker,
each beside openssl's digest of the same file; and the latter with two and four workers beside one. Their limit is as
many openssl digests of the image at once, over that many times one digest.

The long index is read by `verify-index` with an image that isn't there, so that the run ends where the index stands
in memory. The image is of random bytes, cut every 64 KiB. Needs the image's size and 168 MB under the temporary
folder.
"""

import os

# First, since tests/, which side_by_side looks into, has a module of this name.
import workers
import side_by_side
import formats
import sliced

# The wanted ratios to one worker: with two, and with four.
WANTED = (0.6, 0.35)


def show(what, rows, folder, size, runs):
    side_by_side.measure(rows, folder, runs)
    print(f'{what} of {size} bytes; medians of {runs} runs')
    side_by_side.print_table(rows, size)


def main():
    options = side_by_side.arguments(__doc__, 512)
    with side_by_side.work_folder() as folder:
        long_index = os.path.join(folder, 'long.caibx')
        with open(long_index, 'wb') as file:
            file.write(formats.long_index(formats.ITEM_LIMIT))
        size = os.path.getsize(long_index)
        reading = side_by_side.Row('an index is read', ['verify-index', long_index, 'absent'], at_most=3, wanted=1)
        show('an index', [side_by_side.openssl(long_index), reading], folder, size, options.runs)
        print(f'memory: {reading.peak * 1024 / size:.2f} times the size of the file, at most 2.50\n')

        size = options.size * side_by_side.MIB
        sliced.lay_out(folder, size, image='image')
        words = ['verify-index', '-n', '1', 'image.caibx', 'image']
        verifying = side_by_side.Row('verify-index -n 1', words, at_most=2)
        image = os.path.join(folder, 'image')
        show('an image', [side_by_side.openssl(image), verifying], folder, size, options.runs)
        index = os.path.getsize(os.path.join(folder, 'image.caibx'))
        print(f'memory: {verifying.peak} KiB, the index has {index // 1024}; at most 16384 beside it\n')
        crews = workers.job('verify-index', ['image.caibx', 'image'], lambda: None, WANTED, ['verify-index'])
        limits = workers.digests(image)
        side_by_side.measure([*limits, *crews], folder, options.runs)
        workers.print_limits(limits, size)
        side_by_side.print_table(crews, size)


if __name__ == '__main__':
    main()
