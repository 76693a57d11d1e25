#!/usr/bin/env python3
"""`desync extract -k` of an image of random bytes in chunks of 16 to 256 KiB, beside openssl's digest of it.

Into an absent output every byte is read from the store, named and written; over an output that is right already every
byte is read and named once; and over an older version, of which 94 % are right, every byte is named once, and the
others are read from the store and written. Without -k the first run goes through a temporary file. With -c the chunks
come from a full cache beside an empty store, or from the store and are then added to an empty cache. casync's
extraction from a store of its own is measured beside it, where it is installed. All with one worker; bench/workers.py
measures several. Needs the image's size under the temporary folder for each run, and six times more.
"""

import filecmp
import os
import random
import shutil
import sys

import side_by_side
import formats

LEAST, GREATEST = 16 * 1024, 256 * 1024


def write_image(folder, size):
    """Writes the image, its index and its store, chunk by chunk. Answers the index."""
    chance = random.Random(512)
    index = formats.Index([])
    with open(os.path.join(folder, 'image'), 'wb') as image:
        while index.length() < size:
            chunk = chance.randbytes(min(chance.randint(LEAST, GREATEST), size - index.length()))
            formats.write_chunk(os.path.join(folder, 'store'), index.add(chunk), chunk)
            image.write(chunk)
    formats.write_index(os.path.join(folder, 'image.caibx'), index)
    return index


def age(output, index):
    """Makes every 16th chunk of the output another one."""
    start = 0
    with open(output, 'r+b') as file:
        for number, (end, _) in enumerate(index.entries):
            if number % 16 == 0:
                file.seek(start)
                file.write(bytes(end - start))
            start = end


def main():
    options = side_by_side.arguments(__doc__, 512)
    size = options.size * side_by_side.MIB
    with side_by_side.work_folder() as folder:
        index = write_image(folder, size)
        count = len(index.entries)
        image, output = os.path.join(folder, 'image'), os.path.join(folder, 'output')

        remove_output = side_by_side.remover(output)

        def cool_down():
            # The filled cache is moved aside, not removed: creating files takes longer right after many were removed.
            remove_output()
            if os.path.exists(cold):
                os.rename(cold, f'{cold}-{len(os.listdir(folder))}')
            os.mkdir(cold)

        def age_output():
            shutil.copyfile(image, output)
            age(output, index)

        words = ['extract', '-n', '1', '-k', '-s', 'store', 'image.caibx', 'output']
        beside = [word for word in words if word != '-k']
        shutil.copytree(os.path.join(folder, 'store'), os.path.join(folder, 'warm'))
        os.mkdir(os.path.join(folder, 'empty'))
        cold = os.path.join(folder, 'cold')
        rows = [side_by_side.openssl(image),
                side_by_side.Row('extract -k, output absent', words, remove_output, at_most=2.0),
                side_by_side.Row('extract, output absent', beside, remove_output),
                side_by_side.Row('extract -k, output right already', words, at_most=1.55),
                side_by_side.Row('extract -k, output 94 % right', words, age_output, at_most=1.8),
                side_by_side.Row('extract -k, from a cache, store empty',
                                 ['extract', '-k', '-s', 'empty', '-c', 'warm', *words[-2:]], remove_output),
                side_by_side.Row('extract -k, cache empty',
                                 ['extract', '-k', '-s', 'store', '-c', 'cold', *words[-2:]], cool_down)]
        ours = rows[1:]
        rows += side_by_side.casync_rows(folder, image, output, remove_output, [('output absent', None)])
        side_by_side.measure(rows, folder, options.runs)
        if not filecmp.cmp(image, output, shallow=False):
            sys.exit('the output is not the image')

        print(f'an image of {size} bytes, {count} chunks, an index of '
              f'{os.path.getsize(os.path.join(folder, "image.caibx"))} bytes; medians of {options.runs} runs')
        side_by_side.print_table(rows, size)
        print(f'extract by way of a temporary file takes {rows[2].median() / rows[1].median():.2f} times as long as in '
              'place; wanted at most 1.05')
        print(f'from a cache chunks come at {rows[1].median() / rows[5].median():.2f} of the pace of a folder store; '
              'wanted at least 0.9')
        print('Peak memory is wanted at most 16384 KiB beside the index.')
        for row in ours:
            side_by_side.print_openings(row, folder, output)


if __name__ == '__main__':
    main()
