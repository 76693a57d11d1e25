#!/usr/bin/env python3
"""Extracts with seeds of all kinds: right ones, wrong ones, absent ones, links, sparse files, and the output itself.

The image is a hundred chunks of random bytes, some of them twice. What is right is read off the bytes by this script.
"""

import os
import random
import sys

import formats
import program
from checks import Cases, expect, expect_ended, file_bytes, needs_program

SEED_ITEM_LIMIT = 1 << 23
MOST_SEEDS = 64


class Image:
    """An image with its index and the chunks that it has, in a folder: as `new.caibx`, and in the store `all`."""

    def __init__(self, folder):
        chance = random.Random(7)
        self.folder = folder
        self.pieces = [chance.randbytes(chance.randint(1000, 20_000)) for _ in range(100)]
        self.pieces[40] = self.pieces[3]
        self.pieces[90] = self.pieces[3]
        self.bytes = b''.join(self.pieces)
        os.mkdir(self.path('none'))
        self.index = self.write_index('new.caibx', self.pieces)
        for piece in self.pieces:
            formats.write_chunk(self.path('all'), formats.digest_of(piece), piece)

    def path(self, name):
        return os.path.join(self.folder, name)

    def write(self, name, data):
        with open(self.path(name), 'wb') as file:
            file.write(data)

    def write_index(self, name, pieces):
        index = formats.Index([])
        for piece in pieces:
            index.add(piece)
        formats.write_index(self.path(name), index)
        return index

    def store(self, name, numbers):
        """A store of the chunks of these entries."""
        os.mkdir(self.path(name))
        for number in numbers:
            formats.write_chunk(self.path(name), self.index.entries[number][1], self.pieces[number])

    def extract(self, *words, store='none'):
        return program.run(['extract', '-k', '-s', store, *words, 'new.caibx', 'out'], self.folder)

    def expect_right(self, *words, store='none'):
        expect_ended(self.extract(*words, store=store), what='extract')
        expect(file_bytes(self.path('out')) == self.bytes, 'the output isn\'t the image')


def missing(image, number):
    return f'chunk {image.index.entries[number][1].hex()} of entry {number} is missing'


def seeds_that_have_chunks(cases):
    with cases.case('a seed with all chunks, in another order, and an empty store') as folder:
        image = Image(folder)
        image.write_index('seed.caibx', image.pieces[::-1])
        image.write('seed', b''.join(image.pieces[::-1]))
        image.expect_right('--seed', 'seed.caibx')
    with cases.case('two seeds, each with half of the chunks') as folder:
        image = Image(folder)
        for name, pieces in (('a', image.pieces[:50]), ('b', image.pieces[50:])):
            image.write_index(f'{name}.caibx', pieces)
            image.write(name, b''.join(pieces))
        image.expect_right('--seed', 'a.caibx', '--seed', 'b.caibx')
        os.remove(image.path('out'))
        expect_ended(image.extract('--seed', 'a.caibx'), missing(image, 50), what='one seed alone')
    with cases.case('a seed that is a symbolic link, and one whose index is') as folder:
        image = Image(folder)
        image.write_index('real.caibx', image.pieces)
        image.write('real', image.bytes)
        os.symlink('real', image.path('link'))
        os.symlink('real.caibx', image.path('link.caibx'))
        image.expect_right('--seed', 'link.caibx')
    with cases.case('a seed that is a sparse file') as folder:
        image = Image(folder)
        hole = bytes(200_000)
        pieces = [image.pieces[0], *[hole] * 15, *image.pieces[1:]]
        image.write_index('seed.caibx', pieces)
        with open(image.path('seed'), 'wb') as file:
            file.write(image.pieces[0])
            file.seek(15 * len(hole), os.SEEK_CUR)
            file.write(b''.join(image.pieces[1:]))
        image.expect_right('--seed', 'seed.caibx')
    with cases.case('a name with more than one dot, in another folder') as folder:
        image = Image(folder)
        os.mkdir(image.path('old'))
        image.write_index('old/disk.img.caibx', image.pieces)
        image.write('old/disk.img', image.bytes)
        image.expect_right('--seed', 'old/disk.img.caibx')


def seeds_that_harm_nothing(cases):
    def wrong(data):
        return bytes(byte ^ 1 for byte in data)

    for what, data in (('wrong bytes', wrong), ('no byte', lambda data: b''),
                       ('half of them', lambda data: data[:len(data) // 2]),
                       ('one byte before them', lambda data: b'x' + data)):
        with cases.case(f'a seed with {what}, before one that is right') as folder:
            image = Image(folder)
            image.write_index('bad.caibx', image.pieces)
            image.write('bad', data(image.bytes))
            image.expect_right('--seed', 'bad.caibx', store='all')
            os.remove(image.path('out'))
            image.write_index('good.caibx', image.pieces)
            image.write('good', image.bytes)
            image.expect_right('--seed', 'bad.caibx', '--seed', 'good.caibx')
    with cases.case('a seed that isn\'t there, and one that is a folder') as folder:
        image = Image(folder)
        image.write_index('absent.caibx', image.pieces)
        image.write_index('folder.caibx', image.pieces)
        os.mkdir(image.path('folder'))
        image.expect_right('--seed', 'absent.caibx', '--seed', 'folder.caibx', store='all')
        os.remove(image.path('out'))
        expect_ended(image.extract('--seed', 'absent.caibx'), missing(image, 0), what='an absent seed alone')


def seeds_and_the_output(cases):
    with cases.case('the output itself as seed, and a store that has all') as folder:
        image = Image(folder)
        old = image.pieces[10:] + image.pieces[:10]
        image.write_index('out.caibx', old)
        image.write('out', b''.join(old))
        image.expect_right('--seed', 'out.caibx', store='all')
    with cases.case('a hard link to the output as seed, and a store that has all') as folder:
        image = Image(folder)
        old = image.pieces[10:] + image.pieces[:10]
        image.write_index('seed.caibx', old)
        image.write('seed', b''.join(old))
        os.link(image.path('seed'), image.path('out'))
        image.expect_right('--seed', 'seed.caibx', store='all')
    with cases.case('a chunk that is right in the output already, and in no seed and no store') as folder:
        image = Image(folder)
        image.write_index('seed.caibx', image.pieces[:99])
        image.write('seed', b''.join(image.pieces[:99]))
        image.write('out', bytes(len(image.bytes) - len(image.pieces[99])) + image.pieces[99])
        image.expect_right('--seed', 'seed.caibx')


def indexes_that_are_refused(cases):
    with cases.case('the index of a seed that isn\'t there, or is damaged') as folder:
        image = Image(folder)
        image.write_index('good.caibx', image.pieces)
        ended = image.extract('--seed', 'good.caibx', '--seed', 'absent.caibx', store='all')
        expect_ended(ended, 'absent.caibx: no such file')
        image.write('bad.caibx', b'no index')
        ended = image.extract('--seed', 'bad.caibx', '--seed', 'absent.caibx', store='all')
        expect_ended(ended, 'bad.caibx: bad index: no index head')
        expect_ended(image.extract('--seed', 'bad.caibx', store='absent'), 'bad.caibx: bad index: no index head')
        expect(file_bytes(image.path('out')) is None, 'the output was made')


def items_that_are_too_many(cases):
    def name_of_number(number):
        return number.to_bytes(32, 'little')

    with cases.case('seeds that list as many items as they may, and one more') as folder:
        image = Image(folder)
        most = SEED_ITEM_LIMIT // MOST_SEEDS
        for name, count in (('most', most), ('more', most + 1)):
            formats.write_index(image.path(f'{name}.caibx'),
                                formats.Index((number + 1, name_of_number(number)) for number in range(count)))
        words = [word for _ in range(MOST_SEEDS - 1) for word in ('--seed', 'most.caibx')]
        image.expect_right(*words, '--seed', 'most.caibx', store='all')
        expect_ended(image.extract(*words, '--seed', 'more.caibx', store='absent'), 'too many chunks')


def main():
    needs_program('seeds')
    cases = Cases('seeds')
    for group in (seeds_that_have_chunks, seeds_that_harm_nothing, seeds_and_the_output, indexes_that_are_refused,
                  items_that_are_too_many):
        group(cases)
    return cases.end()


if __name__ == '__main__':
    sys.exit(main())
