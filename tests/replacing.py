#!/usr/bin/env python3
"""`extract` without -k: OUT is the old file or the whole new one at every moment, and no temporary file stays.

The image is a hundred chunks of random bytes. What OUT must hold is known to this script from the bytes themselves.
"""

import os
import random
import signal
import stat
import sys
import time

import formats
import program
from checks import Cases, expect, expect_ended, expect_equal, file_bytes, needs_program, put_file

TEMPORARY = 'out.tmp-desync'
LIMIT = 1 << 20
KILLS = 200


class Image:
    """An image with its index `new.caibx` and its store `all`, and other bytes that OUT holds before."""

    def __init__(self, folder, pieces=100, least=5_000, greatest=40_000):
        chance = random.Random(13)
        self.folder = folder
        self.pieces = [chance.randbytes(chance.randint(least, greatest)) for _ in range(pieces)]
        self.bytes = b''.join(self.pieces)
        self.old = b'the old output' * 1000
        self.index = formats.Index([])
        for piece in self.pieces:
            formats.write_chunk(self.path('all'), self.index.add(piece), piece)
        formats.write_index(self.path('new.caibx'), self.index)

    def path(self, name):
        return os.path.join(self.folder, name)

    def words(self, *more, out='out', store='all'):
        return ['extract', '-s', store, *more, 'new.caibx', out]

    def run(self, *more, **names):
        return program.run(self.words(*more, **names), self.folder)

    def lose(self, number):
        """Removes the chunk of an entry from the store, and answers the line that is then printed."""
        name = self.index.entries[number][1]
        os.remove(formats.chunk_path(self.path('all'), name))
        return f'chunk {name.hex()} of entry {number} is missing'

    def expect_out(self, data, out='out'):
        got = file_bytes(self.path(out))
        expect(got == data, f'OUT has {None if got is None else len(got)} bytes, and they aren\'t the wanted ones')
        expect(not os.path.lexists(self.path(f'{out}.tmp-desync')), 'the temporary file is there')


def done(cases):
    for what, old in (('no OUT', None), ('an old OUT', b'the old output' * 1000), ('an OUT that is right', b'right')):
        for left in (None, b'what an earlier run left'):
            state = 'an earlier temporary file' if left else 'no temporary file'
            with cases.case(f'{what}, {state}') as folder:
                image = Image(folder)
                old = image.bytes if old == b'right' else old
                if old is not None:
                    put_file(image.path('out'), old)
                if left is not None:
                    put_file(image.path(TEMPORARY), left)
                expect_ended(image.run(), what='extract')
                image.expect_out(image.bytes)


def refused(cases):
    for what, old in (('no OUT', None), ('an old OUT', b'the old output')):
        with cases.case(f'a chunk is missing, {what}') as folder:
            image = Image(folder)
            if old is not None:
                put_file(image.path('out'), old)
            put_file(image.path(TEMPORARY), b'what an earlier run left')
            missing = image.lose(99)
            expect_ended(image.run(), missing)
            image.expect_out(old)
            expect_ended(image.run('-k'), missing)
            expect(file_bytes(image.path('out'))[:1000] == image.bytes[:1000], 'OUT is not made in its place with -k')
    with cases.case('a disk that is full') as folder:
        image = Image(folder)
        expect(len(image.bytes) > LIMIT, 'the image is too small')
        put_file(image.path('out'), image.old)
        expect_ended(program.run_with_file_limit(image.words(), folder, LIMIT), 'the target failed')
        image.expect_out(image.old)
    with cases.case('the folder of OUT may not be written') as folder:
        image = Image(folder)
        os.mkdir(image.path('closed'))
        put_file(image.path('closed/out'), image.old)
        os.chmod(image.path('closed/out'), 0o666)
        os.chmod(image.path('closed'), 0o555)
        ended = program.run_without_rights(image.words(out='closed/out'), folder)
        os.chmod(image.path('closed'), 0o755)
        expect_ended(ended, 'the target failed')
        image.expect_out(image.old, 'closed/out')
    with cases.case('OUT is a folder') as folder:
        image = Image(folder)
        os.mkdir(image.path('out'))
        expect_ended(image.run(), 'out: failed')
        expect(os.path.isdir(image.path('out')), 'the folder is gone')
        expect(not os.path.lexists(image.path(TEMPORARY)), 'the temporary file is there')
    with cases.case('something stands in the place of the temporary file that is no file') as folder:
        image = Image(folder)
        put_file(image.path('out'), image.old)
        os.mkdir(image.path(TEMPORARY))
        expect_ended(image.run(), 'the target failed')
        expect_equal(file_bytes(image.path('out')), image.old, 'OUT')


def names(cases):
    with cases.case('the longest name with room for the temporary one, and a longer one') as folder:
        image = Image(folder, pieces=3)
        expect_ended(image.run(out='o' * 244), what='extract')
        image.expect_out(image.bytes, 'o' * 244)
        expect_ended(image.run(out='o' * 245), 'the target failed')
        expect_ended(image.run('-k', out='o' * 255), what='extract -k')


def rights_and_links(cases):
    for mode in (0o600, 0o640, 0o755, 0o666):
        with cases.case(f'the rights of OUT are {mode:o}') as folder:
            image = Image(folder, pieces=3)
            put_file(image.path('out'), image.old)
            os.chmod(image.path('out'), mode)
            expect_ended(image.run(), what='extract')
            image.expect_out(image.bytes)
            expect_equal(stat.S_IMODE(os.stat(image.path('out')).st_mode), mode, 'the mode of OUT')
    with cases.case('OUT is a symbolic link') as folder:
        image = Image(folder, pieces=3)
        os.mkdir(image.path('far'))
        put_file(image.path('far/disk'), image.old)
        os.symlink('far/disk', image.path('out'))
        expect_ended(image.run(), what='extract')
        image.expect_out(image.bytes)
        expect_equal(os.readlink(image.path('out')), 'far/disk', 'the link')
        expect_equal(file_bytes(image.path('far/disk')), image.bytes, 'what is linked to')
    with cases.case('another name of OUT\'s file keeps the old bytes') as folder:
        image = Image(folder, pieces=3)
        put_file(image.path('out'), image.old)
        os.link(image.path('out'), image.path('other'))
        expect_ended(image.run(), what='extract')
        image.expect_out(image.bytes)
        expect_equal(file_bytes(image.path('other')), image.old, 'the other name')
    with cases.case('the temporary name links to another file') as folder:
        image = Image(folder, pieces=3)
        put_file(image.path('precious'), b'precious')
        os.symlink('precious', image.path(TEMPORARY))
        expect_ended(image.run(), what='extract')
        image.expect_out(image.bytes)
        expect(not os.path.islink(image.path('out')), 'OUT is a link')
        expect_equal(file_bytes(image.path('precious')), b'precious', 'the other file')


def out_as_seed(cases):
    with cases.case('OUT is the seed: all chunks come from it') as folder:
        image = Image(folder)
        old = formats.Index([])
        for piece in image.pieces[::-1]:
            old.add(piece)
        formats.write_index(image.path('out.caibx'), old)
        put_file(image.path('out'), b''.join(image.pieces[::-1]))
        os.mkdir(image.path('none'))
        expect_ended(image.run('--seed', 'out.caibx', store='none'), what='extract')
        image.expect_out(image.bytes)


def killed(cases):
    """Kills the program at random moments: OUT holds the old bytes or the new ones, and the next run makes it right."""
    with cases.case(f'{KILLS} kills at random moments') as folder:
        image = Image(folder, pieces=400)
        chance = random.Random(200)
        begun = time.monotonic()
        expect_ended(image.run(), what='extract')
        whole = time.monotonic() - begun
        olds = 0
        for number in range(KILLS):
            put_file(image.path('out'), image.old)
            process = program.start(image.words(), folder)
            time.sleep(chance.uniform(0, 1.2 * whole))
            process.send_signal(signal.SIGKILL)
            process.communicate()
            got = file_bytes(image.path('out'))
            expect(got in (image.old, image.bytes), f'kill {number}: OUT has {len(got)} bytes of neither')
            olds += got == image.old
        expect(0 < olds, 'OUT was never the old one, so nothing was tried')
        expect_ended(image.run(), what='the run after')
        image.expect_out(image.bytes)


def main():
    needs_program('replacing')
    cases = Cases('replacing')
    for group in (done, refused, names, rights_and_links, out_as_seed, killed):
        group(cases)
    return cases.end()


if __name__ == '__main__':
    sys.exit(main())
