#!/usr/bin/env python3
"""Reads the image of a real file system at random through `desync cat`, from a folder, from servers, and into pipes.

The image is that of tests/updating.py. What debugfs says of it, and its own bytes, are what is wanted. Groups of stores
are those of tests/groups.py.
"""

import contextlib
import os
import random
import re
import shutil
import subprocess
import sys

import formats
import groups
import http_stores
import program
import servers
import updating
from checks import Cases, Skip, expect, expect_equal, expect_untouched, file_bytes, needs_program, put_file, snapshot

MAGIC = b'\x53\xef'
OUTPUT_FAILED = 'the output failed'
RANGES = 60


def expect_put(ended, wanted, text='', what='the run'):
    """The program ended with this text as its error line, or with none where it is done, and put just these bytes."""
    expect_equal(ended.err.decode(), f'desync: {text}\n' if text else '', f'standard error of {what}')
    expect_equal(ended.out, wanted, f'standard output of {what}')
    expect_equal(ended.status, 1 if text else 0, f'the status of {what}')


def range_words(offset=None, length=None):
    return [*([] if offset is None else ['-o', str(offset)]), *([] if length is None else ['-l', str(length)])]


class FileSystem:
    """The image `disk` of a file system with its index, and the store `st` of its chunks."""

    def __init__(self, folder):
        self.folder = folder
        updating.write_images(folder)
        os.rename(os.path.join(folder, 'first'), os.path.join(folder, 'disk'))
        os.mkdir(os.path.join(folder, 'st'))
        expect_put(program.run(['make', '-s', 'st', 'disk.caibx', 'disk'], folder), b'', what='make')
        self.bytes = file_bytes(os.path.join(folder, 'disk'))
        self.slices = list(formats.read_index(file_bytes(os.path.join(folder, 'disk.caibx'))).slices())

    def cat(self, offset=None, length=None, store='st'):
        return program.run(['cat', '-s', store, *range_words(offset, length), 'disk.caibx'], self.folder)

    def told(self, command):
        """What debugfs prints."""
        words = [updating.tool('debugfs'), '-R', command, 'disk']
        return subprocess.run(words, cwd=self.folder, check=True, stdin=subprocess.DEVNULL, stdout=subprocess.PIPE,
                              stderr=subprocess.DEVNULL).stdout

    def block_size(self):
        return int(re.search(rb'^Block size: +(\d+)$', self.told('stats -h'), re.MULTILINE)[1])

    def ranges(self):
        """Ranges at random, and some that begin or end at a chunk's end or beside it."""
        chance = random.Random(4)
        size = len(self.bytes)
        for _ in range(RANGES):
            offset = chance.randrange(size)
            yield offset, chance.choice([1, 512, 4096, 300_000])
        for start, end, _ in chance.sample(self.slices, 4):
            yield from ((start, end - start), (start - 1, 2), (start + 1, end - start), (end - 1, 1))
        yield from ((0, 1), (size - 1, 1), (size - 1, 2), (size - 300_000, None), (size - 1, 2**64 - 1))


def blocks(cases, disk):
    with cases.case('the superblock'):
        ended = disk.cat(1024, 1024)
        expect_put(ended, disk.bytes[1024:2048])
        expect_equal(ended.out[56:58], MAGIC, 'the magic number of the superblock')
    for name in ('file-000', 'file-033', 'file-119'):
        with cases.case(f'the blocks of {name}'):
            size = disk.block_size()
            wanted = disk.told(f'cat {name}')
            expect(wanted, f'debugfs shows nothing of {name}')
            got = b''
            for number in range(-(-len(wanted) // size)):
                block = int(disk.told(f'bmap {name} {number}'))
                ended = disk.cat(block * size, size)
                expect_put(ended, disk.bytes[block * size:(block + 1) * size], what=f'block {block}')
                got += ended.out
            expect(got[:len(wanted)] == wanted, f'{name} has other bytes')


def same_everywhere(cases, disk, where, store):
    with cases.case(f'ranges from {where}'):
        before = snapshot(disk.folder)
        for offset, length in disk.ranges():
            end = len(disk.bytes) if length is None else offset + length
            expect_put(disk.cat(offset, length, store), disk.bytes[offset:end], what=f'{offset}, {length}')
        expect_untouched(before, snapshot(disk.folder))
    with cases.case(f'the whole image from {where}'):
        ended = subprocess.run(['bash', '-c', 'set -o pipefail; "$0" cat -s "$1" disk.caibx | cmp - disk',
                                program.DESYNC, store], cwd=disk.folder, stdin=subprocess.DEVNULL,
                               stdout=subprocess.PIPE, stderr=subprocess.STDOUT)
        expect_equal((ended.returncode, ended.stdout), (0, b''), '(status, text)')
    with cases.case(f'at the end and past it, from {where}'):
        for offset in (len(disk.bytes), len(disk.bytes) + 1, 2**64 - 1):
            for length in (None, 0, 1, 2**64 - 1):
                expect_put(disk.cat(offset, length, store), b'', what=f'{offset}, {length}')
        expect_put(disk.cat(5, 0, store), b'', what='a range of no bytes')


def one_chunk_less(cases, disk):
    """A store that lacks a chunk, or holds others of its length under its id."""
    names = [name for _, _, name in disk.slices]
    number = next(k for k in range(len(names) // 2, len(names)) if names.count(names[k]) == 1)
    start, end, name = disk.slices[number]
    path = formats.chunk_path(os.path.join(disk.folder, 'st'), name)
    chunk = file_bytes(path)
    ways = [('missing', lambda: os.remove(path)), ('damaged in store 0', lambda: put_file(path, bytes(len(chunk))))]
    for what, spoil in ways:
        with cases.case(f'a chunk is {what}'):
            spoil()
            text = f'chunk {name.hex()} of entry {number} is {what}'
            for offset, length in ((0, start), (start - 5, 5), (end, None), (end, 1)):
                stop = len(disk.bytes) if length is None else offset + length
                expect_put(disk.cat(offset, length), disk.bytes[offset:stop], what=f'{offset}, {length}, outside')
            for offset in (0, start - 5, start, start + 1, end - 1):
                expect_put(disk.cat(offset), disk.bytes[offset:max(start, offset)], text, f'{offset} on')
            expect_put(disk.cat(start - 3, 4), disk.bytes[start - 3:start], text, 'a range that ends in it')
            put_file(path, chunk)


def through(disk, script, *words):
    """Runs a script of bash, in which "$0" is the program; answers its status and what it printed."""
    ended = subprocess.run(['bash', '-c', script, program.DESYNC, *words], cwd=disk.folder, stdin=subprocess.DEVNULL,
                           stdout=subprocess.PIPE, stderr=subprocess.STDOUT, timeout=program.TIME_LIMIT)
    return ended.returncode, ended.stdout


def early_ends(cases, disk):
    shown = '; echo "${PIPESTATUS[0]}"; cat err; rm err'
    with cases.case('a reader that closes the pipe early'):
        got = through(disk, '"$0" cat -s st disk.caibx 2> err | head -c 100 > few' + shown)
        expect_equal(got, (0, f'1\ndesync: {OUTPUT_FAILED}\n'.encode()), '(status, text)')
        expect_equal(file_bytes(os.path.join(disk.folder, 'few')), disk.bytes[:100], 'what it read')
    with cases.case('a reader that reads nothing'):
        got = through(disk, '"$0" cat -s st -l 1 disk.caibx 2> err | true' + shown)
        expect(got in [(0, f'1\ndesync: {OUTPUT_FAILED}\n'.encode()), (0, b'0\n')], f'(status, text) is {got}')
    with cases.case('a full device'):
        if not os.path.exists('/dev/full'):
            raise Skip('/dev/full isn\'t there')
        got = through(disk, '"$0" cat -s st disk.caibx > /dev/full')
        expect_equal(got, (1, f'desync: {OUTPUT_FAILED}\n'.encode()), '(status, text)')
        expect_equal(through(disk, '"$0" cat -s st -o 99999999999 disk.caibx > /dev/full'), (0, b''), 'an empty range')


def asked_for(cases):
    """Which chunks are asked for: those of covered entries alone, in order, and again where 8 others came between."""
    pieces = [bytes([number]) * (number + 1) for number in range(9)]
    image = [*pieces, pieces[1], pieces[0], pieces[8]]
    with cases.case('which chunks a server is asked for') as folder:
        for piece in pieces:
            formats.write_chunk(os.path.join(folder, 'st'), formats.digest_of(piece), piece)
        formats.write_index(os.path.join(folder, 'i.caibx'), formats.index_of_pieces(image))
        whole = b''.join(image)
        asked = [*range(9), 0]
        for offset, length, numbers in ((0, None, asked), (45, 3, [1, 0]), (1, 2, [1]), (46, None, [1, 0, 8]),
                                        (0, 0, []), (len(whole), 1, [])):
            with servers.store(os.path.join(folder, 'st')) as server:
                words = ['cat', '-s', server.url('/'), *range_words(offset, length), 'i.caibx']
                stop = len(whole) if length is None else offset + length
                expect_put(program.run(words, folder), whole[offset:stop], what=f'{offset}, {length}')
                wanted = [('GET', '/' + formats.path_in_store(formats.digest_of(pieces[n]))) for n in numbers]
                expect_equal(server.asked, wanted, f'what was asked for {offset}, {length}')


def refusals(cases, disk):
    with cases.case('what is read first is told first'):
        for words, text in ((['-s', 'none', 'none.caibx'], 'none.caibx: no such file'),
                            (['-s', 'none', '-o', '99999999999', 'disk.caibx'], 'none: no such folder'),
                            (['-s', 'st', 'disk'], 'disk: bad index: no index head')):
            expect_put(program.run(['cat', *words], disk.folder), b'', text, ' '.join(words))
    with cases.case('a server that can\'t be reached'):
        expect_put(disk.cat(0, 10, 'http://localhost:1/'), b'', 'store 0 failed')
        expect_put(disk.cat(len(disk.bytes), 10, 'http://localhost:1/'), b'', what='an empty range')
        words = ['cat', '-s', 'http://localhost:1/', '-s', 'st', '-l', '10', 'disk.caibx']
        expect_put(program.run(words, disk.folder), disk.bytes[:10], what='the next store')


class Small(http_stores.Image):
    """An image of a few pieces, which `cat` prints."""

    def __init__(self, folder):
        super().__init__(folder, 20)
        self.slices = list(self.index.slices())

    def cat(self, *stores, retries=None, offset=None, length=None):
        given = [] if retries is None else ['-e', str(retries)]
        words = [*given, *groups.stored(*stores), *range_words(offset, length)]
        return self.run('cat', *words, 'new.caibx')

    def before(self, entry):
        return b''.join(self.pieces[:entry])


def groups_of_stores(cases):
    for retries, at in ((0, 7), (2, 7), (None, 0)):
        with cases.case(f'the first of two servers ends before request {at}, -e {retries}') as folder, \
                contextlib.ExitStack() as held:
            image = Small(folder)
            first, second = groups.mirror(image, held, at), groups.mirror(image, held)
            expect_put(image.cat(groups.group(first, second), retries=retries), image.bytes)
            asks = image.asks()
            expect_equal(first.asked, asks[:at] + asks[at:at + 1] * ((retries or 0) + 1), 'what the first was asked')
            expect_equal(second.asked, asks[at:], 'what the second was asked')
    with cases.case('both servers end') as folder, contextlib.ExitStack() as held:
        image = Small(folder)
        first, second = groups.mirror(image, held, 5), groups.mirror(image, held, 4)
        expect_put(image.cat(groups.group(first, second), retries=1), image.before(9), 'store 0 failed')
        asks = image.asks()
        expect_equal(first.asked, asks[:5] + asks[5:6] * 2 + asks[9:10] * 2, 'what the first was asked')
        expect_equal(second.asked, asks[5:9] + asks[9:10] * 2, 'what the second was asked')
    with cases.case('a server fails each second reply') as folder:
        image = Small(folder)
        with groups.answering(image, lambda number: 500 if number % 2 else 200) as server:
            expect_put(image.cat(server.url(), retries=1), image.bytes)
            expect_equal(server.asked, image.asks()[:1] + groups.times(image.asks()[1:], 2), 'what was asked')
        with groups.answering(image, lambda number: 500 if number % 2 else 200) as server:
            expect_put(image.cat(server.url()), image.before(1), 'store 0 failed')
            expect_equal(server.asked, image.asks()[:2], 'what was asked without -e')
    with cases.case('a range, where a folder fails and a URL stands behind it') as folder, \
            contextlib.ExitStack() as held:
        image = Small(folder)
        shutil.copytree(image.path('all'), image.path('far'))
        groups.unreadable(image, 'all', 7)
        front = groups.mirror(image, held, store='far')
        start, end = image.slices[5][0] + 3, image.slices[9][1] - 3
        ended = image.cat(f'all|{front.url()}', retries=2, offset=start, length=end - start)
        expect_put(ended, image.bytes[start:end])
        expect_equal(front.asked, image.asks()[7:10], 'what the server was asked')
    for what, spoil in (('missing', os.remove), ('damaged', lambda path: put_file(path, b'x'))):
        with cases.case(f'a {what} chunk isn\'t sought in the next folder of the group, but in the next -s') as folder:
            image = Small(folder)
            shutil.copytree(image.path('all'), image.path('far'))
            spoil(formats.chunk_path(image.path('all'), image.names[7]))
            expect_put(image.cat('all|far', retries=3), image.before(7), image.refusal(what, 7))
            expect_put(image.cat('all', 'far', retries=3), image.bytes)
            text = formats.refusal(7, image.names[7], what, 3)
            expect_put(image.cat('none|far', 'none', 'all|far'), image.before(7), text)


def main():
    needs_program('cat')
    cases = Cases('cat')
    with cases.case('the image of a file system') as folder:
        disk = FileSystem(folder)
        blocks(cases, disk)
        same_everywhere(cases, disk, 'a folder', 'st')
        with servers.ChunkServer(folder) as server:
            same_everywhere(cases, disk, 'a chunk server', server.url('/'))
        one_chunk_less(cases, disk)
        early_ends(cases, disk)
        refusals(cases, disk)
    asked_for(cases)
    groups_of_stores(cases)
    return cases.end()


if __name__ == '__main__':
    sys.exit(main())
