#!/usr/bin/env python3
"""`desync chop -s FOLDER INDEX IMAGE` over real files: what the store holds afterwards, compared with tests/formats.py.

DESYNC names the program to run, if it is another one.
"""

import os
import random
import signal
import sys

import formats
import program
from checks import Cases, expect_ended, expect_untouched, file_bytes, needs_program, put_file, snapshot
from make import (IMAGE, INDEX, STORE, expect_chunks, expect_no_temporary, expect_stored, lay_out, least_chunks,
                  start_storing, written)

WORDS = ['chop', '-s', STORE, INDEX, IMAGE]


def lay_out_both(folder, image, listed=None):
    """An image, a store with nothing in it, and an index: the image's, or that of other bytes. Answers the index."""
    index = formats.index_of(image if listed is None else listed)
    lay_out(folder, image, formats.spell_index(index))
    return index


def chops(folder, index, entries=None, text='', words=()):
    """Chops, and compares what was stored: the first so many entries or all, and nothing else."""
    image = file_bytes(os.path.join(folder, IMAGE))
    front = formats.Index(index.entries if entries is None else index.entries[:entries])
    before = snapshot(folder)
    expect_ended(program.run([*WORDS, *words], folder), text)
    expect_stored(folder, STORE, front, image)
    expect_untouched(before, snapshot(folder), but=written(before, folder, STORE, front, image))
    expect_no_temporary(folder)


def images(cases):
    for length in (0, 3, 16384, 262145, 600000):
        with cases.case(f'{length} bytes') as folder:
            chops(folder, lay_out_both(folder, random.Random(length).randbytes(length)))
    with cases.case('600,000 zeros: a chunk that is listed twice') as folder:
        chops(folder, lay_out_both(folder, bytes(600000)))


def chunks_there(cases):
    image = random.Random(7).randbytes(400000)
    with cases.case('chunks that are there and right aren\'t written again') as folder:
        index = lay_out_both(folder, image)
        chops(folder, index)
        before = snapshot(folder)
        chops(folder, index)
        expect_untouched(before, snapshot(folder))
    for what, data in {'of other bytes': b'?' * 300, 'empty': b'', 'too long': image}.items():
        with cases.case(f'a chunk that is {what} is put right') as folder:
            index = lay_out_both(folder, image)
            formats.write_chunk(os.path.join(folder, STORE), index.entries[1][1], data)
            chops(folder, index)


def wrong_images(cases):
    """What INDEX lists isn't what IMAGE holds."""
    listed = least_chunks(6)
    index = formats.index_of(listed)
    for entry, (start, end, _) in enumerate(index.slices()):
        with cases.case(f'entry {entry} is another one, and all after it') as folder:
            image = listed[:start] + bytes(byte ^ 255 for byte in listed[start:])
            lay_out_both(folder, image, listed)
            name = formats.digest_of(image[start:end]).hex()
            chops(folder, index, entry, f'entry {entry} has the name {name}')
    for what, image in {'short': listed[:-1], 'long': listed + b'\0', 'empty': b''}.items():
        with cases.case(f'an image that is too {what}') as folder:
            lay_out_both(folder, image, listed)
            chops(folder, index, 0, f'the file has {len(image)} bytes')


def workers(cases):
    """chop and verify-index end alike with any number of workers, over an image of more than they read at a time."""
    listed = random.Random(23).randbytes(6_000_000)
    index = formats.index_of(listed)
    slices = list(index.slices())
    for count in ('1', '2', '32'):
        words = ('-n', count)
        with cases.case(f'{count} workers') as folder:
            lay_out_both(folder, listed)
            expect_ended(program.run(['verify-index', *words, INDEX, IMAGE], folder))
            chops(folder, index, words=words)
        for entry in (0, len(slices) // 2, len(slices) - 1):
            with cases.case(f'{count} workers, and entry {entry} is another one, as is the last') as folder:
                image = bytearray(listed)
                image[slices[entry][0]] ^= 1
                image[slices[-1][1] - 1] ^= 2
                lay_out_both(folder, bytes(image), listed)
                text = formats.checked(index, bytes(image))
                expect_ended(program.run(['verify-index', *words, INDEX, IMAGE], folder), text)
                chops(folder, index, entry, text, words)


def bad_input(cases):
    image = random.Random(17).randbytes(50000)
    for path, text in ((INDEX, f'{INDEX}: no such file'), (IMAGE, f'{IMAGE}: no such file')):
        with cases.case(f'{path} is absent') as folder:
            index = lay_out_both(folder, image)
            os.remove(os.path.join(folder, path))
            before = snapshot(folder)
            expect_ended(program.run(WORDS, folder), text)
            expect_untouched(before, snapshot(folder))
    with cases.case('the store is absent') as folder:
        lay_out_both(folder, image)
        os.rmdir(os.path.join(folder, STORE))
        before = snapshot(folder)
        expect_ended(program.run(WORDS, folder), f'{STORE}: no such folder')
        expect_untouched(before, snapshot(folder))
    with cases.case('INDEX is no index') as folder:
        index = lay_out_both(folder, image)
        put_file(os.path.join(folder, INDEX), formats.spell_index(index)[:-1])
        before = snapshot(folder)
        text, _ = formats.extracted(file_bytes(os.path.join(folder, INDEX)), INDEX, [], None)
        expect_ended(program.run(WORDS, folder), text)
        expect_untouched(before, snapshot(folder))
    with cases.case('a chunk\'s folder is a file') as folder:
        index = lay_out_both(folder, least_chunks(3))
        put_file(os.path.dirname(formats.chunk_path(os.path.join(folder, STORE), index.entries[1][1])), b'file')
        chops(folder, index, 1, 'store 0 failed')


def interrupted(cases):
    """A chop that is stopped while it stores and is overtaken by another one, and a chop that is killed there."""
    image = least_chunks(100)
    for turn in range(4):
        with cases.case(f'a chop that is stopped while another stores the same chunks, turn {turn}') as folder:
            index = lay_out_both(folder, image)
            slow = start_storing(WORDS, folder, STORE, turn)
            slow.send_signal(signal.SIGSTOP)
            quick = program.run(WORDS, folder)
            slow.send_signal(signal.SIGCONT)
            expect_ended(program.ended(slow), what='the slow chop')
            expect_ended(quick, what='the quick chop')
            expect_stored(folder, STORE, index, image)
            expect_no_temporary(folder)
    for turn in range(8):
        with cases.case(f'a chop that is killed while it stores, turn {turn}') as folder:
            index = lay_out_both(folder, image)
            killed = start_storing(WORDS, folder, STORE, turn)
            killed.kill()
            program.ended(killed)
            expect_chunks(os.path.join(folder, STORE))
            expect_ended(program.run(WORDS, folder))
            expect_stored(folder, STORE, index, image)


def main():
    needs_program('chop')
    cases = Cases('chop')
    for group in (images, chunks_there, wrong_images, workers, bad_input, interrupted):
        group(cases)
    return cases.end()


if __name__ == '__main__':
    sys.exit(main())
