#!/usr/bin/env python3
"""`desync extract` and `desync info` over several folder stores, compared with tests/formats.py.

Each case lays out a folder with an index and stores that lack, spoil, shadow or fail, runs the program in it, and
compares the exit status, the line on standard error, what is printed, every byte of the output and all else in the
folder.
"""

import json
import os
import random
import sys
import time

import formats
import program
from checks import (Cases, Skip, expect, expect_ended, expect_equal, expect_untouched, file_bytes, needs_program,
                    put_file, snapshot)

INDEX, OUT = 'a.caibx', 'o'
PIECES = [b'abc', b'defgh', b'abc', b'ijklmnop']


# Stores

def put_chunk(folder, store, named, held):
    """Puts bytes under the name of others; None puts a folder in the chunk's place."""
    path = formats.chunk_path(os.path.join(folder, store), formats.digest_of(named))
    if held is None:
        os.makedirs(path)
    else:
        put_file(path, held)


def lay_out(folder, stores, pieces=PIECES, old=None):
    """Writes the index of an image in pieces, stores by their chunks, and the old output. Answers the stores' words."""
    put_file(os.path.join(folder, INDEX), formats.spell_index(formats.index_of_pieces(pieces)))
    words = []
    for number, chunks in enumerate(stores):
        store = f'st{number}'
        os.makedirs(os.path.join(folder, store), exist_ok=True)
        for named, held in chunks:
            put_chunk(folder, store, named, held)
        words += ['-s', store]
    if old is not None:
        put_file(os.path.join(folder, OUT), old)
    return words


def extracts(folder, words, old=None, text=None):
    """Extracts, and compares text, status and output with the formats, and the text with the one that is given."""
    index = file_bytes(os.path.join(folder, INDEX))
    stores = [os.path.join(folder, store) for store in words[1::2]]
    wanted, out = formats.extracted(index, INDEX, stores, old)
    if text is not None:
        expect_equal(wanted, text, 'the text by the formats')
    before = snapshot(folder)
    expect_ended(program.run(['extract', '-k', *words, INDEX, OUT], folder), wanted)
    expect_equal(file_bytes(os.path.join(folder, OUT)), out, 'the output')
    expect_untouched(before, snapshot(folder), but=[OUT])


# Cases

RIGHT = [(piece, piece) for piece in PIECES]
ONE = formats.digest_of(b'defgh').hex()


def worked(cases):
    damaged, longer, shorter = (b'defgh', b'defgX'), (b'defgh', b'defghi'), (b'defgh', b'defg')
    lacking, failing = [pair for pair in RIGHT if pair[0] != b'defgh'], (b'defgh', None)
    named = f'chunk {ONE} of entry 1 is'
    for what, stores, text in (
            ('the second has what the first lacks', [lacking, RIGHT], ''),
            ('the second has what the first spoils', [[damaged], RIGHT], ''),
            ('the second has what is longer in the first', [[longer], RIGHT], ''),
            ('the second has what is shorter in the first', [[shorter], RIGHT], ''),
            ('the second has what the first fails to give', [[failing], RIGHT], ''),
            ('the first shadows the second', [RIGHT, [damaged]], ''),
            ('each has a part', [RIGHT[:1], RIGHT[3:], RIGHT[1:2]], ''),
            ('both lack it', [lacking, lacking], f'{named} missing'),
            ('both spoil it', [[*lacking, damaged], [*lacking, longer]], f'{named} damaged in store 0'),
            ('the second spoils what the first lacks', [lacking, [damaged]], f'{named} damaged in store 1'),
            ('the third spoils it first', [lacking, [], [longer]], f'{named} damaged in store 2'),
            ('the first fails, the second lacks it', [[*lacking, failing], lacking], 'store 0 failed'),
            ('the second fails, the first lacks it', [lacking, [failing]], 'store 1 failed'),
            ('the second fails, the first spoils it', [[*lacking, damaged], [failing]], 'store 1 failed'),
            ('two fail', [lacking, [failing], [failing]], 'store 1 failed'),
            ('sixteen stores, of which the last has all', [[]] * 15 + [RIGHT], '')):
        with cases.case(what) as folder:
            extracts(folder, lay_out(folder, stores), text=text)
    with cases.case('one folder twice') as folder:
        lay_out(folder, [RIGHT])
        extracts(folder, ['-s', 'st0', '-s', 'st0'], text='')
    with cases.case('an old output needs no store') as folder:
        image = b''.join(PIECES)
        extracts(folder, lay_out(folder, [[], []], old=image + b'more'), old=image + b'more', text='')


def random_stores(cases):
    for seed in range(150):
        with cases.case(f'random stores {seed}') as folder:
            chance = random.Random(seed)
            few = [chance.randbytes(chance.randint(1, 200)) for _ in range(6)]
            pieces = [chance.choice(few) for _ in range(chance.randint(1, 12))]
            stores = []
            for _ in range(chance.randint(1, 5)):
                chunks = []
                for piece in few:
                    kind = chance.choice(['right', 'right', 'right', 'none', 'none', 'bad', 'longer', 'folder'])
                    if kind != 'none':
                        held = {'right': piece, 'bad': piece[:-1], 'longer': piece + b'x', 'folder': None}[kind]
                        chunks.append((piece, held))
                stores.append(chunks)
            old = chance.choice([None, b'', b''.join(pieces)[:chance.randint(0, 400)]])
            extracts(folder, lay_out(folder, stores, pieces, old), old)


def folders_that_are_not(cases):
    for what, prepare in (('the second store is absent', lambda path: os.rmdir(path)),
                          ('the second store is a file', lambda path: (os.rmdir(path), put_file(path, b'x')))):
        with cases.case(what) as folder:
            words = lay_out(folder, [RIGHT, [], RIGHT], old=b'old')
            prepare(os.path.join(folder, 'st1'))
            for command in (['extract', '-k', *words, INDEX, OUT], ['info', *words, INDEX]):
                before = snapshot(folder)
                expect_ended(program.run(command, folder), 'st1: no such folder', what=command[0])
                expect_untouched(before, snapshot(folder))
    with cases.case('seventeen stores') as folder:
        words = lay_out(folder, [RIGHT] * 17)
        expect_ended(program.run(['extract', '-k', *words, INDEX, OUT], folder), 'word 34: TooMany')


def vanishing(cases):
    with cases.case('a store folder vanishes during the run') as folder:
        chance = random.Random(9)
        pieces = [chance.randbytes(65536) for _ in range(512)]
        words = lay_out(folder, [[(piece, piece) for piece in pieces]], pieces)
        process = program.start(['extract', '-k', *words, INDEX, OUT], folder)
        until = time.monotonic() + 60
        while not os.path.exists(os.path.join(folder, OUT)) and time.monotonic() < until:
            time.sleep(0.001)
        time.sleep(0.05)
        os.rename(os.path.join(folder, 'st0'), os.path.join(folder, 'gone'))
        ended = program.ended(process)
        if ended.status == 0:
            raise Skip('the program was done before its store vanished')
        out = file_bytes(os.path.join(folder, OUT))
        entry = next(at for at, piece in enumerate(pieces) if out[at * 65536:(at + 1) * 65536] != piece)
        expect_ended(ended, formats.refusal(entry, formats.digest_of(pieces[entry]), 'missing'))
        # Workers go side by side, so that entries after the named one may be right.
        for at, piece in enumerate(pieces[entry:], entry):
            expect(out[at * 65536:(at + 1) * 65536] in (piece, bytes(65536)), f'entry {at} is neither right nor zeros')


def figures_line(held):
    least, average, greatest = formats.DEFAULT_SIZES
    return json.dumps({'chunk-size-avg': average, 'chunk-size-max': greatest, 'chunk-size-min': least,
                       'in-store': held, 'size': 19, 'total': 4, 'unique': 3}, separators=(',', ':')) + '\n'


def figures(cases):
    for what, stores, held in (('one store has all', [RIGHT], 3), ('an empty store', [[]], 0),
                               ('each has a part', [RIGHT[:1], RIGHT[1:2]], 2),
                               ('damaged chunks are there', [[(b'abc', b'x')], RIGHT[:1]], 1),
                               ('strangers aren\'t counted', [[(b'other', b'other')], []], 0),
                               ('the next store has it', [[(b'defgh', None)], RIGHT], 3)):
        with cases.case(f'info: {what}') as folder:
            words = lay_out(folder, stores)
            before = snapshot(folder)
            expect_ended(program.run(['info', *words, INDEX], folder), out=figures_line(held))
            expect_untouched(before, snapshot(folder))
    with cases.case('info: a folder in a chunk\'s place') as folder:
        words = lay_out(folder, [RIGHT[:1], [(b'abc', b'abc'), (b'defgh', None)]])
        expect_ended(program.run(['info', *words, INDEX], folder), 'store 1 failed')


def main():
    needs_program('stores')
    cases = Cases('stores')
    for group in (worked, random_stores, folders_that_are_not, vanishing, figures):
        group(cases)
    return cases.end()


if __name__ == '__main__':
    sys.exit(main())
