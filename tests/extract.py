#!/usr/bin/env python3
"""`desync extract -k -s FOLDER INDEX OUT` over real files, compared with tests/formats.py.

Each case lays out a folder, runs the program in it, and compares the exit status, the error line, every byte of
the output, and all else in the folder with what stood there before.

DESYNC names the program to run, if it is another one.
"""

import os
import random
import struct
import sys

import formats
import program
from checks import (Cases, expect, expect_ended, expect_equal, expect_untouched, file_bytes, needs_program,
                    put_file, snapshot)
from formats import ABC_INDEX, EMPTY_INDEX

INDEX, STORE, OUT = 'a.caibx', 'st', 'o'
GIB = 1 << 30
# The most memory for an index of the greatest size, and for a small index of small chunks.
INDEX_MEMORY = 1 * GIB
PLAIN_MEMORY = 16 << 20
# How many workers there are where the words don't say, and the memory of each beside its buffer.
WORKERS = 10
WORKER_MEMORY = 1 << 20


# Layouts

def lay_out(folder, index=ABC_INDEX, chunks=(b'abc',), old=None):
    """Writes index, store and old output; None leaves a file or the store's folder out."""
    if index is not None:
        put_file(os.path.join(folder, INDEX), index)
    if chunks is not None:
        os.makedirs(os.path.join(folder, STORE), exist_ok=True)
        for chunk in chunks:
            put_chunk(folder, formats.digest_of(chunk), chunk)
    if old is not None:
        put_file(os.path.join(folder, OUT), old)


def put_chunk(folder, name, data):
    formats.write_chunk(os.path.join(folder, STORE), name, data)


def chunk_path(folder, data):
    return formats.chunk_path(os.path.join(folder, STORE), formats.digest_of(data))


def listing(pieces):
    """The bytes of the index of an image in these pieces."""
    return formats.spell_index(formats.index_of_pieces(pieces))


def items(*entries, sizes=formats.DEFAULT_SIZES, flags=formats.WRITTEN_FLAGS):
    return formats.spell_index(formats.Index(entries, flags, sizes))


# Runs

def extract(folder, text='', words=(STORE, INDEX, OUT), out=OUT, run=program.run):
    """Runs the program, which ends with this text or is done, and touches the output alone."""
    before = snapshot(folder)
    ended = run(['extract', '-k', '-s', *words], folder)
    after = snapshot(folder)
    expect_ended(ended, text)
    expect_untouched(before, after, but=[out])
    if out in before and out in after:
        expect_equal(after[out][:2], before[out][:2], 'the output\'s (mode, number)')


def as_read(folder):
    """Runs the program and compares with the independent reading of the same files. Answers the text."""
    index = file_bytes(os.path.join(folder, INDEX))
    old = file_bytes(os.path.join(folder, OUT))
    text, wanted = formats.extracted(index, INDEX, [os.path.join(folder, STORE)], old)
    extract(folder, text)
    expect_equal(file_bytes(os.path.join(folder, OUT)), wanted, 'the output')
    return text


def refused(folder, text, words=(STORE, INDEX, OUT), run=program.run):
    """Runs the program, which must end with this text and touch nothing at all."""
    before = snapshot(folder)
    expect_ended(run(['extract', '-k', '-s', *words], folder), text)
    expect_untouched(before, snapshot(folder))


def gives(folder, wanted, text='', **more):
    """Runs the program, which must end with this text or be done, and leave this output."""
    extract(folder, text, **more)
    expect_equal(file_bytes(os.path.join(folder, more.get('out', OUT))), wanted, 'the output')


def missing(entry, data):
    return f'chunk {formats.digest_of(data).hex()} of entry {entry} is missing'


# Cases

def worked_examples(cases):
    three = [b'abc', b'def', b'ghi']
    named = [
        ('an index that lists nothing empties the output', EMPTY_INDEX, [], b'abcde', '', b''),
        ('an index that lists nothing makes an empty output', EMPTY_INDEX, [], None, '', b''),
        ('one chunk into an absent output', ABC_INDEX, [b'abc'], None, '', b'abc'),
        ('the surplus of an old output is cut', ABC_INDEX, [], b'abcdefghij', '', b'abc'),
        ('zeros need no store', listing([bytes(262144), bytes(262144), bytes(75712)]), [], None, '', bytes(600000)),
        ('entries after a missing chunk are filled', listing(three), [b'abc', b'ghi'], None, missing(1, b'def'),
         b'abc' + bytes(3) + b'ghi'),
        ('an alike entry that is right is copied', listing([b'abc', b'def', b'abc']), [], b'XXXdefabc', '',
         b'abcdefabc'),
        ('all chunks are there', listing(three), three, None, '', b'abcdefghi'),
    ]
    for what, index, chunks, old, text, wanted in named:
        with cases.case(what) as folder:
            lay_out(folder, index, chunks, old)
            gives(folder, wanted, text)


def bad_indexes(cases):
    word = struct.Struct('<Q').pack
    most = formats.SIZE_LIMIT
    abc = formats.digest_of(b'abc')
    bad = {
        'an empty file': (b'', 'truncated at byte 0'),
        'a text': (b'This is no index file.\n' * 9, 'no index head'),
        'zeros': (bytes(1000), 'no index head'),
        'a random file': (random.Random(1).randbytes(5000), 'no index head'),
        'a byte after the tail': (ABC_INDEX + b'\0', 'bytes after the tail'),
        'a second index after the tail': (ABC_INDEX + ABC_INDEX, 'bytes after the tail'),
        'a greatest size over the limit': (items((3, abc), sizes=(1, 1, most + 1)),
                                           'greatest size 67108865 is over the limit'),
        'an entry over the greatest size': (items((3, abc), sizes=(1, 1, 2)), 'entry 0 has 3 bytes'),
        'equal ends': (items((3, abc), (3, abc)), 'entry 1 ends out of order'),
        'falling ends': (items((3, abc), (2, abc)), 'entry 1 ends out of order'),
        'an end far away': (items((2**64 - 1, abc)), 'entry 0 has 18446744073709551615 bytes'),
        'ends that fall by wrapping around': (items((3, abc), (2**64 - 1, abc), (2, abc)),
                                              'entry 1 has 18446744073709551612 bytes'),
        'an end of 0 among the items': (items((3, abc), (0, abc), (6, abc)), 'bad table tail'),
        'big-endian numbers': (b''.join(ABC_INDEX[at:at + 8][::-1] for at in range(0, 144, 8)), 'no index head'),
    }
    taken = {
        'every other flag bit': (items((3, abc), flags=2**64 - 1), None),
        'the digest\'s flag alone': (items((3, abc), flags=formats.SHA512_256_FLAG), None),
        'the greatest size at the limit': (items((3, abc), sizes=(0, 0, most)), None),
        'an entry of the greatest size': (items((3, abc), sizes=(2**64 - 1, 0, 3)), None),
        'any two numbers in the tail': (ABC_INDEX[:120] + word(0) + word(2**64 - 1) + ABC_INDEX[136:], None),
    }
    for what, (index, fault) in {**bad, **taken}.items():
        for old in (None, b'an old output'):
            with cases.case(f'{what}, {"no" if old is None else "an"} old output') as folder:
                lay_out(folder, index, [b'abc'], old)
                wanted = f'{INDEX}: bad index: {fault}' if fault else ''
                expect_equal(as_read(folder), wanted, 'the text of the independent reading')


def cut_short(cases):
    for index in (EMPTY_INDEX, ABC_INDEX):
        for length in range(len(index)):
            with cases.case(f'the {len(index)} bytes cut to {length}') as folder:
                lay_out(folder, index[:length], [b'abc'], b'old')
                refused(folder, f'{INDEX}: bad index: truncated at byte {length}')


def changed_bytes(cases):
    for place in range(len(ABC_INDEX)):
        for change in (0x01, 0x80, 0xFF):
            index = bytearray(ABC_INDEX)
            index[place] ^= change
            with cases.case(f'byte {place} of an index changed by {change:#x}') as folder:
                lay_out(folder, bytes(index), [b'abc'], b'old')
                # Another end lengthens the output; a name that the store lacks leaves the base.
                as_read(folder)


def measured(folder, limit, text=''):
    """Runs the program within a bound on its memory: it ends with this text, or is done."""
    before = snapshot(folder)
    ended, _, peak = program.run_measured(['extract', '-k', '-s', STORE, INDEX, OUT], folder)
    expect_ended(ended, text)
    expect_untouched(before, snapshot(folder), but=[OUT])
    expect(peak * 1024 <= limit, f'the peak memory is {peak} KiB, over {limit // 1024}')


def many_entries(cases):
    most = formats.ITEM_LIMIT
    zero = formats.digest_of(b'\0')
    with cases.case('2^22 entries that the old output holds') as folder:
        lay_out(folder, formats.long_index(most, zero), [])
        measured(folder, INDEX_MEMORY)
        expect_equal(file_bytes(os.path.join(folder, OUT)), bytes(most), 'the output')
    with cases.case('2^22 entries and the first is missing') as folder:
        lay_out(folder, formats.long_index(most, formats.digest_of(b'x')), [])
        measured(folder, INDEX_MEMORY, missing(0, b'x'))
        expect_equal(file_bytes(os.path.join(folder, OUT)), bytes(most), 'the output')
    with cases.case('2^22 + 1 entries') as folder:
        lay_out(folder, formats.long_index(most + 1, zero), [])
        measured(folder, INDEX_MEMORY, f'{INDEX}: bad index: too many entries')
        expect_equal(file_bytes(os.path.join(folder, OUT)), None, 'the output')


def sparse(path, length):
    with open(path, 'ab') as file:
        file.truncate(length)


def huge_files(cases):
    for what, index, fault in (('zeros', b'', 'no index head'),
                               ('zeros after a right index', ABC_INDEX, 'bytes after the tail'),
                               ('zeros after a head', ABC_INDEX[:64], 'bad table tail')):
        with cases.case(f'an index file of 16 GiB, {what}') as folder:
            lay_out(folder, index, [b'abc'])
            sparse(os.path.join(folder, INDEX), 16 * GIB)
            measured(folder, INDEX_MEMORY, f'{INDEX}: bad index: {fault}')
            expect_equal(file_bytes(os.path.join(folder, OUT)), None, 'the output')
    with cases.case('a chunk file of 16 GiB') as folder:
        lay_out(folder, ABC_INDEX, [b'abc'])
        sparse(chunk_path(folder, b'abc'), 16 * GIB)
        measured(folder, PLAIN_MEMORY, formats.refusal(0, formats.digest_of(b'abc'), 'damaged', 0))
        expect_equal(file_bytes(os.path.join(folder, OUT)), bytes(3), 'the output')
    with cases.case('an old output of 4 GiB') as folder:
        lay_out(folder, ABC_INDEX, [b'abc'], b'')
        sparse(os.path.join(folder, OUT), 4 * GIB)
        measured(folder, PLAIN_MEMORY)
        expect_equal(file_bytes(os.path.join(folder, OUT)), b'abc', 'the output')
    with cases.case('an old output of 4 GiB that begins right') as folder:
        lay_out(folder, ABC_INDEX, [], b'abc')
        sparse(os.path.join(folder, OUT), 4 * GIB)
        measured(folder, PLAIN_MEMORY)
        expect_equal(file_bytes(os.path.join(folder, OUT)), b'abc', 'the output')
    image_over_4_gib(cases)


def image_over_4_gib(cases):
    """65 entries of 64 MiB and one of 7 bytes, whose place needs more than 32 bits."""
    block, last = formats.SIZE_LIMIT, b'the end'
    with cases.case('an image of more than 4 GiB') as folder:
        zeros = formats.digest_of(bytes(block))
        entries = [(block * (number + 1), zeros) for number in range(65)]
        entries.append((block * 65 + len(last), formats.digest_of(last)))
        lay_out(folder, items(*entries, sizes=(1, 1, block)), [last])
        measured(folder, PLAIN_MEMORY + WORKERS * WORKER_MEMORY + (WORKERS + 1) * block)
        expect_sparse(os.path.join(folder, OUT), block * 65, last)


def expect_sparse(path, zeros, last):
    """The file is so many zeros and then these bytes; holes count as zeros."""
    expect_equal(os.path.getsize(path), zeros + len(last), 'the output\'s length')
    with open(path, 'rb') as file:
        at = 0
        while at < zeros:
            try:
                at = os.lseek(file.fileno(), at, os.SEEK_DATA)
            except OSError:
                break
            piece = os.pread(file.fileno(), min(1 << 20, max(0, zeros - at)), at)
            expect(not any(piece), f'bytes other than zero from {at}')
            at += max(1, len(piece))
        expect_equal(os.pread(file.fileno(), 100, zeros), last, 'the last bytes')


def files_and_folders(cases):
    with cases.case('INDEX is absent') as folder:
        lay_out(folder, None)
        refused(folder, f'{INDEX}: no such file')
    with cases.case('INDEX is a folder') as folder:
        lay_out(folder, None)
        os.mkdir(os.path.join(folder, INDEX))
        refused(folder, f'{INDEX}: failed')
    with cases.case('INDEX is in a folder that isn\'t there') as folder:
        lay_out(folder)
        refused(folder, 'no/a.caibx: no such file', (STORE, 'no/a.caibx', OUT))
    with cases.case('INDEX is in a file') as folder:
        lay_out(folder)
        put_file(os.path.join(folder, 'file'), b'file')
        refused(folder, 'file/a.caibx: no such file', (STORE, 'file/a.caibx', OUT))
    with cases.case('INDEX is a loop of links') as folder:
        lay_out(folder, None)
        os.symlink(INDEX, os.path.join(folder, INDEX))
        refused(folder, f'{INDEX}: failed')
    with cases.case('FOLDER is absent') as folder:
        lay_out(folder, chunks=None)
        refused(folder, f'{STORE}: no such folder')
    with cases.case('FOLDER is absent and all of an old output is right') as folder:
        lay_out(folder, chunks=None, old=b'abc')
        refused(folder, f'{STORE}: no such folder')
    with cases.case('FOLDER is a file') as folder:
        lay_out(folder, chunks=None, old=b'old')
        put_file(os.path.join(folder, STORE), b'file')
        refused(folder, f'{STORE}: no such folder')
    with cases.case('INDEX is bad and FOLDER is absent') as folder:
        lay_out(folder, b'bad', None)
        refused(folder, f'{INDEX}: bad index: truncated at byte 3')
    with cases.case('OUT is an empty folder') as folder:
        lay_out(folder)
        os.mkdir(os.path.join(folder, OUT))
        refused(folder, 'the target failed')
    with cases.case('OUT is a folder with a file') as folder:
        lay_out(folder)
        put_file(os.path.join(folder, OUT, 'file'), b'file')
        refused(folder, 'the target failed')
    with cases.case('OUT is the store\'s folder') as folder:
        lay_out(folder)
        refused(folder, 'the target failed', (STORE, INDEX, STORE))
    with cases.case('OUT is in a folder that isn\'t there') as folder:
        lay_out(folder)
        refused(folder, 'the target failed', (STORE, INDEX, 'no/o'))
    with cases.case('OUT is in a file') as folder:
        lay_out(folder, old=b'old')
        refused(folder, 'the target failed', (STORE, INDEX, 'o/o'))
    with cases.case('OUT is a loop of links') as folder:
        lay_out(folder)
        os.symlink(OUT, os.path.join(folder, OUT))
        refused(folder, 'the target failed')
    long = 'x' * 300
    for place, (what, text) in enumerate((('FOLDER', f'{long}: failed'), ('INDEX', f'{long}: failed'),
                                          ('OUT', 'the target failed'))):
        with cases.case(f'{what} is too long a name') as folder:
            lay_out(folder)
            words = [STORE, INDEX, OUT]
            words[place] = long
            refused(folder, text, words)


def links_and_names(cases):
    with cases.case('INDEX, FOLDER and a chunk are links') as folder:
        lay_out(folder)
        os.rename(chunk_path(folder, b'abc'), os.path.join(folder, 'chunk'))
        os.symlink(os.path.join(folder, 'chunk'), chunk_path(folder, b'abc'))
        os.symlink(INDEX, os.path.join(folder, 'index'))
        os.symlink(STORE, os.path.join(folder, 'store'))
        gives(folder, b'abc', words=('store', 'index', OUT))
    with cases.case('OUT is a link to a file') as folder:
        lay_out(folder)
        put_file(os.path.join(folder, 'old'), b'a longer old output')
        os.symlink('old', os.path.join(folder, OUT))
        gives(folder, b'abc', out='old')
    with cases.case('OUT is INDEX') as folder:
        lay_out(folder)
        gives(folder, b'abc', words=(STORE, INDEX, INDEX), out=INDEX)
    with cases.case('OUT is INDEX and the chunk is missing') as folder:
        lay_out(folder, chunks=[])
        gives(folder, ABC_INDEX[:3], missing(0, b'abc'), words=(STORE, INDEX, INDEX), out=INDEX)
    with cases.case('absolute names') as folder:
        lay_out(folder, old=b'old')
        gives(folder, b'abc', words=[os.path.join(folder, name) for name in (STORE, INDEX, OUT)])
    with cases.case('FOLDER ends with a slash') as folder:
        lay_out(folder)
        gives(folder, b'abc', words=(STORE + '/', INDEX, OUT))
    with cases.case('FOLDER begins with a dash') as folder:
        lay_out(folder)
        os.rename(os.path.join(folder, STORE), os.path.join(folder, '-s'))
        gives(folder, b'abc', words=('-s', INDEX, OUT))
    for name in ('with blanks in it', 'a\nline feed', 'µ…日本', 'x' * 255, '~', '$HOME', '*', '.hidden'):
        with cases.case(f'names like {name[:20]!r}') as folder:
            lay_out(folder)
            for old in (STORE, INDEX):
                os.makedirs(os.path.join(folder, old + 's'))
                os.rename(os.path.join(folder, old), os.path.join(folder, old + 's', name))
            gives(folder, b'abc', words=(os.path.join(STORE + 's', name),
                                         os.path.join(INDEX + 's', name), name), out=name)


def chunks(cases):
    """Each way in which the store doesn't give the second of three chunks, over several old outputs."""
    pieces = [b'first', b'second chunk', b'third']
    wrong = {
        'missing': None,
        'empty': b'',
        'one byte too short': b'second chun',
        'one byte too long': b'second chunk.',
        'far too long': b'second chunk' * 10000,
        'of another digest': b'second chunx',
        'another chunk': b'first',
    }
    olds = {
        'absent': None, 'empty': b'', 'shorter': b'fir', 'longer': b'x' * 100,
        'right already': b''.join(pieces), 'right but too long': b''.join(pieces) + b'more',
        'right but for the second': b'firstsecond chunXthird', 'wrong at its end': b'firstsecond chunkTHIRD',
        'right but for a byte at an edge': b'firstsecond chun third',
    }
    for how, chunk in {**wrong, 'right': pieces[1]}.items():
        for state, old in olds.items():
            with cases.case(f'a chunk is {how}, the old output is {state}') as folder:
                lay_out(folder, listing(pieces), [pieces[0], pieces[2]], old)
                if chunk is not None:
                    put_chunk(folder, formats.digest_of(pieces[1]), chunk)
                as_read(folder)
    odd_chunks(cases, pieces)


def odd_chunks(cases, pieces):
    name = formats.digest_of(pieces[1])
    wanted = pieces[0] + bytes(len(pieces[1])) + pieces[2]
    is_missing = missing(1, pieces[1])

    def others(folder):
        lay_out(folder, listing(pieces), [pieces[0], pieces[2]])
        return formats.chunk_path(os.path.join(folder, STORE), name)

    with cases.case('a chunk file is a folder') as folder:
        os.makedirs(others(folder))
        gives(folder, wanted, 'store 0 failed')
    with cases.case('a chunk file is a folder and the old output is right') as folder:
        os.makedirs(others(folder))
        put_file(os.path.join(folder, OUT), b''.join(pieces))
        gives(folder, b''.join(pieces))
    with cases.case('a chunk\'s folder is a file') as folder:
        put_file(os.path.dirname(others(folder)), b'file')
        gives(folder, wanted, is_missing)
    with cases.case('a chunk file is a link to nothing') as folder:
        path = others(folder)
        os.makedirs(os.path.dirname(path))
        os.symlink('nothing', path)
        gives(folder, wanted, is_missing)
    digits = name.hex()
    for what, path in (('in upper case', (digits[:4].upper(), digits.upper())),
                       ('compressed', (digits[:4], digits + '.cacnk')),
                       ('a temporary', (digits[:4], formats.TEMPORARY + digits)),
                       ('at the top of the store', ('.', digits)),
                       ('in another chunk\'s folder', ('0000', digits))):
        with cases.case(f'a chunk is {what}') as folder:
            others(folder)
            put_file(os.path.join(folder, STORE, *path), pieces[1])
            gives(folder, wanted, is_missing)
    for what, size in (('more', 13), ('less', 11)):
        with cases.case(f'an index gives a chunk {what} bytes than it has') as folder:
            first, third = (formats.digest_of(pieces[at]) for at in (0, 2))
            lay_out(folder, items((5, first), (5 + size, name), (10 + size, third)), pieces)
            expect_equal(as_read(folder), formats.refusal(1, name, 'damaged', 0), 'the text of the independent reading')
    with cases.case('one name with two sizes') as folder:
        abc = formats.digest_of(b'abc')
        lay_out(folder, items((3, abc), (5, abc)), [b'abc'])
        expect_equal(as_read(folder), formats.refusal(1, abc, 'damaged', 0), 'the text of the independent reading')
    with cases.case('the same chunk many times over') as folder:
        lay_out(folder, listing([b'abc'] * 50), [b'abc'], b'abcabx')
        expect_equal(as_read(folder), '', 'the text of the independent reading')


def no_rights(cases):
    """Files and folders that the program may not read or write. Root is bound by no permissions, so the program then
    runs as the user `nobody`."""
    def closed(folder, mode, *path):
        os.chmod(folder, 0o777)
        for at, names, files in os.walk(folder):
            for name in names:
                os.chmod(os.path.join(at, name), 0o777)
            for name in files:
                os.chmod(os.path.join(at, name), 0o666)
        os.chmod(os.path.join(folder, *path), mode)

    with cases.case('nobody may do all') as folder:
        lay_out(folder, old=b'old')
        closed(folder, 0o666, OUT)
        gives(folder, b'abc', run=program.run_without_rights)
    with cases.case('INDEX may not be read') as folder:
        lay_out(folder, old=b'old')
        closed(folder, 0, INDEX)
        refused(folder, f'{INDEX}: failed', run=program.run_without_rights)
    with cases.case('OUT may not be written') as folder:
        lay_out(folder, old=b'old')
        closed(folder, 0o444, OUT)
        refused(folder, 'the target failed', run=program.run_without_rights)
    with cases.case('OUT may not be read') as folder:
        # What can't be read isn't known to be right, so it is fetched and written.
        lay_out(folder, old=b'older')
        closed(folder, 0o222, OUT)
        extract(folder, run=program.run_without_rights)
        os.chmod(os.path.join(folder, OUT), 0o666)
        expect_equal(file_bytes(os.path.join(folder, OUT)), b'abc', 'the output')
    with cases.case('OUT may not be made') as folder:
        lay_out(folder)
        closed(folder, 0o555)
        refused(folder, 'the target failed', run=program.run_without_rights)
    with cases.case('a chunk may not be read') as folder:
        lay_out(folder, old=b'old')
        closed(folder, 0, os.path.relpath(chunk_path(folder, b'abc'), folder))
        gives(folder, b'old', 'store 0 failed', run=program.run_without_rights)
    with cases.case('FOLDER may not be read') as folder:
        lay_out(folder, old=b'older')
        closed(folder, 0, STORE)
        gives(folder, b'old', 'store 0 failed', run=program.run_without_rights)


def writes_refused(cases):
    """A limit on the length of files stands for a full disk: a cut or a write past it is refused."""
    pieces = [bytes([number]) * 1000 for number in range(1, 9)]
    limit = 4500

    def limited(words, folder):
        return program.run_with_file_limit(words, folder, limit)

    for what, old, wanted in (('an old output', b'old', b'old'), ('none', None, b'')):
        with cases.case(f'the output\'s length is refused, {what} before') as folder:
            lay_out(folder, listing(pieces), pieces, old)
            gives(folder, wanted, 'the target failed', run=limited)
    for length in (8000, 9000):
        with cases.case(f'a write is refused in an old output of {length} bytes') as folder:
            lay_out(folder, listing(pieces), pieces, b'-' * length)
            extract(folder, 'the target failed', run=limited)
            out = file_bytes(os.path.join(folder, OUT))
            # The range of the first write that failed, from 4000 to 5000, holds any bytes. Nothing is written past it.
            expect_equal(len(out), 8000, 'the output\'s length')
            expect_equal(out[:4000], b''.join(pieces)[:4000], 'what was written before')
            expect_equal(out[5000:], b'-' * 3000, 'the rest of the output')


def random_cases(cases):
    for seed in range(300):
        with cases.case(f'random case {seed}') as folder:
            random_layout(random.Random(seed), folder)
            as_read(folder)


def random_layout(chance, folder):
    few = [chance.randbytes(chance.randint(1, 300)) for _ in range(5)]
    pieces = [chance.choice(few) if chance.random() < 0.3 else chance.randbytes(chance.randint(1, 300))
              for _ in range(chance.randint(0, 20))]
    image = b''.join(pieces)
    lay_out(folder, listing(pieces), [], random_old(chance, image))
    spoiled = chance.choice([0, 0, 0.05, 0.2, 0.5])
    for piece in pieces:
        if chance.random() >= spoiled:
            put_chunk(folder, formats.digest_of(piece), piece)
        elif chance.random() < 0.5:
            put_chunk(folder, formats.digest_of(piece), damaged(chance, piece))


def damaged(chance, data):
    kind = chance.randrange(4)
    if kind == 0:
        return data[:chance.randrange(len(data))]
    if kind == 1:
        return data + chance.randbytes(chance.randint(1, 500))
    if kind == 2:
        return chance.randbytes(len(data) + 1)
    place = chance.randrange(len(data))
    return data[:place] + bytes([data[place] ^ (1 << chance.randrange(8))]) + data[place + 1:]


def random_old(chance, image):
    kind = chance.randrange(6)
    if kind == 0:
        return None
    if kind == 1:
        return chance.randbytes(chance.randint(0, 4000))
    old = bytearray(image)
    for _ in range(chance.randint(0, 4)):
        if old:
            old[chance.randrange(len(old))] ^= chance.randint(1, 255)
    if kind == 2:
        return bytes(old[:chance.randint(0, len(old))])
    if kind == 3:
        return bytes(old) + chance.randbytes(chance.randint(0, 1000))
    return bytes(old)


def other_orders(cases):
    """The same words in other orders and spellings."""
    for words in (['extract', '-s', STORE, '-k', INDEX, OUT], ['extract', '-k', '--store', STORE, INDEX, OUT],
                  ['extract', INDEX, '-n', '32', '--in-place', '-s', STORE, '--', OUT]):
        with cases.case(f'the words {words}') as folder:
            lay_out(folder, old=b'old')
            expect_ended(program.run(words, folder))
            expect_equal(file_bytes(os.path.join(folder, OUT)), b'abc', 'the output')


def no_commands(cases):
    """Words that the program refuses; the folder holds all that a command could want."""
    right = ['extract', '-k', '-s', STORE, INDEX, OUT]
    never = [
        ([], 'word 0: NoCommand'), ([''], 'word 0: UnknownCommand'), (['frob'], 'word 0: UnknownCommand'),
        (['-k'], 'word 0: UnknownCommand'), (['--'], 'word 0: UnknownCommand'),
        (['Extract', *right[1:]], 'word 0: UnknownCommand'), (['extract '], 'word 0: UnknownCommand'),
        (['extract'], 'word 1: MissingOption'), (right[:2], 'word 2: MissingOption'), (right[:3], 'word 3: NoValue'),
        (right[:4], 'word 4: Operands'), (right[:5], 'word 5: Operands'), ([*right, 'more'], 'word 6: Operands'),
        ([*right, ''], 'word 6: Empty'), (['', *right], 'word 0: UnknownCommand'),
        (['extract', '-k', '-s', '', INDEX, OUT], 'word 3: Empty'),
        (['extract', '-k', '-s', STORE, '', OUT], 'word 4: Empty'),
        (['extract', '-k', '-s', STORE, INDEX, ''], 'word 5: Empty'),
        (['extract', '-k', '-s', STORE, '-x', OUT], 'word 4: UnknownOption'),
        (['extract', '-k', '-s', STORE, INDEX, '-x'], 'word 5: UnknownOption'),
        (['extract', '-k', '-s', STORE, INDEX, '-'], 'word 5: UnknownOption'),
        (['extract', '-k', '-k', '-s', STORE, INDEX, OUT], 'word 2: TooMany'),
        (['extract', '-k', '-x', STORE, INDEX, OUT], 'word 2: UnknownOption'),
        (['extract', '-k', '-s', 'https://localhost/', INDEX, OUT], 'word 3: BadLocation'),
        (['extract', '-k', '-sst', INDEX, OUT], 'word 2: UnknownOption'),
        (['extract', '-ks', STORE, INDEX, OUT], 'word 1: UnknownOption'),
        (['extract', '-k', 'a', 'b'], 'word 4: MissingOption'),
        (['extract', '-k', '-s', 'a|https://h/', INDEX, OUT], 'word 3: BadLocation'),
        ([b'\xff', *right[1:]], 'a word is no text in UTF-8'), ([*right[:5], b'\xff'], 'a word is no text in UTF-8'),
    ]
    for words, text in never:
        with cases.case(f'the words {words}') as folder:
            lay_out(folder, old=b'old')
            put_file(os.path.join(folder, 'a'), ABC_INDEX)
            before = snapshot(folder)
            expect_ended(program.run(words, folder), text)
            expect_untouched(before, snapshot(folder))


def main():
    needs_program('extract')
    cases = Cases('extract')
    for group in (worked_examples, bad_indexes, cut_short, changed_bytes, files_and_folders, links_and_names,
                  chunks, no_rights, writes_refused, random_cases, other_orders, no_commands, huge_files,
                  many_entries):
        group(cases)
    return cases.end()


if __name__ == '__main__':
    sys.exit(main())
