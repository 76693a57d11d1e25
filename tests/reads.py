#!/usr/bin/env python3
"""`desync verify-index`, `list-chunks`, `info` and the help texts over real files, compared with tests/formats.py.

Each case lays out a folder and runs the program in it. It compares the exit status, every byte that is printed and
the line on standard error, and sees that nothing in the folder has changed.
"""

import json
import os
import random
import shutil
import subprocess
import sys

import formats
import program
from checks import (Cases, Skip, expect, expect_ended, expect_equal, expect_untouched, needs_program, put_file,
                    snapshot)
from formats import ABC_INDEX

INDEX, IMAGE = 'a.caibx', 'img'
MIB = 1 << 20
COMMANDS = ['make', 'extract', 'cat', 'verify-index', 'chop', 'cache', 'list-chunks', 'info', 'verify', 'prune',
            'chunk-server', 'index-server', 'demo']

# What is wanted

def fault_text(index_bytes):
    """The text that refuses these bytes as an index, empty where they are one."""
    try:
        formats.read_index(index_bytes)
    except formats.BadIndex as bad:
        return bad.text(INDEX)
    return ''


def listed(index):
    return ''.join(f'{name.hex()}\n' for _, name in index.entries)


def figures(index):
    least, average, greatest = index.sizes
    return json.dumps({'chunk-size-avg': average, 'chunk-size-max': greatest, 'chunk-size-min': least,
                       'size': index.length(), 'total': len(index.entries), 'unique': len(index.names())},
                      separators=(',', ':')) + '\n'


def verdict(index, image):
    """The text of `verify-index`, empty where the image is the one that the index lists."""
    if len(image) != index.length():
        return f'the file has {len(image)} bytes'
    for entry, (start, end, name) in enumerate(index.slices()):
        got = formats.digest_of(image[start:end])
        if got != name:
            return f'entry {entry} has the name {got.hex()}'
    return ''


# Runs

def ends(folder, words, out='', text='', run=program.run):
    """Runs the program, and compares what it printed, its error line and its status."""
    before = snapshot(folder)
    expect_ended(run(words, folder), text, out, words)
    expect_untouched(before, snapshot(folder))


def reads(folder, index_bytes, image=None):
    """Each command that reads an index says of these bytes what the formats say."""
    put_file(os.path.join(folder, INDEX), index_bytes)
    text = fault_text(index_bytes)
    if text:
        for words in (['list-chunks', INDEX], ['info', INDEX], ['verify-index', INDEX, IMAGE]):
            ends(folder, words, text=text)
        return
    index = formats.read_index(index_bytes)
    ends(folder, ['list-chunks', INDEX], listed(index))
    ends(folder, ['info', INDEX], figures(index))
    if image is not None:
        ends(folder, ['verify-index', INDEX, IMAGE], text=verdict(index, image))


def lists(folder, index_bytes):
    """`list-chunks` alone says of these bytes what the formats say."""
    put_file(os.path.join(folder, INDEX), index_bytes)
    text = fault_text(index_bytes)
    ends(folder, ['list-chunks', INDEX], '' if text else listed(formats.read_index(index_bytes)), text)


# Images

def file_system(folder):
    """The bytes of a small ext2 image that holds this repository's texts."""
    tool = shutil.which('mke2fs') or shutil.which('mke2fs', path='/sbin:/usr/sbin')
    if tool is None:
        raise Skip('mke2fs isn\'t there')
    path = os.path.join(folder, 'fs')
    words = [tool, '-q', '-F', '-t', 'ext2', '-d', os.path.join(program.TOP, 'docs'), path, '2m']
    subprocess.run(words, check=True, stdin=subprocess.DEVNULL, stdout=subprocess.DEVNULL, stderr=subprocess.DEVNULL)
    with open(path, 'rb') as file:
        image = file.read()
    os.remove(path)
    return image


def random_bytes(folder):
    return random.Random(4).randbytes(MIB)


IMAGES = [('a file system image', file_system), ('random bytes', random_bytes), ('zeros', lambda folder: bytes(MIB)),
          ('three bytes', lambda folder: b'abc'), ('no bytes', lambda folder: b'')]


def whole_images(cases):
    for what, image_of in IMAGES:
        with cases.case(what) as folder:
            image = image_of(folder)
            put_file(os.path.join(folder, IMAGE), image)
            reads(folder, formats.spell_index(formats.index_of(image)), image)
    with cases.case('the index that make writes') as folder:
        image = random.Random(5).randbytes(300000)
        put_file(os.path.join(folder, IMAGE), image)
        os.mkdir(os.path.join(folder, 'st'))
        expect_ended(program.run(['make', '-s', 'st', '-m', '1:2:8', INDEX, IMAGE], folder))
        wanted = formats.spell_index(formats.index_of(image, (1024, 2048, 8192)))
        with open(os.path.join(folder, INDEX), 'rb') as file:
            expect_equal(file.read(), wanted, 'the index by other sizes')
        reads(folder, wanted, image)


def other_images(cases):
    image = random.Random(6).randbytes(400000)
    index = formats.index_of(image)
    ends_at = [0] + [end for end, _ in index.entries]
    places = sorted({at for end in ends_at for at in (end - 1, end) if 0 <= at < len(image)})
    for at in places:
        with cases.case(f'the byte at {at} is another') as folder:
            other = bytearray(image)
            other[at] ^= 255
            put_file(os.path.join(folder, IMAGE), bytes(other))
            reads(folder, formats.spell_index(index), bytes(other))
    for what, other in (('shorter', image[:-1]), ('longer', image + b'x'), ('empty', b'')):
        with cases.case(f'the image is {what}') as folder:
            put_file(os.path.join(folder, IMAGE), other)
            reads(folder, formats.spell_index(index), other)


def changed_indexes(cases):
    """Each byte of head and tail, and of some items, changed in two ways; and each length of the file."""
    for what, image_of in IMAGES[:2]:
        with cases.case(f'changed indexes of {what}') as folder:
            whole = formats.spell_index(formats.index_of(image_of(folder)))
            count = (len(whole) - 104) // formats.ITEM_SIZE
            items = {0, 1, count // 2, count - 1}
            places = [*range(formats.TABLE_START), *range(len(whole) - 40, len(whole))]
            for item in sorted(items):
                start = formats.TABLE_START + formats.ITEM_SIZE * item
                places += range(start, start + formats.ITEM_SIZE)
            for at in places:
                for mask in (255, 1):
                    changed = bytearray(whole)
                    changed[at] ^= mask
                    lists(folder, bytes(changed))
            for length in [*range(0, 120), *range(len(whole) - 45, len(whole))]:
                lists(folder, whole[:length])
            lists(folder, whole + b'x')


def names_that_are_not_there(cases):
    with cases.case('INDEX is absent') as folder:
        for words in (['list-chunks', 'no'], ['info', 'no'], ['verify-index', 'no', IMAGE]):
            ends(folder, words, text='no: no such file')
    with cases.case('IMAGE is absent') as folder:
        put_file(os.path.join(folder, INDEX), ABC_INDEX)
        ends(folder, ['verify-index', INDEX, IMAGE], text=f'{IMAGE}: no such file')
    for what, put in (('folder', os.mkdir), ('pipe', os.mkfifo)):
        with cases.case(f'INDEX is a {what}') as folder:
            put(os.path.join(folder, INDEX))
            for words in (['list-chunks', INDEX], ['info', INDEX], ['verify-index', INDEX, IMAGE]):
                ends(folder, words, text=f'{INDEX}: failed')
            ends(folder, ['extract', '-k', '-s', '.', INDEX, 'o'], text=f'{INDEX}: failed')
        with cases.case(f'IMAGE is a {what}') as folder:
            put_file(os.path.join(folder, INDEX), ABC_INDEX)
            put(os.path.join(folder, IMAGE))
            ends(folder, ['verify-index', INDEX, IMAGE], text='the image failed')
        with cases.case(f'OUT is a {what}') as folder:
            put_file(os.path.join(folder, INDEX), ABC_INDEX)
            put(os.path.join(folder, IMAGE))
            ends(folder, ['extract', '-k', '-s', '.', INDEX, IMAGE], text='the target failed')
    with cases.case('INDEX, IMAGE and OUT are devices') as folder:
        put_file(os.path.join(folder, INDEX), ABC_INDEX)
        ends(folder, ['info', '/dev/null'], text='/dev/null: failed')
        ends(folder, ['verify-index', INDEX, '/dev/zero'], text='the image failed')
        ends(folder, ['extract', '-k', '-s', '.', INDEX, '/dev/full'], text='the target failed')


# Outputs that take nothing

def into(stream):
    """A way to run the program with another standard output."""
    def run(words, folder):
        process = subprocess.Popen([program.DESYNC, *words], cwd=folder, stdin=subprocess.DEVNULL, stdout=stream,
                                   stderr=subprocess.PIPE)
        _, err = process.communicate(timeout=program.TIME_LIMIT)
        return program.Ended(process.returncode, b'', err)
    return run


def closed_outputs(cases):
    text = 'the output failed'
    long_index = formats.long_index(20000)
    printing = [['list-chunks', INDEX], ['info', INDEX], ['--help'], ['--version'], ['make', '--help']]
    for words in printing:
        with cases.case(f'{words[0]} into a pipe that nobody reads') as folder:
            put_file(os.path.join(folder, INDEX), long_index)
            reading, writing = os.pipe()
            os.close(reading)
            ends(folder, words, text=text, run=into(writing))
            os.close(writing)
        with cases.case(f'{words[0]} onto a full device') as folder:
            if not os.path.exists('/dev/full'):
                raise Skip('/dev/full isn\'t there')
            put_file(os.path.join(folder, INDEX), long_index)
            with open('/dev/full', 'wb') as full:
                ends(folder, words, text=text, run=into(full))
    with cases.case('list-chunks into head') as folder:
        put_file(os.path.join(folder, INDEX), long_index)
        script = 'set -o pipefail; "$0" list-chunks "$1" 2> err | head -1; echo "${PIPESTATUS[0]}"; cat err; rm err'
        ended = subprocess.run(['bash', '-c', script, program.DESYNC, INDEX], cwd=folder, stdin=subprocess.DEVNULL,
                               stdout=subprocess.PIPE, check=True)
        expect_equal(ended.stdout.decode(), f'{bytes(32).hex()}\n1\ndesync: {text}\n', 'what is printed')
    with cases.case('a standard output that is closed') as folder:
        ended = subprocess.run(['bash', '-c', '"$0" --version >&-', program.DESYNC], cwd=folder,
                               stdin=subprocess.DEVNULL, stdout=subprocess.PIPE, stderr=subprocess.PIPE)
        expect_equal((ended.returncode, ended.stderr.decode()), (1, f'desync: {text}\n'), '(status, standard error)')
    with cases.case('an error sink that takes nothing changes no status') as folder:
        put_file(os.path.join(folder, INDEX), ABC_INDEX)
        for words, status in ((['info', INDEX], 0), (['info', 'no'], 1)):
            with open('/dev/full', 'wb') as full:
                ended = subprocess.run([program.DESYNC, *words], cwd=folder, stdin=subprocess.DEVNULL,
                                       stdout=subprocess.DEVNULL, stderr=full)
            expect_equal(ended.returncode, status, f'the status of {words}')


# Help

def shown_texts(path):
    """The blocks of a text file that stand between lines of three backquotes."""
    with open(path, encoding='utf-8') as file:
        return file.read().split('```')[1::2]


def help_texts(cases):
    shown = shown_texts(os.path.join(program.TOP, 'docs', 'COMMANDS.md'))
    for words in [['--help'], ['--version']] + [[command, '--help'] for command in COMMANDS]:
        with cases.case(f'the text of {" ".join(words)} is docs/COMMANDS.md\'s') as folder:
            ended = program.run(words, folder)
            expect_equal((ended.status, ended.err), (0, b''), '(status, standard error)')
            text = ended.out.decode()
            expect(any(block.removeprefix('text\n') == text for block in shown), 'docs/COMMANDS.md doesn\'t show it')
            expect(max(len(row) for row in text.splitlines()) <= 80, 'a line has more than 80 columns')
    for words, text in ((['--help', 'x'], 'word 0: UnknownCommand'), (['make', '--help', 'x'], 'word 1: UnknownOption'),
                        ([], 'word 0: NoCommand')):
        with cases.case(f'the words {words}') as folder:
            ends(folder, words, text=text)


def refused_words(cases):
    refused = [('frob', 'word 0: UnknownCommand'), ('extract -k a b', 'word 4: MissingOption'),
               ('make -s st -n 33 a b', 'word 4: BadNumber'), ('make -s https://h/ a b', 'word 2: BadLocation'),
               ('make -s st -m 64:16:256 a b', 'bad chunk sizes: Order'),
               ('make -s st -m 0:64:256 a b', 'bad chunk sizes: MinTooSmall'),
               ('list-chunks -s st a', 'word 1: UnknownOption'), ('info', 'word 1: Operands'),
               ('info a b', 'word 2: Operands'), ('make -k -s st a b', 'word 1: UnknownOption'),
               ('make -s st -s st a b', 'word 3: TooMany'), ('make -s', 'word 2: NoValue'),
               ('extract -k -s st --seed x a b', 'word 5: BadSeed'),
               ('prune -s st a', 'word 4: NeedsYes'), ('verify -s http://h/', 'word 2: NeedsFolder'),
               ('chunk-server -s st -l x', 'word 4: BadListen'), ('cache -s st a', 'word 4: MissingOption'),
               ('extract -c c -c c -s st a b', 'word 3: TooMany'), ('chunk-server -s st', 'word 3: MissingOption'),
               ('chunk-server -s st -l localhost:8080 -w a', 'word 6: Operands')]
    for words, text in refused:
        with cases.case(f'the words {words}') as folder:
            put_file(os.path.join(folder, 'a'), b'a')
            os.mkdir(os.path.join(folder, 'st'))
            ends(folder, words.split(), text=text)
    with cases.case('options and names in any order') as folder:
        put_file(os.path.join(folder, '-x'), b'abc')
        os.mkdir(os.path.join(folder, 'st'))
        expect_ended(program.run(['make', INDEX, '--store', 'st', '-n', '4', '--', '-x'], folder))
        with open(os.path.join(folder, INDEX), 'rb') as file:
            expect_equal(file.read(), ABC_INDEX, 'the index')


def main():
    needs_program('reads')
    cases = Cases('reads')
    for group in (whole_images, other_images, changed_indexes, names_that_are_not_there, closed_outputs, help_texts,
                  refused_words):
        group(cases)
    return cases.end()


if __name__ == '__main__':
    sys.exit(main())
