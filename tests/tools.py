#!/usr/bin/env python3
"""`desync verify` and `desync prune` over folder stores, compared with what tests/formats.py knows of the chunks.

The versions of a real file system's image are those of tests/updating.py.
"""

import os
import random
import subprocess
import sys

import formats
import program
import updating
from checks import (DAMAGES, Cases, expect, expect_ended, expect_equal, expect_files, expect_untouched, file_bytes,
                    files_of, needs_program, put_file, snapshot)

STRANGERS = {'notes.txt': b'notes', os.path.join('5304', 'other.cacnk'): b'compressed',
             os.path.join('far', 'away', formats.TEMPORARY): b'too deep to be listed'}
TEMPORARIES = {formats.TEMPORARY: b'', os.path.join('5304', formats.TEMPORARY + 'x'): b'ab'}


def count_of(folder):
    return sum(len(names) for _, _, names in os.walk(folder))


class Store:
    """The store `st` with the chunks of random pieces, temporary files and strangers; `a.caibx` lists the first half of
    the pieces, `b.caibx` every third."""

    def __init__(self, folder, pieces=60):
        chance = random.Random(5)
        self.folder = folder
        self.pieces = [chance.randbytes(chance.randint(1, 30_000)) for _ in range(pieces)] + [b'']
        self.chunks = {formats.digest_of(piece): piece for piece in self.pieces}
        self.rest = {**STRANGERS, **TEMPORARIES}
        for name, piece in self.chunks.items():
            formats.write_chunk(self.path('st'), name, piece)
        for path, data in self.rest.items():
            put_file(self.path(os.path.join('st', path)), data)
        self.listed = {'a.caibx': self.pieces[:pieces // 2], 'b.caibx': self.pieces[:pieces:3]}
        for name, pieces_of in self.listed.items():
            index = formats.Index([])
            for piece in pieces_of:
                index.add(piece)
            formats.write_index(self.path(name), index)

    def path(self, name):
        return os.path.join(self.folder, name)

    def run(self, *words):
        return program.run(list(words), self.folder)

    def files(self, chunks, rest=None):
        """The files of a store with these chunks."""
        rest = self.rest if rest is None else rest
        return {**{formats.path_in_store(name): data for name, data in chunks.items()}, **rest}

    def damage(self, names, change):
        for name in names:
            formats.write_chunk(self.path('st'), name, change(self.chunks[name]))

    def kept_by(self, *indexes):
        return {formats.digest_of(piece): piece for index in indexes for piece in self.listed[index]}


def text_of(word, names):
    return ''.join(f'{word} {name.hex()}\n' for name in sorted(names))


def verified(cases):
    with cases.case('verify of a right store') as folder:
        store = Store(folder)
        before = snapshot(folder)
        expect_ended(store.run('verify', '-s', 'st'))
        expect_ended(store.run('verify', '-r', '-n', '7', '-s', 'st'), what='the run with -r')
        expect_untouched(before, snapshot(folder))
    for what, change in DAMAGES.items():
        with cases.case(f'verify finds what is damaged, and -r removes it: {what}') as folder:
            store = Store(folder)
            names = [name for name in sorted(store.chunks)[::4] if store.chunks[name]]
            store.damage(names, change)
            before = snapshot(folder)
            ended = store.run('verify', '-s', 'st')
            expect_ended(ended, f'damaged chunks left: {len(names)}', out=text_of('damaged', names))
            expect_untouched(before, snapshot(folder))
            ended = store.run('verify', '-r', '-s', 'st')
            expect_ended(ended, out=text_of('removed', names))
            left = {name: piece for name, piece in store.chunks.items() if name not in names}
            expect_files(store.path('st'), store.files(left), 'after verify -r')
            expect_ended(store.run('verify', '-s', 'st'))
    with cases.case('a chunk file of more than 64 MiB is damaged, one of 64 MiB isn\'t') as folder:
        os.mkdir(os.path.join(folder, 'st'))
        piece = bytes(formats.SIZE_LIMIT)
        formats.write_chunk(os.path.join(folder, 'st'), formats.digest_of(piece), piece)
        expect_ended(program.run(['verify', '-s', 'st'], folder))
        longer = piece + b'\0'
        name = formats.digest_of(longer)
        formats.write_chunk(os.path.join(folder, 'st'), name, longer)
        ended = program.run(['verify', '-s', 'st'], folder)
        expect_ended(ended, 'damaged chunks left: 1', out=text_of('damaged', [name]))


def workers(cases):
    """verify ends alike with any number of workers, over a store of more files than they read in one round."""
    for count in ('1', '2', '8', '32'):
        with cases.case(f'verify with {count} workers') as folder:
            store = Store(folder, pieces=600)
            names = [name for name in sorted(store.chunks) if store.chunks[name]]
            damaged = names[1::7]
            for place, change in enumerate(DAMAGES.values()):
                store.damage(damaged[place::len(DAMAGES)], change)
            os.truncate(formats.chunk_path(store.path('st'), damaged[40]), formats.SIZE_LIMIT + 1)
            before = snapshot(folder)
            ended = store.run('verify', '-n', count, '-s', 'st')
            expect_ended(ended, f'damaged chunks left: {len(damaged)}', out=text_of('damaged', damaged))
            expect_untouched(before, snapshot(folder))
            expect_ended(store.run('verify', '-r', '-n', count, '-s', 'st'), out=text_of('removed', damaged))
            left = {name: piece for name, piece in store.chunks.items() if name not in damaged}
            expect_files(store.path('st'), store.files(left), 'after verify -r')
        with cases.case(f'verify of an empty store with {count} workers') as folder:
            os.mkdir(os.path.join(folder, 'st'))
            expect_ended(program.run(['verify', '-r', '-n', count, '-s', 'st'], folder))
        with cases.case(f'a file that can\'t be read ends verify with {count} workers') as folder:
            store = Store(folder, pieces=300)
            os.chmod(folder, 0o777)
            names = [name for name in sorted(store.chunks) if store.chunks[name]]
            store.damage([names[3], names[250]], DAMAGES['another byte'])
            os.chmod(formats.chunk_path(store.path('st'), names[200]), 0)
            ended = program.run_without_rights(['verify', '-n', count, '-s', 'st'], folder)
            expect_ended(ended, 'store 0 failed', out=text_of('damaged', [names[3]]))
    with cases.case('verify of a store that isn\'t there, with workers') as folder:
        expect_ended(program.run(['verify', '-n', '8', '-s', 'far'], folder), 'far: no such folder')


def pruned(cases):
    for indexes in (('a.caibx',), ('a.caibx', 'b.caibx'), ('b.caibx', 'b.caibx')):
        with cases.case(f'prune by {indexes}') as folder:
            store = Store(folder)
            expect_ended(store.run('prune', '-s', 'st', '-y', *indexes))
            expect_files(store.path('st'), store.files(store.kept_by(*indexes), STRANGERS), 'after prune')
            before = snapshot(folder)
            expect_ended(store.run('prune', '-s', 'st', '-y', *indexes), what='the second run')
            expect_untouched(before, snapshot(folder))
    for what, words, text in [
        ('an index that isn\'t there', ('-s', 'st', '-y', 'a.caibx', 'no'), 'no: no such file'),
        ('a file that is no index', ('-s', 'st', '-y', 'a.caibx', 'bad'), 'bad: bad index: no index head'),
        ('no -y', ('-s', 'st', 'a.caibx', 'b.caibx'), 'word 5: NeedsYes'),
        ('a store that isn\'t there', ('-s', 'far', '-y', 'a.caibx'), 'far: no such folder'),
    ]:
        with cases.case(f'{what} prunes nothing') as folder:
            store = Store(folder)
            put_file(store.path('bad'), bytes(200))
            before = snapshot(folder)
            expect_ended(store.run('prune', *words), text)
            expect_untouched(before, snapshot(folder))
    with cases.case('indexes that list too much together prune nothing') as folder:
        store = Store(folder)
        put_file(store.path('long.caibx'), formats.long_index(formats.ITEM_LIMIT))
        before = snapshot(store.path('st'))
        expect_ended(store.run('prune', '-s', 'st', '-y', 'long.caibx', 'long.caibx', 'a.caibx'), 'too many chunks')
        expect_untouched(before, snapshot(store.path('st')))
    for turn in range(6):
        with cases.case(f'prune is killed, and run again, turn {turn}') as folder:
            store = Store(folder, pieces=1_500)
            kept = store.kept_by('b.caibx')
            count = count_of(store.path('st'))
            killed = program.start(['prune', '-s', 'st', '-y', 'b.caibx'], folder)
            while killed.poll() is None and count_of(store.path('st')) == count:
                pass
            killed.kill()
            program.ended(killed)
            left = files_of(store.path('st'))
            for path, data in store.files(kept, STRANGERS).items():
                expect(left.get(path) == data, f'{path} isn\'t there with its bytes')
            expect_ended(store.run('prune', '-s', 'st', '-y', 'b.caibx'))
            expect_files(store.path('st'), store.files(kept, STRANGERS), 'after the second run')


def faults(cases):
    with cases.case('a folder stands where a chunk file does') as folder:
        store = Store(folder)
        name = sorted(store.chunks)[7]
        os.remove(formats.chunk_path(store.path('st'), name))
        os.mkdir(formats.chunk_path(store.path('st'), name))
        expect_ended(store.run('verify', '-s', 'st'))
    with cases.case('a chunk file can\'t be read') as folder:
        store = Store(folder)
        os.chmod(folder, 0o777)
        first, second = sorted(name for name, piece in store.chunks.items() if piece)[3:5]
        store.damage([first], DAMAGES['another byte'])
        os.chmod(formats.chunk_path(store.path('st'), second), 0)
        ended = program.run_without_rights(['verify', '-s', 'st'], folder)
        expect_ended(ended, 'store 0 failed', out=text_of('damaged', [first]))
    with cases.case('a chunk file can\'t be removed') as folder:
        store = Store(folder)
        os.chmod(folder, 0o777)
        before = snapshot(folder)
        ended = program.run_without_rights(['prune', '-s', 'st', '-y', 'a.caibx'], folder)
        expect_ended(ended, 'store 0 failed')
        expect_untouched(before, snapshot(folder))
    with cases.case('nobody reads what is printed') as folder:
        store = Store(folder)
        store.damage(sorted(store.chunks)[:4], lambda piece: piece + b'x')
        with open('/dev/full', 'wb') as full:
            ended = subprocess.run([program.DESYNC, 'verify', '-r', '-s', 'st'], cwd=folder, stdin=subprocess.DEVNULL,
                                   stdout=full, stderr=subprocess.PIPE)
        expect_equal((ended.returncode, ended.stderr), (1, b'desync: the output failed\n'), '(status, standard error)')
        left = [name for name in sorted(store.chunks) if os.path.exists(formats.chunk_path(store.path('st'), name))]
        expect_equal(left, sorted(store.chunks)[1:], 'the chunks that are left')


def mended_and_pruned(cases):
    """A store of three versions of a real image is damaged, mended and pruned to one version."""
    with cases.case('damage, verify, mend, prune and extract over three versions of an image') as folder:
        updating.write_images(folder)
        store = os.path.join(folder, 'st')
        os.mkdir(store)
        versions = ('first', 'second', 'third')
        for name in versions:
            making = program.run(['make', '-m', '2:8:32', '-s', 'st', f'{name}.caibx', name], folder)
            expect_ended(making, what=f'publishing {name}')
        whole = files_of(store)
        expect(len(whole) > 2_000, f'the store has {len(whole)} chunks alone')
        chance = random.Random(3)
        paths = sorted(chance.sample(sorted(whole), len(whole) // 20))
        for path in paths:
            data = bytearray(whole[path])
            data[chance.randrange(len(data))] ^= 1 << chance.randrange(8)
            put_file(os.path.join(store, path), bytes(data))
        names = [bytes.fromhex(os.path.basename(path)) for path in paths]
        expect_ended(program.run(['verify', '-s', 'st'], folder), f'damaged chunks left: {len(names)}',
                     out=text_of('damaged', names))
        expect_ended(program.run(['verify', '-r', '-s', 'st'], folder), out=text_of('removed', names))
        for name in versions:
            expect_ended(program.run(['chop', '-s', 'st', f'{name}.caibx', name], folder), what=f'mending by {name}')
        expect_files(store, whole, 'after the mending')
        expect_ended(program.run(['verify', '-s', 'st'], folder), what='the check of what was mended')
        expect_ended(program.run(['prune', '-s', 'st', '-y', 'third.caibx'], folder), what='the pruning')
        third = formats.read_index(file_bytes(os.path.join(folder, 'third.caibx')))
        listed = {formats.path_in_store(name) for name in third.names()}
        expect_files(store, {path: whole[path] for path in listed}, 'after the pruning')
        expect_ended(program.run(['extract', '-s', 'st', 'third.caibx', 'out'], folder), what='the extraction')
        same = file_bytes(os.path.join(folder, 'out')) == file_bytes(os.path.join(folder, 'third'))
        expect(same, 'out isn\'t the image')


def main():
    needs_program('tools')
    cases = Cases('tools')
    for group in (verified, workers, pruned, faults, mended_and_pruned):
        group(cases)
    return cases.end()


if __name__ == '__main__':
    sys.exit(main())
