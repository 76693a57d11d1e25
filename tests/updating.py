#!/usr/bin/env python3
"""Updates the image of a real file system from older versions, and checks which chunks that fetches.

An image is made by mke2fs, and debugfs changes, adds and removes files in copies of it. The older versions serve as the
output itself, as seeds, and as both. What an update needs is read off the images and the indexes by this script: the
chunks of which no entry is right in the output, and which no seed's index lists.
"""

import os
import random
import shutil
import subprocess
import sys

import formats
import program
from checks import Cases, Skip, expect, expect_ended, expect_equal, file_bytes, needs_program

MIB = 1 << 20
SIZE = 48 * MIB


def tool(name):
    found = shutil.which(name) or shutil.which(name, path='/sbin:/usr/sbin')
    if found is None:
        raise Skip(f'{name} isn\'t there')
    return found


def run_tool(words, folder):
    subprocess.run(words, cwd=folder, check=True, stdin=subprocess.DEVNULL, stdout=subprocess.DEVNULL,
                   stderr=subprocess.DEVNULL)


def change(folder, old, new, lines):
    """Copies an image, and changes the files in the copy."""
    shutil.copyfile(os.path.join(folder, old), os.path.join(folder, new))
    with open(os.path.join(folder, 'changes'), 'w', encoding='utf-8') as file:
        file.write(''.join(line + '\n' for line in lines))
    run_tool([tool('debugfs'), '-w', '-f', 'changes', new], folder)


def write_images(folder):
    """The image of a file system as `first`, as `second` the same after files were changed and removed, and as `third`
    the second after files were added and changed."""
    chance = random.Random(12)
    files = os.path.join(folder, 'files')
    os.mkdir(files)
    for number in range(120):
        with open(os.path.join(files, f'file-{number:03}'), 'wb') as file:
            file.write(chance.randbytes(chance.randint(1, 400_000)))
    run_tool([tool('mke2fs'), '-q', '-t', 'ext4', '-d', files, 'first', f'{SIZE // MIB}M'], folder)
    for name, size in (('one', 300_000), ('two', 500_000)):
        with open(os.path.join(folder, name), 'wb') as file:
            file.write(chance.randbytes(size))
    change(folder, 'first', 'second', ['rm file-005', 'rm file-045', 'rm file-020', 'write one file-020'])
    change(folder, 'second', 'third', ['write two new-file', 'rm file-070', 'write one file-070'])
    shutil.rmtree(files)


def opened(folder, words, store):
    """The names of the chunks that a run opens in a store without an error, in order, as strace shows them."""
    run_tool([tool('strace'), '-f', '-e', 'trace=open,openat', '-o', 'strace', program.DESYNC, *words], folder)
    with open(os.path.join(folder, 'strace'), encoding='utf-8') as file:
        paths = [line.split('"')[1] for line in file if f'"{store}/' in line and '= -1' not in line]
    return sorted(bytes.fromhex(path.split('/')[-1]) for path in paths if path.count('/') == 2 and '.tmp' not in path)


class Versions:
    """The three images and their indexes, and the store that has all chunks of the third."""

    def __init__(self, folder):
        self.folder = folder
        write_images(folder)
        for name in ('first', 'second', 'third'):
            os.mkdir(self.path(f'all-{name}'))
            expect_ended(program.run(['make', '-s', f'all-{name}', f'{name}.caibx', name], folder), what='make')
        self.third = self.bytes_of('third')
        self.index = self.index_of('third')

    def path(self, name):
        return os.path.join(self.folder, name)

    def bytes_of(self, name):
        return file_bytes(self.path(name))

    def index_of(self, name):
        return formats.read_index(self.bytes_of(f'{name}.caibx'))

    def needed(self, output, seeds):
        """The names of the chunks of which no entry is right in the output, and which no seed lists."""
        length = self.index.length()
        base = (b'' if output is None else self.bytes_of(output))[:length].ljust(length, b'\0')
        right = {name for start, end, name in self.index.slices() if formats.digest_of(base[start:end]) == name}
        for seed in seeds:
            right |= self.index_of(seed).names()
        return self.index.names() - right

    def fill_store(self, names):
        """Makes `needed` a store of these chunks."""
        shutil.rmtree(self.path('needed'), ignore_errors=True)
        os.mkdir(self.path('needed'))
        for name in names:
            target = formats.chunk_path(self.path('needed'), name)
            os.makedirs(os.path.dirname(target), exist_ok=True)
            shutil.copyfile(formats.chunk_path(self.path('all-third'), name), target)

    def words(self, output, seeds):
        """The words of an update. The output begins as this version, or isn't there."""
        if os.path.exists(self.path('disk')):
            os.remove(self.path('disk'))
        if output is not None:
            shutil.copyfile(self.path(output), self.path('disk'))
        named = [word for seed in seeds for word in ('--seed', f'{seed}.caibx')]
        return ['extract', '-k', '-s', 'needed', *named, 'third.caibx', 'disk']

    def expect_updated(self):
        expect(self.bytes_of('disk') == self.third, 'the updated image is another one')


WAYS = [
    ('in place', 'first', []),
    ('from the old version as seed', None, ['first']),
    ('in place, and from a seed', 'first', ['second']),
    ('from two seeds', None, ['first', 'second']),
]


def only_what_changed_is_needed(cases, versions):
    for what, output, seeds in WAYS:
        with cases.case(f'a store of just what is needed, {what}'):
            needed = versions.needed(output, seeds)
            expect(0 < len(needed) < len(versions.index.names()) // 2, f'{len(needed)} chunks are needed')
            versions.fill_store(needed)
            expect_ended(program.run(versions.words(output, seeds), versions.folder), what='the update')
            versions.expect_updated()


def one_chunk_is_missing(cases, versions):
    for what, output, seeds in WAYS:
        with cases.case(f'a store that lacks one of them, and then has it, {what}'):
            needed = versions.needed(output, seeds)
            slices = list(versions.index.slices())
            entry, lost = next((number, name) for number, (_, _, name) in enumerate(slices) if name in needed)
            versions.fill_store(needed - {lost})
            words = versions.words(output, seeds)
            expect_ended(program.run(words, versions.folder), f'chunk {lost.hex()} of entry {entry} is missing')
            old = versions.bytes_of(output) if output else bytes(versions.index.length())
            updated = versions.bytes_of('disk')
            for start, end, name in slices:
                wanted = old if name == lost else versions.third
                expect(updated[start:end] == wanted[start:end], f'bytes {start} to {end} aren\'t those that are wanted')
            versions.fill_store({lost})
            expect_ended(program.run(words, versions.folder), what='the second update')
            versions.expect_updated()


def each_needed_chunk_is_read_once(cases, versions):
    versions.fill_store(versions.index.names())
    for what, output, seeds in WAYS:
        with cases.case(f'which chunks are read, {what}'):
            needed = versions.needed(output, seeds)
            read = opened(versions.folder, versions.words(output, seeds), 'needed')
            expect_equal(read, sorted(needed), 'the list of chunks that were read')
            versions.expect_updated()


def main():
    needs_program('updating')
    cases = Cases('updating')
    with cases.case('three versions of an image') as folder:
        versions = Versions(folder)
        for group in (only_what_changed_is_needed, one_chunk_is_missing, each_needed_chunk_is_read_once):
            group(cases, versions)
    return cases.end()


if __name__ == '__main__':
    sys.exit(main())
