#!/usr/bin/env python3
"""Caches: what `extract -c` takes from one and adds to it, and what `cache` fills it with.

What a cache holds afterwards is known to this script from the bytes of the images. The versions of a real file system's
image are those of tests/updating.py.
"""

import os
import random
import shutil
import sys

import formats
import program
import servers
import updating
from checks import (DAMAGES, Cases, expect, expect_ended, expect_equal, expect_files, expect_untouched, file_bytes,
                    files_of, needs_program, put_file, snapshot)
from make import expect_chunks, start_storing

STRANGERS = {'notes.txt': b'notes', os.path.join('0000', 'other.cacnk'): b'compressed'}


class Image:
    """An image with its index `new.caibx`, the store `all`, the empty store `none` and the empty cache `near`."""

    def __init__(self, folder, pieces=60, least=2_000, greatest=30_000):
        chance = random.Random(21)
        self.folder = folder
        self.pieces = [chance.randbytes(chance.randint(least, greatest)) for _ in range(pieces)]
        self.pieces += [self.pieces[3], bytes(5_000), self.pieces[0]]
        self.bytes = b''.join(self.pieces)
        self.index = formats.Index([])
        for piece in self.pieces:
            formats.write_chunk(self.path('all'), self.index.add(piece), piece)
        formats.write_index(self.path('new.caibx'), self.index)
        self.chunks = {formats.digest_of(piece): piece for piece in self.pieces}
        # A range of zeros is right in an output that isn't there: no source is asked for it.
        self.needed = {name for name, piece in self.chunks.items() if any(piece)}
        for name in ('none', 'near'):
            os.mkdir(self.path(name))

    def path(self, name):
        return os.path.join(self.folder, name)

    def words(self, *more, store='all', cache='near', out='out'):
        return ['extract', '-s', store, '-c', cache, *more, 'new.caibx', out]

    def fill(self, *more, store='all', cache='near', indexes=('new.caibx',)):
        return ['cache', '-s', store, '-c', cache, *more, *indexes]

    def run(self, words):
        return program.run(words, self.folder)

    def expect_out(self, out='out'):
        expect(file_bytes(self.path(out)) == self.bytes, f'{out} isn\'t the image')

    def keep(self, names, change=lambda piece: piece):
        """Puts these chunks into the cache, each changed."""
        for name in names:
            formats.write_chunk(self.path('near'), name, change(self.chunks[name]))

    def expect_kept(self, names, folder='near', more=()):
        """The cache holds just these chunks, rightly, and these other files."""
        wanted = {formats.path_in_store(name): self.chunks[name] for name in names}
        expect_files(self.path(folder), {**wanted, **dict(more)}, 'in the cache')


def given_and_added(cases):
    for more in ((), ('-k',)):
        with cases.case(f'a cache is filled, and then gives alone, {more}') as folder:
            image = Image(folder)
            expect_ended(image.run(image.words(*more)), what='the first run')
            image.expect_out()
            image.expect_kept(image.needed)
            before = snapshot(image.path('near'))
            expect_ended(image.run(image.words(*more, store='none', out='second')), what='the run without a store')
            image.expect_out('second')
            expect_untouched(before, snapshot(image.path('near')))
    for what, change in DAMAGES.items():
        with cases.case(f'wrong bytes in the cache are put right: {what}') as folder:
            image = Image(folder)
            image.keep(image.needed, change)
            expect_ended(image.run(image.words()))
            image.expect_out()
            image.expect_kept(image.needed)
    with cases.case('strangers and chunks that aren\'t listed stay as they are') as folder:
        image = Image(folder)
        other = b'a chunk of another image'
        more = dict(STRANGERS)
        more[formats.path_in_store(formats.digest_of(other))] = other
        for path, data in more.items():
            put_file(os.path.join(image.path('near'), path), data)
        expect_ended(image.run(image.words()))
        image.expect_kept(image.needed, more=more)
    with cases.case('the store is the cache too') as folder:
        image = Image(folder)
        expect_ended(image.run(image.words(cache='all')))
        image.expect_out()
        image.expect_kept(image.chunks, folder='all')
    with cases.case('what a seed gives isn\'t added') as folder:
        image = Image(folder)
        put_file(image.path('old'), image.bytes)
        shutil.copyfile(image.path('new.caibx'), image.path('old.caibx'))
        expect_ended(image.run(image.words('--seed', 'old.caibx', store='none')))
        image.expect_out()
        image.expect_kept([])


def asked_in_order(cases):
    with cases.case('a store is asked for what the cache lacks alone') as folder:
        image = Image(folder)
        half = set(sorted(image.needed)[::2])
        image.keep(half)
        read = updating.opened(folder, image.words(), 'all')
        expect_equal(read, sorted(image.needed - half), 'what was read from the store')
        image.expect_out()
        image.expect_kept(image.needed)
    for workers in ('1', '4'):
        with cases.case(f'a server is asked once for each chunk that the cache lacks, by {workers} of -n') as folder:
            image = Image(folder)
            half = set(sorted(image.needed)[::2])
            image.keep(half)
            with servers.store(image.path('all')) as server:
                expect_ended(image.run(image.words('-n', workers, store=server.url())))
            lacked = [('GET', f'/{name.hex()[:4]}/{name.hex()}') for name in image.needed - half]
            expect_equal(sorted(server.asked), sorted(lacked), 'what the server was asked for')
            image.expect_out()
            image.expect_kept(image.needed)
    with cases.case('the cache is asked for what no seed gives alone') as folder:
        image = Image(folder)
        half = len(image.pieces) // 2
        seed = formats.Index([])
        for piece in image.pieces[:half]:
            seed.add(piece)
        put_file(image.path('old'), b''.join(image.pieces[:half]))
        formats.write_index(image.path('old.caibx'), seed)
        image.keep(image.needed)
        words = image.words('--seed', 'old.caibx', store='none')
        read = updating.opened(folder, words, 'near')
        expect_equal(read, sorted(image.needed - seed.names()), 'what was read from the cache')
        image.expect_out()


def faults(cases):
    with cases.case('no source has a chunk, and the cache keeps the others') as folder:
        image = Image(folder)
        name = image.index.entries[7][1]
        os.remove(formats.chunk_path(image.path('all'), name))
        expect_ended(image.run(image.words()), f'chunk {name.hex()} of entry 7 is missing')
        expect(not os.path.lexists(image.path('out')), 'OUT is there')
        image.expect_kept(image.needed - {name})
        image.keep([name], DAMAGES['another byte'])
        expect_ended(image.run(image.words()), f'chunk {name.hex()} of entry 7 is missing')
        image.keep([name])
        expect_ended(image.run(image.words()))
        image.expect_out()
    with cases.case('the cache isn\'t there') as folder:
        image = Image(folder)
        before = snapshot(folder)
        expect_ended(image.run(image.words(cache='far')), 'far: no such folder')
        expect_ended(image.run(image.words('-k', cache='far')), 'far: no such folder')
        expect_untouched(before, snapshot(folder))
    with cases.case('the cache is a file') as folder:
        image = Image(folder)
        put_file(image.path('far'), b'a file')
        ended = image.run(image.words(cache='far'))
        expect_equal((ended.status, ended.err[:12]), (1, b'desync: far:'), 'how it ended')
        expect(not os.path.lexists(image.path('out')), 'OUT is there')
    with cases.case('the cache can\'t be written') as folder:
        image = Image(folder)
        os.chmod(folder, 0o777)
        os.chmod(image.path('near'), 0o555)
        expect_ended(program.run_without_rights(image.words('-k'), folder))
        image.expect_out()
        image.expect_kept([])
    with cases.case('the cache can\'t be read') as folder:
        image = Image(folder)
        image.keep(image.needed)
        os.chmod(folder, 0o777)
        for name in image.needed:
            os.chmod(formats.chunk_path(image.path('near'), name), 0)
        expect_ended(program.run_without_rights(image.words('-k'), folder))
        image.expect_out()
    for what, lay in {
        'a folder stands where a chunk belongs': os.makedirs,
        'a file stands where a chunk\'s folder belongs': lambda path: put_file(os.path.dirname(path), b'file'),
    }.items():
        with cases.case(what) as folder:
            image = Image(folder)
            lay(formats.chunk_path(image.path('near'), image.index.entries[4][1]))
            expect_ended(image.run(image.words()))
            image.expect_out()
            expect(len(files_of(image.path('near'))) >= len(image.needed) - 1, 'the other chunks weren\'t added')


def kill_while_storing(words, folder):
    killed = start_storing(words, folder, 'near')
    killed.kill()
    program.ended(killed)


def side_by_side(cases):
    for turn in range(6):
        with cases.case(f'two extractions over one cache at once, turn {turn}') as folder:
            image = Image(folder, pieces=200)
            runs = [program.start(image.words(out=out), folder) for out in ('out', 'other')]
            for run in runs:
                expect_ended(program.ended(run))
            for out in ('out', 'other'):
                image.expect_out(out)
            image.expect_kept(image.needed)
    with cases.case('eight extractions of eight workers each over one cache at once') as folder:
        image = Image(folder, pieces=200)
        outs = [f'out-{number}' for number in range(8)]
        runs = [program.start(image.words('-n', '8', out=out), folder) for out in outs]
        for run in runs:
            expect_ended(program.ended(run))
        for out in outs:
            image.expect_out(out)
        image.expect_kept(image.needed)
        expect_ended(image.run(image.words('-n', '8', store='none')), what='the run without a store')
        image.expect_out()
    for turn in range(6):
        with cases.case(f'an extraction that is killed, and run again without a store, turn {turn}') as folder:
            image = Image(folder, pieces=200)
            kill_while_storing(image.words(), folder)
            expect_chunks(image.path('near'))
            expect_ended(image.run(image.words()))
            expect_ended(image.run(image.words(store='none')))
            image.expect_out()


def filled(cases):
    with cases.case('cache fills an empty one, and a full one stays') as folder:
        image = Image(folder)
        expect_ended(image.run(image.fill()))
        image.expect_kept(image.chunks)
        before = snapshot(image.path('near'))
        expect_ended(image.run(image.fill(store='none')), what='the run without a store')
        expect_untouched(before, snapshot(image.path('near')))
        expect_ended(image.run(image.words(store='none')), what='the extraction')
        image.expect_out()
    for what, change in DAMAGES.items():
        with cases.case(f'cache puts wrong bytes right: {what}') as folder:
            image = Image(folder)
            image.keep(image.chunks, change)
            expect_ended(image.run(image.fill()))
            image.expect_kept(image.chunks)
    with cases.case('cache reads from a store what is lacking alone') as folder:
        image = Image(folder)
        half = set(sorted(image.chunks)[::2])
        image.keep(half)
        read = updating.opened(folder, image.fill(), 'all')
        expect_equal(read, sorted(set(image.chunks) - half), 'what was read from the store')
        image.expect_kept(image.chunks)
    for workers in ('1', '2', '8', '32'):
        with cases.case(f'cache fills an empty one from a folder, by {workers} of -n') as folder:
            image = Image(folder)
            expect_ended(image.run(image.fill('-n', workers)))
            image.expect_kept(image.chunks)
        with cases.case(f'cache ends at a chunk that isn\'t there, by {workers} of -n') as folder:
            image = Image(folder)
            lost = formats.digest_of(image.pieces[30])
            os.remove(formats.chunk_path(image.path('all'), lost))
            ended = image.run(image.fill('-n', workers))
            expect_ended(ended, f'chunk {lost.hex()} of entry 30 is missing')
            image.expect_kept({formats.digest_of(piece) for piece in image.pieces[:30]})
        with cases.case(f'cache asks a server once for each chunk that it lacks, by {workers} of -n') as folder:
            image = Image(folder)
            half = set(sorted(image.chunks)[::2])
            image.keep(half)
            with servers.store(image.path('all')) as server:
                expect_ended(image.run(image.fill('-n', workers, store=server.url())))
            lacked = [('GET', f'/{name.hex()[:4]}/{name.hex()}') for name in set(image.chunks) - half]
            expect_equal(sorted(server.asked), sorted(lacked), 'what the server was asked for')
            image.expect_kept(image.chunks)
    with cases.case('cache with two indexes, the second of which lists a chunk that isn\'t there') as folder:
        image = Image(folder)
        other = formats.Index([])
        more = [b'one more chunk', image.pieces[5], b'and one that is lost']
        for piece in more:
            name = other.add(piece)
            if piece != more[2]:
                formats.write_chunk(image.path('all'), name, piece)
        formats.write_index(image.path('other.caibx'), other)
        lost = formats.digest_of(more[2])
        ended = image.run(image.fill(indexes=('new.caibx', 'other.caibx')))
        expect_ended(ended, f'chunk {lost.hex()} of entry 2 is missing')
        image.chunks[formats.digest_of(more[0])] = more[0]
        image.expect_kept(image.chunks)
    with cases.case('cache with an index that isn\'t there') as folder:
        image = Image(folder)
        expect_ended(image.run(image.fill(indexes=('absent.caibx', 'new.caibx'))), 'absent.caibx: no such file')
        image.expect_kept([])
    with cases.case('cache, and the folder can\'t be written') as folder:
        image = Image(folder)
        os.chmod(image.path('near'), 0o555)
        ended = program.run_without_rights(image.fill(), folder)
        expect_ended(ended, 'the cache failed')
        image.expect_kept([])
    for turn in range(4):
        with cases.case(f'cache is killed and run again, turn {turn}') as folder:
            image = Image(folder, pieces=200)
            kill_while_storing(image.fill(), folder)
            expect_ended(image.run(image.fill()))
            for name, piece in image.chunks.items():
                held = file_bytes(formats.chunk_path(image.path('near'), name))
                expect(held == piece, f'{name.hex()} isn\'t right in the cache')


def published_and_updated(cases):
    """Three versions of a real image: the first is published and fetched, the second comes from the first as seed and
    through a cache, and the third from what the machine has by then, with the store gone."""
    with cases.case('publish, update from a seed through a cache, and update again with the store gone') as folder:
        updating.write_images(folder)
        for name in ('store', 'near'):
            os.mkdir(os.path.join(folder, name))
        for name in ('first', 'second', 'third'):
            expect_ended(program.run(['make', '-s', 'store', f'{name}.caibx', name], folder), what=f'publishing {name}')
        def extract(*words):
            return program.run(['extract', '-s', 'store', '-c', 'near', *words], folder)
        expect_ended(extract('first.caibx', 'disk-1'), what='the first version')
        shutil.copyfile(os.path.join(folder, 'first.caibx'), os.path.join(folder, 'disk-1.caibx'))
        expect_ended(extract('--seed', 'disk-1.caibx', 'second.caibx', 'disk-2'), what='the update')
        filling = program.run(['cache', '-s', 'store', '-c', 'near', 'third.caibx'], folder)
        expect_ended(filling, what='filling the cache')
        os.rename(os.path.join(folder, 'store'), os.path.join(folder, 'gone'))
        os.mkdir(os.path.join(folder, 'store'))
        shutil.copyfile(os.path.join(folder, 'second.caibx'), os.path.join(folder, 'disk-2.caibx'))
        shutil.copyfile(os.path.join(folder, 'disk-2'), os.path.join(folder, 'disk'))
        without_store = extract('-k', '--seed', 'disk-1.caibx', 'third.caibx', 'disk')
        expect_ended(without_store, what='the update without the store')
        expect_ended(extract('third.caibx', 'disk-3'), what='the third version from the cache alone')
        for got, wanted in (('disk-1', 'first'), ('disk-2', 'second'), ('disk', 'third'), ('disk-3', 'third')):
            same = file_bytes(os.path.join(folder, got)) == file_bytes(os.path.join(folder, wanted))
            expect(same, f'{got} isn\'t the version {wanted}')


def main():
    needs_program('caches')
    cases = Cases('caches')
    for group in (given_and_added, asked_in_order, faults, side_by_side, filled, published_and_updated):
        group(cases)
    return cases.end()


if __name__ == '__main__':
    sys.exit(main())
