#!/usr/bin/env python3
"""Both digests, SHA-512/256 and SHA-256: `--digest`, and indexes, stores, seeds, caches and servers of either.

What is right is worked out here by hashlib and openssl, and by the cutting of tests/formats.py. Where casync is
installed its indexes are compared too.
"""

import gzip
import os
import random
import shutil
import socket
import subprocess
import sys

import cutting
import formats
import program
import servers
from checks import (Cases, Skip, expect, expect_ended, expect_equal, expect_files, expect_untouched, file_bytes,
                    needs_program, snapshot)
from replies import request

FLAGS = {'sha512-256': formats.WRITTEN_FLAGS, 'sha256': formats.SHA256_FLAGS}
OTHER = {'sha512-256': 'sha256', 'sha256': 'sha512-256'}
DIGEST_OF = {kind: formats.namer(flags) for kind, flags in FLAGS.items()}
# Messages of FIPS 180-4's examples, and their digests as published with it.
TWO_BLOCKS = (b'abcdefghbcdefghicdefghijdefghijkefghijklfghijklmghijklmn'
              b'hijklmnoijklmnopjklmnopqklmnopqrlmnopqrsmnopqrstnopqrstu')
PUBLISHED = [
    ('sha256', b'abc', 'ba7816bf8f01cfea414140de5dae2223b00361a396177a9cb410ff61f20015ad'),
    ('sha256', b'abcdbcdecdefdefgefghfghighijhijkijkljklmklmnlmnomnopnopq',
     '248d6a61d20638b8e5c026930c3e6039a33ce45964ff2167f6ecedd419db06c1'),
    ('sha256', TWO_BLOCKS, 'cf5b16a778af8380036ce59e7b0492370b249b11e8f07a51afac45037afee9d1'),
    ('sha512-256', b'abc', '53048e2681941ef99b2e29b76b4c7dabe4c2d0c634fc6d46e0e2f13107e7af23'),
    ('sha512-256', TWO_BLOCKS, '3928e184fb8690f840da3988121d31be65cb9d3ef83ee6146feac861e19b563a'),
]
LENGTHS = [*range(301), 1 << 20]


class Scene:
    """A folder with an image of random pieces, its index by each digest as `KIND.caibx`, and a store of each."""

    def __init__(self, folder, count=40):
        chance = random.Random(38)
        self.folder = folder
        self.pieces = [chance.randbytes(chance.randint(1, 30_000)) for _ in range(count)]
        self.pieces += [self.pieces[-1], self.pieces[0]]
        self.bytes = b''.join(self.pieces)
        self.write('img', self.bytes)
        os.mkdir(self.path('none'))
        self.index = {}
        for kind, flags in FLAGS.items():
            self.index[kind] = formats.index_of_pieces(self.pieces, flags)
            formats.write_index(self.path(f'{kind}.caibx'), self.index[kind])
            formats.write_chunks(self.path(kind), self.index[kind], self.bytes)

    def path(self, name):
        return os.path.join(self.folder, name)

    def write(self, name, data):
        with open(self.path(name), 'wb') as file:
            file.write(data)

    def run(self, *words):
        return program.run(list(words), self.folder)

    def files(self, *kinds):
        """The files of a store with the image's chunks by these digests."""
        return {formats.path_in_store(DIGEST_OF[kind](piece)): piece for kind in kinds for piece in self.pieces}

    def extracts(self, kind, *words, store=None):
        ended = self.run('extract', '-s', store or kind, *words, f'{kind}.caibx', 'out')
        expect_ended(ended, what=f'extract by {kind}')
        expect(file_bytes(self.path('out')) == self.bytes, 'the output isn\'t the image')
        os.remove(self.path('out'))

    def missing(self, kind, entry=0):
        return f'chunk {self.index[kind].entries[entry][1].hex()} of entry {entry} is missing'

    def both(self, name):
        """A store with the chunks by both digests."""
        for kind in FLAGS:
            formats.write_chunks(self.path(name), self.index[kind], self.bytes)


def id_made(folder, kind, data):
    """The digits of the only chunk of an image of these bytes, which are its digest."""
    with open(os.path.join(folder, 'img'), 'wb') as file:
        file.write(data)
    words = ['make', '--digest', kind, '-m', '2048:2048:2048', '-s', 'st', 'a.caibx', 'img']
    expect_ended(program.run(words, folder), what=words)
    return program.run(['list-chunks', 'a.caibx'], folder).out.decode()


def vectors(cases):
    for kind, message, digits in PUBLISHED:
        with cases.case(f'the published {kind} digest of {len(message)} bytes') as folder:
            os.mkdir(os.path.join(folder, 'st'))
            expect_equal(id_made(folder, kind, message), digits + '\n', 'the id')
    for kind in FLAGS:
        with cases.case(f'{kind} digests of 0 to 300 bytes and of 2^20, beside hashlib and openssl') as folder:
            os.mkdir(os.path.join(folder, 'st'))
            chance = random.Random(kind)
            for length in LENGTHS:
                data = chance.randbytes(length)
                wanted = DIGEST_OF[kind](data).hex() + '\n' if data else ''
                expect_equal(id_made(folder, kind, data), wanted, f'the id of {length} bytes')
                if length % 50 == 1 or length == 1 << 20:
                    expect_equal(openssl(kind, data), DIGEST_OF[kind](data), 'the digest by openssl')


def openssl(kind, data):
    return subprocess.run(['openssl', 'dgst', f'-{kind}', '-binary'], input=data, stdout=subprocess.PIPE,
                          check=True).stdout


def making(cases):
    data = random.Random(2).randbytes(3_000_000) + bytes(700_000)
    for kind, flags in FLAGS.items():
        for workers in ('1', '8'):
            with cases.case(f'make --digest {kind} -n {workers} writes its index and chunks') as folder:
                scene = Scene(folder, 1)
                scene.write('long', data)
                scene.write('a.caibx', b'old')
                os.mkdir(scene.path('st'))
                expect_ended(scene.run('make', '-n', workers, '--digest', kind, '-s', 'st', 'a.caibx', 'long'))
                index = formats.index_of(data, flags=flags)
                expect_equal(file_bytes(scene.path('a.caibx')), formats.spell_index(index), 'the index')
                chunks = {formats.path_in_store(name): data[start:end] for start, end, name in index.slices()}
                expect_files(scene.path('st'), chunks, f'after make by {kind}')
                expect_ended(scene.run('verify-index', 'a.caibx', 'long'), what='verify-index')
                expect_ended(scene.run('extract', '-s', 'st', 'a.caibx', 'out'), what='extract')
                expect(file_bytes(scene.path('out')) == data, 'the output isn\'t the image')
    with cases.case('make without --digest is make --digest sha512-256') as folder:
        scene = Scene(folder, 3)
        for name, words in {'a': [], 'b': ['--digest', 'sha512-256']}.items():
            os.mkdir(scene.path(name))
            expect_ended(scene.run('make', *words, '-s', name, f'{name}.caibx', 'img'))
        expect_equal(file_bytes(scene.path('a.caibx')), file_bytes(scene.path('b.caibx')), 'the index')


def reading(cases):
    for kind in FLAGS:
        with cases.case(f'each command that reads an index goes by its digest, {kind}') as folder:
            scene = Scene(folder)
            scene.both('st')
            for workers in ('1', '2', '8'):
                scene.extracts(kind, '-n', workers, store='st')
            expect_ended(scene.run('verify-index', f'{kind}.caibx', 'img'), what='verify-index')
            ids = ''.join(f'{name.hex()}\n' for _, name in scene.index[kind].entries)
            expect_ended(scene.run('list-chunks', f'{kind}.caibx'), out=ids)
            os.mkdir(scene.path('new'))
            expect_ended(scene.run('chop', '-s', 'new', f'{kind}.caibx', 'img'), what='chop')
            expect_files(scene.path('new'), scene.files(kind), f'after chop by {kind}')
            info = scene.run('info', '-s', kind, f'{kind}.caibx').out.decode()
            expect(f'"in-store":{len(set(scene.pieces))}' in info, info)
            expect_ended(scene.run('prune', '-s', 'st', '-y', f'{kind}.caibx'), what='prune')
            expect_files(scene.path('st'), scene.files(kind), f'after prune by {kind}')
        with cases.case(f'a store of the other digest has no chunk of {kind}') as folder:
            scene = Scene(folder)
            expect_ended(scene.run('extract', '-s', OTHER[kind], f'{kind}.caibx', 'out'), scene.missing(kind))
        with cases.case(f'bytes under an id of the other digest are damaged for an index of {kind}') as folder:
            scene = Scene(folder, 1)
            name = DIGEST_OF[OTHER[kind]](b'abc')
            formats.write_index(scene.path('a.caibx'), formats.Index([(3, name)], FLAGS[kind]))
            formats.write_chunk(scene.path('st'), name, b'abc')
            text = f'chunk {name.hex()} of entry 0 is damaged in store 0'
            expect_ended(scene.run('extract', '-k', '-s', 'st', 'a.caibx', 'o'), text, what='extract')
            expect_ended(scene.run('cache', '-s', 'st', '-c', 'none', 'a.caibx'), text, what='cache')
            scene.write('abc', b'abc')
            expect_ended(scene.run('verify-index', 'a.caibx', 'abc'),
                         f'entry 0 has the name {DIGEST_OF[kind](b"abc").hex()}')


def seeds(cases):
    for kind in FLAGS:
        other = OTHER[kind]
        with cases.case(f'a seed is read by the digest of the index that is extracted, {kind}') as folder:
            scene = Scene(folder)
            shutil.copy(scene.path('img'), scene.path('seed'))
            # Its flags say the other digest, and its ids are those of the index that is extracted.
            formats.write_index(scene.path('seed.caibx'),
                                formats.Index(scene.index[kind].entries, FLAGS[other]))
            scene.extracts(kind, '--seed', 'seed.caibx', store='none')
            # Flags and ids of the other digest: no id of it is wanted.
            formats.write_index(scene.path('seed.caibx'), scene.index[other])
            ended = scene.run('extract', '-s', 'none', '--seed', 'seed.caibx', f'{kind}.caibx', 'out')
            expect_ended(ended, scene.missing(kind))
            scene.extracts(kind, '--seed', 'seed.caibx')


def caches(cases):
    for workers in ('1', '4'):
        with cases.case(f'one cache keeps chunks by both digests, -n {workers}') as folder:
            scene = Scene(folder)
            os.mkdir(scene.path('near'))
            for kind in FLAGS:
                scene.extracts(kind, '-n', workers, '-c', 'near')
            expect_files(scene.path('near'), scene.files(*FLAGS), 'after both')
            for kind in FLAGS:
                scene.extracts(kind, '-n', workers, '-c', 'near', store='none')
        with cases.case(f'cache takes indexes of both digests at once, -n {workers}') as folder:
            scene = Scene(folder)
            os.mkdir(scene.path('near'))
            words = ['cache', '-n', workers, '-s', 'sha256', '-s', 'sha512-256', '-c', 'near']
            indexes = [f'{kind}.caibx' for kind in [*FLAGS, *FLAGS]]
            expect_ended(scene.run(*words, *indexes), what='cache')
            expect_files(scene.path('near'), scene.files(*FLAGS), 'after cache')
            for kind in FLAGS:
                # What a chunk of the other digest would be if it stood under this id.
                name = DIGEST_OF[kind](scene.pieces[5])
                formats.write_chunk(scene.path('near'), name, scene.pieces[6])
                expect_ended(scene.run(*words, *indexes), what='cache over a damaged chunk')
                expect_files(scene.path('near'), scene.files(*FLAGS), 'after the chunk was put right')


def verifying(cases):
    for kind in FLAGS:
        with cases.case(f'verify --digest {kind} of a store with chunks by both') as folder:
            scene = Scene(folder)
            scene.both('st')
            before = snapshot(folder)
            wrong = sorted({name for _, name in scene.index[OTHER[kind]].entries})
            text = ''.join(f'damaged {name.hex()}\n' for name in wrong)
            words = ['verify', '--digest', kind, '-s', 'st']
            expect_ended(scene.run(*words), f'damaged chunks left: {len(wrong)}', text)
            expect_untouched(before, snapshot(folder))
            expect_ended(scene.run(*words, '-r'), out=text.replace('damaged', 'removed'))
            expect_files(scene.path('st'), scene.files(kind), f'after verify -r by {kind}')
            expect_ended(scene.run(*words))


def replies(server, *requests):
    """What the server sends for these requests on one connection."""
    with server.connect() as peer:
        peer.sendall(b''.join(requests))
        peer.shutdown(socket.SHUT_WR)
        got = b''
        while piece := peer.recv(65536):
            got += piece
    return got


def target(name):
    return '/' + formats.path_in_store(name)


def served(cases):
    ok, stored = b'HTTP/1.1 200 OK\r\nContent-Length: 3\r\n\r\nabc', b'HTTP/1.1 200 OK\r\nContent-Length: 0\r\n\r\n'
    bad = b'HTTP/1.1 400 Bad Request\r\nContent-Length: 0\r\n\r\n'
    absent = b'HTTP/1.1 404 Not Found\r\nContent-Length: 0\r\n\r\n'
    for workers in ('1', '4'):
        for kind in FLAGS:
            with cases.case(f'chunk-server --digest {kind} -n {workers}') as folder:
                own, strange = (DIGEST_OF[one](b'abc') for one in (kind, OTHER[kind]))
                os.mkdir(os.path.join(folder, 'st'))
                put = {name: request('PUT', target(name), 'Content-Length: 3', body=b'abc') for name in (own, strange)}
                get = {name: request('GET', target(name)) for name in (own, strange)}
                with servers.ChunkServer(folder, '-w', '-n', workers, '--digest', kind) as server:
                    expect_equal(replies(server, put[strange], get[strange], put[own], get[own]),
                                 bad + absent + stored + ok, 'the replies')
                    expect_files(os.path.join(folder, 'st'), {formats.path_in_store(own): b'abc'}, 'after the requests')
                    # A chunk of the other digest that stands there is no chunk for this server.
                    formats.write_chunk(os.path.join(folder, 'st'), strange, b'abc')
                    expect_equal(replies(server, get[strange], get[own]), absent + ok, 'the replies')
    for kind in FLAGS:
        with cases.case(f'extract, make and chop by {kind} from and to servers of either digest') as folder:
            scene = Scene(folder)
            os.mkdir(scene.path('made'))
            with servers.ChunkServer(folder, '--digest', kind, store=kind) as right, \
                    servers.ChunkServer(folder, '--digest', OTHER[kind], store=kind) as wrong, \
                    servers.ChunkServer(folder, '-w', '--digest', kind, store='made') as taking:
                scene.extracts(kind, store=right.url())
                ended = scene.run('extract', '-s', wrong.url(), f'{kind}.caibx', 'out')
                expect_ended(ended, scene.missing(kind))
                expect_ended(scene.run('chop', '-s', taking.url(), f'{kind}.caibx', 'img'), what='chop')
                expect_files(scene.path('made'), scene.files(kind), 'after chop')
                expect_ended(scene.run('make', '--digest', kind, '-s', taking.url(), 'a.caibx', 'img'), what='make')
                expect_ended(scene.run('make', '--digest', OTHER[kind], '-s', taking.url(), 'b.caibx', 'img'),
                             'store 0 failed')


def words(cases):
    with cases.case('values of --digest, and commands that don\'t take it') as folder:
        for said, text in (
                (['make', '--digest', 'md5', '-s', 'st', 'a', 'b'], 'word 2: BadDigest'),
                (['make', '--digest', '', '-s', 'st', 'a', 'b'], 'word 2: BadDigest'),
                (['verify', '-s', 'st', '--digest'], 'word 4: NoValue'),
                (['demo', '--digest', 'sha256', '--digest', 'sha256', '7', '1'], 'word 3: TooMany'),
                (['extract', '--digest', 'sha256', '-s', 'st', 'a', 'b'], 'word 1: UnknownOption'),
                (['chop', '--digest', 'sha256', '-s', 'st', 'a', 'b'], 'word 1: UnknownOption'),
        ):
            expect_ended(program.run(said, folder), text, what=said)


def by_casync(cases):
    for what, write in cutting.REAL_IMAGES:
        for kind in FLAGS:
            with cases.case(f'casync make --digest={kind} writes the index of {what} that make writes') as folder:
                if shutil.which('casync') is None:
                    raise Skip('casync isn\'t installed')
                write(os.path.join(folder, 'img'))
                subprocess.run(['casync', 'make', '--store=theirs', f'--digest={kind}', '--exclude-file=no',
                                'theirs.caibx', 'img'], cwd=folder, check=True, stdin=subprocess.DEVNULL,
                               stdout=subprocess.DEVNULL)
                os.mkdir(os.path.join(folder, 'ours'))
                made = program.run(['make', '--digest', kind, '-s', 'ours', 'ours.caibx', 'img'], folder)
                expect_ended(made, what='make')
                ours, theirs = (file_bytes(os.path.join(folder, f'{whose}.caibx')) for whose in ('ours', 'theirs'))
                expect(ours == theirs, 'the indexes differ')


def unpack(packed, folder):
    """Writes the chunks of a store that casync filled with `--compression=gzip` unpacked, each under its id."""
    for root, _, names in os.walk(packed):
        for name in names:
            stem, suffix = os.path.splitext(name)
            expect_equal(suffix, '.cacnk', 'the suffix of a chunk file of casync')
            inner = os.path.join(folder, os.path.relpath(root, packed))
            os.makedirs(inner, exist_ok=True)
            with open(os.path.join(inner, stem), 'wb') as file:
                file.write(gzip.decompress(file_bytes(os.path.join(root, name))))


def from_casync(cases):
    for kind in FLAGS:
        with cases.case(f'extract reads the index and the unpacked chunks of casync make --digest={kind}') as folder:
            if shutil.which('casync') is None:
                raise Skip('casync isn\'t installed')
            image = random.Random(11).randbytes(3_000_000) + bytes(500_000)
            with open(os.path.join(folder, 'img'), 'wb') as file:
                file.write(image)
            subprocess.run(['casync', 'make', '--store=packed', f'--digest={kind}', '--compression=gzip',
                            '--exclude-file=no', 'theirs.caibx', 'img'], cwd=folder, check=True,
                           stdin=subprocess.DEVNULL, stdout=subprocess.DEVNULL)
            unpack(os.path.join(folder, 'packed'), os.path.join(folder, 'plain'))
            ended = program.run(['extract', '-s', 'plain', 'theirs.caibx', 'out'], folder)
            expect_ended(ended, what='extract')
            expect(file_bytes(os.path.join(folder, 'out')) == image, 'the output isn\'t the image')
            checked = program.run(['verify', '--digest', kind, '-s', 'plain'], folder)
            expect_ended(checked, what='verify')


def main():
    needs_program('digests')
    cases = Cases('digests')
    for group in (vectors, making, reading, seeds, caches, verifying, served, words, by_casync,
                  from_casync):
        group(cases)
    return cases.end()


if __name__ == '__main__':
    sys.exit(main())
