#!/usr/bin/env python3
"""`desync extract -n N` with one worker and with several: how it ends, what OUT holds then, and how servers are asked.

    tests/workers.py                          500 scenes
    tests/workers.py --scenes N --seed S

A scene is an index with its old output, stores and seeds, of which some chunks are damaged, absent, or folders that
can't be read. In half of the scenes each read, or each write, that meets a certain byte of a file fails. A scene is
extracted by 1, 2, 3, 10 and 32 workers, which must end with the same line and leave the same bytes.
Servers of this script count what each connection asks for, and hold back replies until as many connections wait as
there are workers.
"""

import argparse
import collections
import contextlib
import errno
import http.server
import os
import random
import re
import resource
import socketserver
import sys
import threading

import failing
import formats
import program
from checks import Cases, Skip, expect, expect_ended, expect_equal, file_bytes, files_of, needs_program, put_file

CREWS = (1, 2, 3, 10, 32)
INDEX, OUT = 'a.caibx', 'o'
SECONDS = 20
MIB = 1 << 20


def path_of(folder, name):
    return os.path.join(folder, name)


def extract(folder, count, *words, **more):
    return program.run(['extract', '-n', str(count), *words, INDEX, OUT], folder, **more)


# ---- scenes

class Scene:
    """What an extraction finds, by chance: its words, and the files of its folder."""

    def __init__(self, folder, chance):
        self.folder = folder
        self.chance = chance
        self.pieces = [chance.randbytes(chance.choice((1, 7, 60, 300))) for _ in range(chance.randint(1, 9))]
        self.pieces.append(bytes(chance.randint(1, 50)))
        self.image = [chance.choice(self.pieces) for _ in range(chance.randint(0, 24))]
        formats.write_index(path_of(folder, INDEX), formats.index_of_pieces(self.image))
        self.words = ['-k'] * chance.randint(0, 1)
        for number in range(chance.randint(1, 3)):
            self.write_store(f'st{number}')
        for number in range(chance.choice((0, 0, 1, 2))):
            self.write_seed(f'seed{number}')
        self.old = self.old_output()
        # Which calls fail whenever they meet this byte of a file.
        self.call = chance.choice(('pread', 'pwrite', None, None))
        self.byte = chance.randrange(max(1, sum(map(len, self.image))))

    def write_store(self, name):
        """A folder of chunks: most are right."""
        store = path_of(self.folder, name)
        os.mkdir(store)
        self.words += ['-s', name]
        for piece in self.pieces:
            path = formats.chunk_path(store, formats.digest_of(piece))
            kind = self.chance.randint(0, 9)
            if kind < 6:
                put_file(path, piece)
            elif kind == 6:
                put_file(path, piece[:-1] + bytes([piece[-1] ^ 1]))
            elif kind == 7:
                os.makedirs(path)

    def write_seed(self, name):
        """An image with its index: some of its chunks are damaged, or its file is absent or a folder."""
        pieces = self.chance.choices(self.pieces, k=self.chance.randint(0, 6))
        formats.write_index(path_of(self.folder, f'{name}.caibx'), formats.index_of_pieces(pieces))
        self.words += ['--seed', f'{name}.caibx']
        kind = self.chance.randint(0, 9)
        if kind < 8:
            put_file(path_of(self.folder, name), self.spoiled(pieces))
        elif kind == 8:
            os.mkdir(path_of(self.folder, name))

    def spoiled(self, pieces):
        return b''.join(piece if self.chance.randint(0, 3) else bytes(len(piece)) for piece in pieces)

    def old_output(self):
        kind = self.chance.randint(0, 3)
        if kind == 0:
            return None
        old = self.spoiled(self.image) if kind < 3 else self.chance.randbytes(self.chance.randint(0, 900))
        return old[:len(old) - self.chance.randint(0, 40)] if kind == 2 else old

    def run(self, count, shim):
        """How it ends with this number of workers, and all files afterwards. Without a shim all calls are made."""
        with contextlib.suppress(FileNotFoundError):
            os.remove(path_of(self.folder, OUT))
        if self.old is not None:
            put_file(path_of(self.folder, OUT), self.old)
        environment = None
        if shim is not None and self.call is not None:
            environment = shim.environment(self.call, 0, errno.EIO, True, self.told(), byte=self.byte)
        ended = extract(self.folder, count, *self.words, environment=environment)
        return ended.status, ended.err, files_of(self.folder)

    def told(self):
        """Where the calls that have failed are listed: beside the folder, whose files are compared."""
        return f'{self.folder}.told'

    def kinds(self, line):
        """How the scene has ended, and which calls have failed."""
        ending = re.sub(rb'[0-9a-f]{64}|\d+', b'N', line).decode().strip().removeprefix('desync: ')
        failed = [f'{self.call} failed'] if file_bytes(self.told()) else []
        return [ending or 'done', *failed]


# What scenes come to, of some hundreds.
KINDS = ('done', 'chunk N of entry N is missing', 'chunk N of entry N is damaged in store N', 'store N failed',
         'the target failed', 'a.caibx: failed', 'pread failed', 'pwrite failed')


def random_scenes(cases, options, shim):
    seen = collections.Counter()
    try:
        failing_calls = shim()
    except Skip as why:
        cases.skip('the calls that fail in scenes', why)
        failing_calls = None
    for number in range(options.scenes):
        with cases.case(f'scene {number} of seed {options.seed}') as folder:
            scene = Scene(folder, random.Random(f'{options.seed} {number}'))
            alone = scene.run(1, failing_calls)
            seen.update(scene.kinds(alone[1]))
            expect(alone[0] in (0, 1), f'one worker ends with status {alone[0]}')
            if alone[0] == 0:
                expect_equal(alone[2].get(OUT), b''.join(scene.image), 'the output')
            for count in CREWS[1:]:
                for got, wanted, what in zip(scene.run(count, failing_calls), alone, ('status', 'line', 'files')):
                    expect(got == wanted, f'{what} with {count} workers: {got!r}, and with one: {wanted!r}')
    if options.scenes >= 500 and failing_calls is not None:
        with cases.case(f'{options.scenes} scenes come to all that a scene can'):
            for kind in KINDS:
                expect(seen[kind] >= 5, f'{seen[kind]} of {kind!r}: {seen}')
            expect_equal(sorted(set(seen) - set(KINDS)), [], 'what else scenes came to')


def small_images(cases):
    for count in CREWS:
        with cases.case(f'an image of no entry, {count} workers') as folder:
            put_file(path_of(folder, INDEX), formats.EMPTY_INDEX)
            os.mkdir(path_of(folder, 'st'))
            expect_ended(extract(folder, count, '-s', 'st'))
            expect_equal(file_bytes(path_of(folder, OUT)), b'', 'the output')
        with cases.case(f'an image of one entry, {count} workers') as folder:
            put_file(path_of(folder, INDEX), formats.ABC_INDEX)
            formats.write_chunk(path_of(folder, 'st'), formats.digest_of(b'abc'), b'abc')
            expect_ended(extract(folder, count, '-s', 'st'))
            expect_equal(file_bytes(path_of(folder, OUT)), b'abc', 'the output')


def neighbours(cases):
    """Entries that are alike stand in shards side by side: as many shards as entries, or four for each worker."""
    for count in CREWS:
        for size in (2, 3, 4, 5, 9, 33):
            with cases.case(f'{size} entries of two chunks in turn, {count} workers') as folder:
                pieces = [b'one', b'other'] * size
                image = b''.join(pieces[:size])
                lay_out(folder, pieces[:size])
                put_file(path_of(folder, OUT), b'ONE' + image[3:8] + b'O' * 30)
                with Chunks(pieces) as server:
                    expect_ended(extract(folder, count, '-k', '-s', server.url()))
                expect_equal(file_bytes(path_of(folder, OUT)), image, 'the output')
                wanted = [f'/{formats.path_in_store(formats.digest_of(b"one"))}']
                expect_equal(server.asked, wanted, 'what the server was asked for')


# ---- servers

class Chunks(socketserver.ThreadingMixIn, http.server.HTTPServer):
    """A server of these chunks that answers each connection in a thread of its own. `asked` has the path of each
    request. `before` is called with the path before the reply is sent: it may wait, and may answer a status. `most` is
    the most connections that were there at once, each from where it is accepted until its reply is about to be sent."""

    daemon_threads = True
    request_queue_size = 64

    def __init__(self, chunks, before=lambda path: None):
        self.paths = {f'/{formats.path_in_store(formats.digest_of(chunk))}': chunk for chunk in chunks}
        self.before = before
        self.asked = []
        self.here = self.most = 0
        self.lock = threading.Lock()
        super().__init__(('127.0.0.1', 0), Handler)

    def process_request(self, *connection):
        with self.lock:
            self.here += 1
            self.most = max(self.most, self.here)
        super().process_request(*connection)

    def url(self):
        return f'http://localhost:{self.server_address[1]}/'

    def __enter__(self):
        threading.Thread(target=self.serve_forever, args=(0.05,), daemon=True).start()
        return self

    def __exit__(self, *_):
        self.shutdown()
        self.server_close()


class Handler(http.server.BaseHTTPRequestHandler):
    protocol_version = 'HTTP/1.1'

    def do_GET(self):
        with self.server.lock:
            self.server.asked.append(self.path)
        status = self.server.before(self.path)
        chunk = self.server.paths.get(self.path)
        self.close_connection = True
        if status is None:
            status = 404 if chunk is None else 200
        body = chunk if status == 200 else b''
        with self.server.lock:
            self.server.here -= 1
        self.send_response(status)
        self.send_header('Content-Length', str(len(body)))
        self.end_headers()
        self.wfile.write(body)

    def log_message(self, *_):
        pass


def image_of(count, seed=34):
    chance = random.Random(seed)
    return [chance.randbytes(400) for _ in range(count)]


def lay_out(folder, pieces):
    formats.write_index(path_of(folder, INDEX), formats.index_of_pieces(pieces))


def lay_out_store(folder, pieces):
    """An index of these pieces, and a folder that has them all."""
    lay_out(folder, pieces)
    for piece in pieces:
        formats.write_chunk(path_of(folder, 'st'), formats.digest_of(piece), piece)


class Gate:
    """Holds callers back until `count` of them wait at once, for at most some seconds. Then it is open for all."""

    def __init__(self, count):
        self.barrier = threading.Barrier(count)
        self.passed = False

    def __call__(self, path):
        if not self.passed:
            try:
                self.barrier.wait(SECONDS)
                self.passed = True
            except threading.BrokenBarrierError:
                pass


def workers_at_once(cases):
    for count in (*CREWS, 4):
        with cases.case(f'{count} workers wait for a server at once, each with one connection') as folder:
            pieces = image_of(max(40, 2 * count))
            lay_out(folder, pieces)
            gate = Gate(count)
            with Chunks(pieces, gate) as server:
                expect_ended(extract(folder, count, '-k', '-s', server.url()))
            expect(gate.passed, f'no {count} connections waited at once')
            expect_equal(server.most, count, 'the greatest number of connections at once')
            expect_equal(file_bytes(path_of(folder, OUT)), b''.join(pieces), 'the output')
            expect_equal(sorted(server.asked), sorted(server.paths), 'what the server was asked for')
    with cases.case('4 workers: the first request is answered when a second connection has asked') as folder:
        pieces = image_of(40)
        lay_out(folder, pieces)
        gate = Gate(2)
        with Chunks(pieces, gate) as server:
            expect_ended(extract(folder, 4, '-k', '-s', server.url()))
        expect(gate.passed, f'no second connection asked in {SECONDS} seconds')
        expect_equal(file_bytes(path_of(folder, OUT)), b''.join(pieces), 'the output')


def asks_are_counted(cases):
    for count in CREWS:
        with cases.case(f'each different chunk is asked for once, a missing one twice, {count} workers') as folder:
            pieces = image_of(30)
            lay_out(folder, pieces + pieces[:10] + [bytes(70)])
            with Chunks(pieces[1:]) as server:
                ended = extract(folder, count, '-k', '-s', server.url())
            name = formats.digest_of(pieces[0])
            expect_ended(ended, f'chunk {name.hex()} of entry 0 is missing')
            paths = [f'/{formats.path_in_store(formats.digest_of(piece))}' for piece in pieces]
            zeros = f'/{formats.path_in_store(formats.digest_of(bytes(70)))}'
            expect_equal(sorted(path for path in server.asked if path != zeros), sorted(paths + paths[:1]),
                         'what the server was asked for')
            expect(zeros not in server.asked, 'zeros were asked for')
        with cases.case(f'what OUT and a seed have isn\'t asked for, {count} workers') as folder:
            pieces = image_of(30)
            lay_out(folder, pieces)
            put_file(path_of(folder, OUT), b''.join(pieces[:10]) + bytes(4000) + b''.join(pieces[20:25]))
            formats.write_index(path_of(folder, 'seed.caibx'), formats.index_of_pieces(pieces[10:15]))
            put_file(path_of(folder, 'seed'), b''.join(pieces[10:15]))
            with Chunks(pieces) as server:
                expect_ended(extract(folder, count, '-k', '-s', server.url(), '--seed', 'seed.caibx'))
            needed = pieces[15:20] + pieces[25:]
            expect_equal(sorted(server.asked),
                         sorted(f'/{formats.path_in_store(formats.digest_of(piece))}' for piece in needed),
                         'what the server was asked for')


def failures_of_one_worker(cases):
    with cases.case('a server fails once, in one worker') as folder:
        pieces = image_of(20)
        lay_out(folder, pieces)
        broken = f'/{formats.path_in_store(formats.digest_of(pieces[7]))}'
        failed = []

        def once(path):
            if path == broken and not failed:
                failed.append(path)
                return 500
            return None

        with Chunks(pieces, once) as server:
            expect_ended(extract(folder, 4, '-s', server.url()))
        expect_equal(file_bytes(path_of(folder, OUT)), b''.join(pieces), 'the output')
        expect_equal(server.asked.count(broken), 2, 'how often the chunk was asked for')
    for worker in range(4):
        with cases.case(f'a server fails for all that worker {worker} of 4 asks for at first') as folder:
            pieces = image_of(20)
            lay_out(folder, pieces)
            # No two chunks are alike, so each entry is a want, and each fourth one is dealt to this worker.
            broken = {f'/{formats.path_in_store(formats.digest_of(piece))}' for piece in pieces[worker::4]}
            left = set(broken)

            def at_first(path):
                if path in left:
                    left.remove(path)
                    return 500
                return None

            with Chunks(pieces, at_first) as server:
                expect_ended(extract(folder, 4, '-k', '-s', server.url()))
            expect_equal(file_bytes(path_of(folder, OUT)), b''.join(pieces), 'the output')
            expect_equal(sorted(server.asked), sorted([*server.paths, *broken]), 'what the server was asked for')
    with cases.case('a server always fails for one chunk') as folder:
        pieces = image_of(20)
        lay_out(folder, pieces)
        broken = f'/{formats.path_in_store(formats.digest_of(pieces[7]))}'
        with Chunks(pieces, lambda path: 500 if path == broken else None) as server:
            ended = extract(folder, 4, '-k', '-s', server.url())
        expect_ended(ended, 'store 0 failed')
        wanted = b''.join(bytes(400) if number == 7 else piece for number, piece in enumerate(pieces))
        expect_equal(file_bytes(path_of(folder, OUT)), wanted, 'the output')


# ---- calls that fail

def calls_of_one_thread(cases, shim):
    """All calls of one kind fail in one thread alone: 0 is the program's first one, which makes the second pass. What
    another thread doesn't get or write, that one does in the end. A thread may come too late to have a share."""
    pieces = image_of(20)
    failed = 0
    for call, thread in [(call, thread) for call in ('open', 'pread', 'pwrite') for thread in range(1, 4)]:
        with cases.case(f'{call} always fails in thread {thread} alone, 4 workers') as folder:
            lay_out_store(folder, pieces)
            told = path_of(folder, 'told')
            environment = shim().environment(call, 0, errno.EIO, True, told, thread=thread)
            expect_ended(extract(folder, 4, '-k', '-s', 'st', environment=environment))
            expect_equal(file_bytes(path_of(folder, OUT)), b''.join(pieces), 'the output')
            failed += file_bytes(told) is not None
    with cases.case('pwrite always fails in the first thread alone, 4 workers') as folder:
        lay_out_store(folder, pieces)
        environment = shim().environment('pwrite', 0, errno.EIO, True, path_of(folder, 'told'), thread=0)
        ended = extract(folder, 4, '-k', '-s', 'st', environment=environment)
        left = file_bytes(path_of(folder, OUT))
        # What is dealt to a worker is lacking where the worker has had that thread: each fourth chunk.
        found = [left[400 * number:][:400] == piece for number, piece in enumerate(pieces)]
        expect_ended(ended, '' if all(found) else 'the target failed')
        wanted = b''.join(piece if found[number % 4] else bytes(400) for number, piece in enumerate(pieces))
        expect_equal(left, wanted, 'the output')
        failed += 1
    with cases.case('some of these calls have failed'):
        shim()
        expect(failed > 1, 'no thread but the first one was in time for a share')


def failing_writes(cases, shim):
    pieces = image_of(6)
    wanted = b''.join(pieces)
    for at in range(2 * len(pieces)):
        with cases.case(f'write {at} of OUT fails once, 4 workers') as folder:
            lay_out_store(folder, pieces)
            environment = shim().environment('pwrite', at, errno.EIO, False, path_of(folder, 'told'))
            ended = extract(folder, 4, '-k', '-s', 'st', environment=environment)
            expect_ended(ended)
            expect_equal(file_bytes(path_of(folder, OUT)), wanted, 'the output')
        with cases.case(f'write {at} of OUT and all after it fail, 4 workers') as folder:
            lay_out_store(folder, pieces)
            environment = shim().environment('pwrite', at, errno.EIO, True, path_of(folder, 'told'))
            ended = extract(folder, 4, '-k', '-s', 'st', environment=environment)
            if at < len(pieces):
                expect_ended(ended, 'the target failed')
            left = file_bytes(path_of(folder, OUT))
            for number, piece in enumerate(pieces):
                expect(left[400 * number:400 * number + 400] in (piece, bytes(400)), f'entry {number} is another')


def threads_that_do_not_start(cases, shim):
    for at in range(6):
        with cases.case(f'thread {at} and all after it can\'t be started, 4 workers') as folder:
            pieces = image_of(20)
            lay_out_store(folder, pieces)
            environment = shim().environment('thread', at, errno.EAGAIN, True, path_of(folder, 'told'))
            expect_ended(extract(folder, 4, '-s', 'st', environment=environment))
            expect_equal(file_bytes(path_of(folder, OUT)), b''.join(pieces), 'the output')


def few_threads(cases):
    """The user may have so many threads, of which one is the program's first."""
    pieces = image_of(80)
    for most in (1, 2, 3):
        with cases.case(f'{most} threads may be there, 32 workers') as folder:
            lay_out_store(folder, pieces)
            os.chmod(folder, 0o777)
            words = ['extract', '-n', '32', '-s', 'st', INDEX, OUT]
            expect_ended(program.run_without_rights(words, folder, lower=lambda: limit(resource.RLIMIT_NPROC, most)))
            expect_equal(file_bytes(path_of(folder, OUT)), b''.join(pieces), 'the output')


def limit(kind, most):
    resource.setrlimit(kind, (most, most))


def little_space(cases):
    """32 workers in as much address space as one needs, and in more. Threads that were started may have taken all of
    it, and then the run may say so."""
    pieces = image_of(80)

    def run_in(folder, count, space):
        with contextlib.suppress(FileNotFoundError):
            os.remove(path_of(folder, OUT))
        return extract(folder, count, '-k', '-s', 'st', lower=lambda: limit(resource.RLIMIT_AS, space))

    with cases.case('32 workers in little address space') as folder:
        lay_out_store(folder, pieces)
        least = next((space for space in range(64) if run_in(folder, 1, space * MIB).status == 0), None)
        expect(least is not None, 'one worker isn\'t done in 64 MiB')
        # No thread has its stack there.
        expect_ended(run_in(folder, 32, least * MIB))
        for space in (*range(least, least + 20), *range(least + 20, 300, 10)):
            ended = run_in(folder, 32, space * MIB)
            expect_ended(ended, 'no memory' if ended.status else '', what=f'the run in {space} MiB')
            expect(ended.status or file_bytes(path_of(folder, OUT)) == b''.join(pieces), 'the output is another')
            expect_ended(run_in(folder, 1, space * MIB))


def many_seeds(cases):
    with cases.case('64 seeds, 32 workers and 1,024 files open at once') as folder:
        pieces = image_of(64)
        lay_out(folder, pieces)
        os.mkdir(path_of(folder, 'st'))
        words = ['-s', 'st']
        for number, piece in enumerate(pieces):
            formats.write_index(path_of(folder, f'{number}.caibx'), formats.index_of_pieces([piece]))
            put_file(path_of(folder, str(number)), piece)
            words += ['--seed', f'{number}.caibx']
        expect_ended(extract(folder, 32, *words, lower=lambda: limit(resource.RLIMIT_NOFILE, 1024)))
        expect_equal(file_bytes(path_of(folder, OUT)), b''.join(pieces), 'the output')


def compiled(top):
    """Answers a function that gives the library that makes calls fail, which is compiled once. Where it can't be, the
    function raises why."""
    folder = os.path.join(top, 'shim')
    os.mkdir(folder)
    failing.lay_out(folder)
    try:
        made, lacks = failing.Shim(folder), None
    except Skip as why:
        made, lacks = None, why

    def shim():
        if lacks is not None:
            raise lacks
        return made
    return shim


def main():
    needs_program('workers')
    parser = argparse.ArgumentParser(description=__doc__)
    parser.add_argument('--scenes', type=int, default=500)
    parser.add_argument('--seed', type=int, default=34)
    options = parser.parse_args()
    cases = Cases('workers')
    shim = compiled(cases.top)
    random_scenes(cases, options, shim)
    small_images(cases)
    neighbours(cases)
    workers_at_once(cases)
    asks_are_counted(cases)
    failures_of_one_worker(cases)
    failing_writes(cases, shim)
    calls_of_one_thread(cases, shim)
    few_threads(cases)
    little_space(cases)
    threads_that_do_not_start(cases, shim)
    many_seeds(cases)
    sys.exit(cases.end())


if __name__ == '__main__':
    main()
