#!/usr/bin/env python3
"""`desync chunk-server -c`: chunks are served from a cache, and from stores where the cache doesn't give them.

The stores are folders, nginx where it is installed, and chunk servers behind one that notes each request and may end
them. All listen on the loopback interface at free ports. The replies are spelled by tests/replies.py.
"""

import collections
import contextlib
import itertools
import os
import resource
import signal
import sys
import threading

import failing
import formats
import program
import servers
import workers
from checks import (DAMAGES, Cases, Skip, expect, expect_ended, expect_equal, expect_files, file_bytes, files_of,
                    needs_program, put_file)
from groups import (CREWS, FAILED, PIECES, answering, expect_bytes, expect_passed_over, fill_up, group, image_of,
                    mirror, small_disk, stored, times)
from http_stores import Image
from replies import (ABC, GET_ABC, GIVES_ABC, NOTHING, PATH, Wanted, path_of, put, refused, request, said_to,
                     to_the_end)
from servers import ChunkServer

CLIENTS = 32
NAME = formats.digest_of(ABC)
STRANGERS = {'notes.txt': b'notes', os.path.join('0000', 'other.cacnk'): b'compressed'}
SECONDS = 20


def proxy(folder, *words, store='st', **more):
    return ChunkServer(folder, '-c', 'ca', *words, store=store, **more)


def lay_out(folder, *, st=ABC, ca=None):
    """The store `st` and the cache `ca` with these bytes under the id of "abc", or without a file."""
    for name, held in (('st', st), ('ca', ca)):
        os.mkdir(os.path.join(folder, name))
        if held is not None:
            formats.write_chunk(os.path.join(folder, name), NAME, held)


def expect_cache(folder, *pieces, more=()):
    """The cache holds just these chunks, and other files."""
    wanted = {formats.path_in_store(formats.digest_of(piece)): piece for piece in pieces}
    expect_files(os.path.join(folder, 'ca'), {**wanted, **dict(more)}, 'in the cache')


# One chunk

HEAD_ABC, HEADS_ABC = request('HEAD', PATH), Wanted(200, length=3)


def one_chunk(cases, count):
    words = ['-n', str(count)]
    with cases.case(f'a chunk is asked for twice, -n {count}') as folder:
        lay_out(folder)
        with servers.store(os.path.join(folder, 'st')) as origin, proxy(folder, *words, store=origin.url()) as server:
            expect_equal(said_to(server, GET_ABC * 2), GIVES_ABC.bytes * 2, 'the replies')
            expect_cache(folder, ABC)
            for _ in range(2 * count):
                expect_equal(said_to(server, GET_ABC), GIVES_ABC.bytes, 'the reply on another connection')
            expect_equal(origin.asked, [('GET', PATH)], 'what the store was asked')
    with cases.case(f'a chunk is asked for with HEAD, and then with GET, -n {count}') as folder:
        lay_out(folder)
        with servers.store(os.path.join(folder, 'st')) as origin, proxy(folder, *words, store=origin.url()) as server:
            expect_equal(said_to(server, HEAD_ABC), HEADS_ABC.bytes, 'the reply to HEAD')
            expect_cache(folder, ABC)
            expect_equal(said_to(server, GET_ABC), GIVES_ABC.bytes, 'the reply to GET')
            expect_equal(origin.asked, [('GET', PATH)], 'what the store was asked')
    for what, change in DAMAGES.items():
        for sent, wanted in ((GET_ABC, GIVES_ABC), (HEAD_ABC, HEADS_ABC)):
            with cases.case(f'the cache holds {what}, and is put right, -n {count}') as folder:
                lay_out(folder, ca=change(ABC))
                with proxy(folder, *words) as server:
                    expect_equal(said_to(server, sent), wanted.bytes, 'the reply')
                    expect_cache(folder, ABC)
    with cases.case(f'what the cache holds rightly is given without the store, -n {count}') as folder:
        lay_out(folder, st=None, ca=ABC)
        with servers.Server(lambda peer, *_: peer.sendall(servers.reply(500))) as origin, \
                proxy(folder, *words, store=origin.url()) as server:
            expect_equal(said_to(server, GET_ABC + HEAD_ABC), GIVES_ABC.bytes + HEADS_ABC.bytes, 'the replies')
            expect_equal(origin.asked, [], 'what the store was asked')
    for what, held, status in (('lacks it', None, 404), ('holds another', b'abX', 404), ('holds more', b'abcd', 404),
                               ('can\'t be read', 'a folder', 500)):
        for kept in (None, b'abX'):
            with cases.case(f'the store {what}, and the cache has {kept}, -n {count}') as folder:
                lay_out(folder, st=None if status == 500 else held, ca=kept)
                if status == 500:
                    os.makedirs(formats.chunk_path(os.path.join(folder, 'st'), NAME))
                before = files_of(folder)
                with proxy(folder, *words) as server:
                    for sent in (GET_ABC, HEAD_ABC):
                        expect_equal(said_to(server, sent), Wanted(status).bytes, 'the reply')
                expect_equal(files_of(folder), before, 'the files')
    with cases.case(f'nothing is taken, -n {count}') as folder:
        lay_out(folder)
        before = files_of(folder)
        with proxy(folder, *words) as server:
            for sent in (put(PATH, ABC), put(path_of(b'new'), b'new'), put(PATH, b'abX')):
                expect_equal(said_to(server, sent), refused(405).bytes, 'the reply')
            for target in ('/', '/notes.txt', '/ca', PATH + 'x', path_of(b'lacking')):
                expect_equal(said_to(server, request('GET', target)), NOTHING.bytes, f'the reply to GET {target}')
            expect_equal(said_to(server, request('DELETE', PATH)), refused(405).bytes, 'the reply to DELETE')
        expect_equal(files_of(folder), before, 'the files')
    with cases.case(f'other files of the cache stay, -n {count}') as folder:
        lay_out(folder, ca=b'abX')
        for path, data in STRANGERS.items():
            put_file(os.path.join(folder, 'ca', path), data)
        with proxy(folder, *words) as server:
            expect_equal(said_to(server, GET_ABC), GIVES_ABC.bytes, 'the reply')
            expect_equal(said_to(server, request('GET', path_of(b'lacking'))), NOTHING.bytes, 'the other reply')
        expect_cache(folder, ABC, more=STRANGERS)
    with cases.case(f'the cache is the store too, -n {count}') as folder:
        lay_out(folder, st=None, ca=ABC)
        with proxy(folder, *words, store='ca') as server:
            expect_equal(said_to(server, GET_ABC), GIVES_ABC.bytes, 'the reply')
            expect_equal(said_to(server, request('GET', path_of(b'lacking'))), NOTHING.bytes, 'the other reply')
        expect_cache(folder, ABC)
    with cases.case(f'chunks that are named by SHA-256, -n {count}') as folder:
        name = formats.sha256_of(ABC)
        for store in ('st', 'ca'):
            os.mkdir(os.path.join(folder, store))
        formats.write_chunk(os.path.join(folder, 'st'), name, ABC)
        formats.write_chunk(os.path.join(folder, 'st'), NAME, ABC)
        with proxy(folder, '--digest', 'sha256', *words) as server:
            ask = request('GET', formats.chunk_path('/', name))
            expect_equal(said_to(server, ask + GET_ABC), GIVES_ABC.bytes + NOTHING.bytes, 'the replies')
        expect_files(os.path.join(folder, 'ca'), {formats.path_in_store(name): ABC}, 'in the cache')


def largest(cases):
    for size, status in ((formats.SIZE_LIMIT, 200), (formats.SIZE_LIMIT + 1, 404)):
        with cases.case(f'a chunk of {size} bytes') as folder:
            lay_out(folder, st=None)
            piece = bytes(size)
            formats.write_chunk(os.path.join(folder, 'st'), formats.digest_of(piece), piece)
            with proxy(folder) as server:
                got = said_to(server, request('GET', path_of(piece)))
                expect(got == (Wanted(200, piece) if status == 200 else NOTHING).bytes, f'it says {got[:80]}')
            expect_cache(folder, *([piece] if status == 200 else []))


# Before servers

@contextlib.contextmanager
def nginx_behind(image):
    """nginx over the store `all`, behind a front."""
    if servers.nginx_program() is None:
        raise Skip('nginx isn\'t installed')
    # nginx's worker may be another user.
    os.chmod(image.folder, 0o755)
    with servers.nginx(image.path('all'), image.path('nginx')) as port, servers.Front(port) as front:
        yield front


@contextlib.contextmanager
def chunks_behind(image):
    with ChunkServer(image.folder, store='all') as server, servers.Front(server.port) as front:
        yield front


ORIGINS = {'nginx': nginx_behind, 'chunk-server': chunks_behind}


def laid_out(folder, pieces=PIECES):
    image = Image(folder, pieces)
    os.rename(image.path('near'), image.path('ca'))
    return image


def before_servers(cases):
    for what, behind in ORIGINS.items():
        for count in CREWS:
            with cases.case(f'extract by a proxy before {what}, -n {count}') as folder:
                image = laid_out(folder)
                with behind(image) as origin, proxy(folder, '-n', str(count), store=origin.url()) as server:
                    for out in ('out', 'again'):
                        expect_ended(image.run('extract', '-s', server.url(), 'new.caibx', out))
                        image.expect_out(out)
                        expect_equal(sorted(origin.asked), sorted(image.asks()), f'what the origin was asked for {out}')
                    image.expect_store('ca')
        with cases.case(f'info, cat and cache by a proxy before {what}') as folder:
            image = laid_out(folder)
            os.mkdir(image.path('far'))
            with behind(image) as origin, proxy(folder, store=origin.url()) as server:
                ended = image.run('info', '-s', server.url(), 'new.caibx')
                expect_ended(ended, out=image.figures(PIECES))
                image.expect_store('ca')
                expect_equal(origin.asked, image.asks(), 'what the origin was asked')
                ended = image.run('cat', '-s', server.url(), 'new.caibx')
                expect_equal((ended.status, ended.out), (0, image.bytes), 'what cat prints')
                expect_ended(image.run('cache', '-s', server.url(), '-c', 'far', 'new.caibx'))
                image.expect_store('far')
                expect_equal(origin.asked, image.asks(), 'what the origin was asked afterwards')
    with cases.case('a proxy before a proxy') as folder:
        image = laid_out(folder)
        os.mkdir(image.path('far'))
        with chunks_behind(image) as origin, ChunkServer(folder, '-c', 'far', store=origin.url()) as middle, \
                proxy(folder, store=middle.url()) as server:
            expect_ended(image.run('extract', '-s', server.url(), 'new.caibx', 'out'))
            expect_equal(sorted(origin.asked), sorted(image.asks()), 'what the origin was asked')
        image.expect_out()
        image.expect_store('ca')
        image.expect_store('far')


def many_clients(cases):
    """Each client asks for each chunk once. So the origin is asked at most as often as there are chains where there are
    as many chains as clients; with one chain connections come one after the other."""
    for count, most in ((1, 1), (8, CLIENTS), (32, 32)):
        for what, behind in ORIGINS.items():
            with cases.case(f'{CLIENTS} clients at once by a proxy before {what}, -n {count}') as folder:
                image = laid_out(folder)
                with behind(image) as origin, proxy(folder, '-n', str(count), store=origin.url()) as server:
                    words = ['extract', '-n', '1', '-s', server.url(), 'new.caibx']
                    runs = [program.start([*words, f'out{number}'], folder) for number in range(CLIENTS)]
                    for run in runs:
                        expect_ended(program.ended(run))
                asked = collections.Counter(origin.asked)
                expect_equal(sorted(asked), sorted(image.asks()), 'which chunks the origin was asked for')
                expect(max(asked.values()) <= most, f'the origin was asked {max(asked.values())} times for one chunk')
                for number in range(CLIENTS):
                    image.expect_out(f'out{number}')
                image.expect_store('ca')
    with cases.case('clients of eight workers each by a proxy') as folder:
        image = laid_out(folder)
        with chunks_behind(image) as origin, proxy(folder, store=origin.url()) as server:
            words = ['extract', '-n', '8', '-s', server.url(), 'new.caibx']
            runs = [program.start([*words, f'out{number}'], folder) for number in range(8)]
            for run in runs:
                expect_ended(program.ended(run))
        for number in range(8):
            image.expect_out(f'out{number}')
        image.expect_store('ca')


class Slow(servers.Server):
    """A server of the store `all` that holds back each reply for the paths in `held` until `let_go` is set; `most` is
    the greatest number of requests at once."""

    def __init__(self, image, held=()):
        super().__init__(self._answer, at_once=True)
        self.image = image
        self.held = held
        self.arrived = threading.Semaphore(0)
        self.let_go = threading.Event()
        self.lock = threading.Lock()
        self.here = self.most = 0

    def _answer(self, peer, _method, path, _body):
        with self.lock:
            self.here += 1
            self.most = max(self.most, self.here)
        self.arrived.release()
        if path in self.held:
            self.let_go.wait(SECONDS)
        with self.lock:
            self.here -= 1
        peer.sendall(servers.reply(200, servers.file_at(self.image.path('all'), '', path)))


def side_by_side(cases):
    for count in (2, 8):
        with cases.case(f'what the cache has is served while a store is asked, -n {count}') as folder:
            image = laid_out(folder, 3)
            path = image.asks()[0][1]
            formats.write_chunk(image.path('ca'), image.names[1], image.pieces[1])
            with Slow(image, [path]) as origin, proxy(folder, '-n', str(count), store=origin.url()) as server, \
                    server.connect() as first:
                first.sendall(request('GET', path, 'Connection: close'))
                expect(origin.arrived.acquire(timeout=SECONDS), 'the store isn\'t asked')
                # On as many connections as there are chains and more, so that one has the chain that is asked.
                for _ in range(count + 1):
                    expect_equal(said_to(server, request('GET', path_of(image.pieces[1]))),
                                 Wanted(200, image.pieces[1]).bytes, 'the reply beside it')
                origin.let_go.set()
                expect_equal(to_the_end(first), Wanted(200, image.pieces[0], closes=True).bytes, 'the first reply')
                expect_equal(origin.asked, image.asks()[:1], 'what the store was asked')
        with cases.case(f'no more stores are asked at once than there are chains, -n {count}') as folder, \
                contextlib.ExitStack() as held:
            image = laid_out(folder)
            origin = held.enter_context(Slow(image, [path for _, path in image.asks()]))
            server = held.enter_context(proxy(folder, '-n', str(count), store=origin.url()))
            peers = [held.enter_context(server.connect()) for _ in range(16)]
            for peer, (_, path) in zip(peers, image.asks()):
                peer.sendall(request('GET', path, 'Connection: close'))
            for _ in range(count):
                expect(origin.arrived.acquire(timeout=SECONDS), 'not all chains are asked')
            expect(not origin.arrived.acquire(timeout=0.5), 'more stores are asked at once')
            origin.let_go.set()
            for peer, piece in zip(peers, image.pieces):
                expect(to_the_end(peer) == Wanted(200, piece, closes=True).bytes, 'another reply')
            expect_equal(origin.most, count, 'how many were asked at once')
        with cases.case(f'a chunk that several ask for at once, -n {count}') as folder, contextlib.ExitStack() as held:
            image = laid_out(folder, 1)
            path = image.asks()[0][1]
            origin = held.enter_context(Slow(image, [path]))
            server = held.enter_context(proxy(folder, '-n', str(count), store=origin.url()))
            peers = [held.enter_context(server.connect()) for _ in range(count)]
            for peer in peers:
                peer.sendall(request('GET', path, 'Connection: close'))
            expect(origin.arrived.acquire(timeout=SECONDS), 'the store isn\'t asked')
            origin.let_go.set()
            for peer in peers:
                expect(to_the_end(peer) == Wanted(200, image.bytes, closes=True).bytes, 'another reply')
            expect(1 <= len(origin.asked) <= count, f'the store was asked {len(origin.asked)} times')
            image.expect_store('ca')


# Stores that fail

def expect_replies(image, server, given, status):
    """The chunks of these paths are given, and for all others the server says the status."""
    for piece in image.pieces:
        path = path_of(piece)
        wanted = Wanted(200, piece) if path in given else Wanted(status)
        expect(said_to(server, request('GET', path)) == wanted.bytes, f'another reply for {path}')


def origin_ends(cases, count):
    words = ['-n', str(count)]
    with cases.case(f'the origin ends in the middle, -n {count}') as folder, contextlib.ExitStack() as held:
        image = laid_out(folder)
        origin = mirror(image, held, 13)
        with proxy(folder, *words, store=origin.url()) as server:
            expect_ended(image.run('extract', '-n', '1', '-k', '-s', server.url(), 'new.caibx', 'out'), FAILED)
            expect_bytes(image, image_of(image, lambda entry: entry < 13))
            image.expect_store('ca', 13)
            expect_replies(image, server, origin.given, 500)
            image.expect_store('ca', 13)
        # A proxy that is started anew has what its cache has.
        with proxy(folder, *words, store='none') as server:
            expect_replies(image, server, origin.given, 404)
    for what, spoil in (('lacks', os.remove), ('has damaged', lambda path: put_file(path, b'x'))):
        with cases.case(f'the origin {what} a chunk, and another is gone, -n {count}') as folder, \
                contextlib.ExitStack() as held:
            image = laid_out(folder)
            spoil(formats.chunk_path(image.path('all'), image.names[7]))
            origin = held.enter_context(servers.store(image.path('all')))
            gone = f'http://localhost:{servers.free_port()}'
            given = [path for number, (_, path) in enumerate(image.asks()) if number != 7]
            with proxy(folder, *words, store=origin.url()) as server:
                refusal = image.refusal('missing', 7)
                expect_ended(image.run('extract', '-k', '-s', server.url(), 'new.caibx', 'out'), refusal)
                expect_replies(image, server, given, 404)
            with proxy(folder, *words, *stored(gone), store=origin.url()) as server:
                expect_replies(image, server, given, 500)
            with proxy(folder, *words, *stored('none'), store=origin.url()) as server:
                expect_replies(image, server, given, 404)


def groups_and_retries(cases, count):
    words = ['-n', str(count)]
    for retries in (0, 2):
        with cases.case(f'the first of two origins ends, -n {count} -e {retries}') as folder, \
                contextlib.ExitStack() as held:
            image = laid_out(folder)
            first, second = mirror(image, held, 13), mirror(image, held)
            with proxy(folder, *words, '-e', str(retries), store=group(first, second)) as server:
                expect_ended(image.run('extract', '-n', '1', '-s', server.url(), 'new.caibx', 'out'))
                image.expect_out()
                # Each chain finds by itself that the first has ended.
                expect_passed_over(image, first, second.asked, count, retries)
            image.expect_store('ca')
    with cases.case(f'both origins of a group end, and a third stands behind them, -n {count}') as folder, \
            contextlib.ExitStack() as held:
        image = laid_out(folder)
        first, second, third = mirror(image, held, 5), mirror(image, held, 6), mirror(image, held)
        with proxy(folder, *words, '-e', '1', *stored(third.url()), store=group(first, second)) as server:
            expect_ended(image.run('extract', '-n', '1', '-s', server.url(), 'new.caibx', 'out'))
        image.expect_out()
        image.expect_store('ca')
        given = collections.Counter(path for front in (first, second, third) for path in front.given)
        expect_equal(given, collections.Counter(path for _, path in image.asks()), 'how often each chunk was given')
    for retries, status in ((1, 200), (0, 500)):
        with cases.case(f'the origin fails each second reply, -n {count} -e {retries}') as folder:
            image = laid_out(folder)
            with answering(image, lambda number: 500 if number % 2 else 200) as origin, \
                    proxy(folder, *words, '-e', str(retries), store=origin.url()) as server:
                had = [path_of(piece) for piece in (image.pieces if retries else image.pieces[::2])]
                expect_replies(image, server, had, status if status != 200 else 404)
                asks = image.asks()
                expect_equal(origin.asked, asks[:1] + times(asks[1:], 2) if retries else asks, 'what it was asked')
    with cases.case(f'an origin that has the chunk not isn\'t asked again, nor the next of its group, -n {count}') \
            as folder:
        image = laid_out(folder, 4)
        with servers.store(image.path('none')) as first, servers.store(image.path('all')) as second, \
                proxy(folder, *words, '-e', '3', store=f'{first.url()}|{second.url()}') as server:
            expect_replies(image, server, [], 404)
            expect_equal(first.asked, image.asks(), 'what the first was asked')
            expect_equal(second.asked, [], 'what the second was asked')


# Caches that take nothing

def full_disk(cases, count):
    words = ['-n', str(count)]
    with cases.case(f'the disk of the cache is full, -n {count}') as folder:
        image = Image(folder, PIECES)
        with small_disk(image.path('disk'), 1 << 20), chunks_behind(image) as origin:
            os.mkdir(image.path('disk/ca'))
            fill_up(image.path('disk/rest'))
            with ChunkServer(folder, '-c', 'disk/ca', *words, store=origin.url()) as server:
                for out in ('out', 'again'):
                    expect_ended(image.run('extract', '-s', server.url(), 'new.caibx', out))
                    image.expect_out(out)
                expect_equal(sorted(origin.asked), sorted(times(image.asks(), 2)), 'what the origin was asked')
                image.expect_store('disk/ca', 0)
                # Where there is room again, the cache takes what comes.
                os.remove(image.path('disk/rest'))
                expect_equal(said_to(server, request('GET', path_of(image.pieces[0]))),
                             Wanted(200, image.pieces[0]).bytes, 'the reply')
                image.expect_store('disk/ca', 1)
    with cases.case(f'no file of the cache may have more than 10,000 bytes, -n {count}') as folder:
        def lower():
            signal.signal(signal.SIGXFSZ, signal.SIG_IGN)
            resource.setrlimit(resource.RLIMIT_FSIZE, (10_000, 10_000))

        image = laid_out(folder)
        small = [piece for piece in image.pieces if len(piece) <= 10_000]
        expect(0 < len(small) < PIECES, 'there are no pieces of both kinds')
        with proxy(folder, *words, store='all', lower=lower) as server:
            for out in ('out', 'again'):
                expect_ended(image.run('extract', '-s', server.url(), 'new.caibx', out))
                image.expect_out(out)
        expect_cache(folder, *small)
    for what, lay in (('a folder stands where the chunk belongs', os.makedirs),
                      ('a file stands where its folder belongs', lambda path: put_file(os.path.dirname(path), b''))):
        with cases.case(f'{what} in the cache, -n {count}') as folder:
            lay_out(folder)
            lay(formats.chunk_path(os.path.join(folder, 'ca'), NAME))
            before = files_of(folder)
            with proxy(folder, *words) as server:
                for _ in range(2):
                    expect_equal(said_to(server, GET_ABC + HEAD_ABC), GIVES_ABC.bytes + HEADS_ABC.bytes, 'the replies')
            expect_equal(files_of(folder), before, 'the files')


# Calls that fail

SAID = [(GET_ABC, GIVES_ABC), (request('GET', path_of(b'lacking')), NOTHING), (HEAD_ABC, HEADS_ABC)]


def failing_calls(cases, count, shim):
    """One call fails, the next one in the next run. Where it is about the cache nothing is to be seen of it; where it
    is about the store a chunk isn't given. The next peer is served."""
    for call in ('open', 'pread', 'pwrite', 'mkdir', 'rename'):
        with cases.case(f'each {call} of a proxy fails once, -n {count}') as top:
            failed = []
            for at in range(60):
                told = [call_fails(os.path.join(top, f'{at}-{held}'), count, shim(), call, at, held)
                        for held in (None, 'abX')]
                failed += itertools.chain(*told)
                if not any(told):
                    break
            else:
                raise AssertionError('each run has failed')
            expect('ca' in failed, f'no {call} of the cache has failed')


def call_fails(folder, count, shim, call, at, held):
    """Answers what the failed call was about: `st` or `ca`."""
    os.mkdir(folder)
    lay_out(folder, ca=held and held.encode())
    sent, whole = (b''.join(parts) for parts in zip(*((said, wanted.bytes) for said, wanted in SAID)))
    told, error = f'{folder}.told', failing.HARD[call][at % len(failing.HARD[call])]
    environment = shim.environment(call, at, error, False, told)
    with proxy(folder, '-n', str(count), environment=environment) as server:
        got = said_to(server, sent)
        paths = (file_bytes(told) or b'').decode().splitlines()
        firsts = [os.path.relpath(os.path.join(folder, path), folder).split(os.sep)[0] for path in paths]
        expect(could_be(got) and ('st' in firsts or got == whole), f'{call} {at}, of {paths}: the replies are {got}')
        expect_equal(said_to(server, sent), whole, f'{call} {at}, of {paths}: the next replies')
        expect_cache(folder, ABC)
    return firsts


def could_be(got):
    """Whether these are the replies, where some say that the chunk isn't given."""
    fronts = {b''}
    for _, wanted in SAID:
        fronts = {front + said for front in fronts for said in (wanted.bytes, NOTHING.bytes, Wanted(500).bytes)}
    return got in fronts


# Words

def words(cases):
    listen = ['-l', f'127.0.0.1:{servers.free_port()}']
    for given, text in (
            (['-s', 'st', '-c', 'ca', *listen, '-w'], 'word 8: ReadOnly'),
            (['-w', '-c', 'ca', *listen, '-s', 'http://h/|x', '-e', '3'], 'word 10: ReadOnly'),
            (['-s', 'st', '-c', 'ca', '-w'], 'word 6: MissingOption'), (['-c', 'ca', *listen], 'word 5: MissingOption'),
            (['-s', 'st', '-c', 'ca'], 'word 5: MissingOption'), (['-s', 'st', '-c', '', *listen], 'word 4: Empty'),
            (['-s', 'st', '-c', 'ca', '-c', 'b', *listen], 'word 5: TooMany'),
            (['-s', 'st', '-s', 'b', *listen], 'word 3: TooMany'),
            (['-s', 'st', *listen, '-e', '1'], 'word 5: TooMany'),
            (['-e', '0', '-s', 'st', *listen], 'word 1: TooMany'), (['-s', 'st', '-e', '1'], 'word 3: TooMany'),
            (['-s', 'http://h/', *listen], 'word 2: NeedsFolder'), (['-s', 'a|b', *listen], 'word 2: NeedsFolder'),
            (['-s', 'a|b'], 'word 2: NeedsFolder'), (['-s', 'http://h/', '-l', 'x'], 'word 4: BadListen'),
            (['-s', 'a|', *listen], 'word 2: Empty'), (['-s', 'a|https://h/', *listen], 'word 2: BadLocation'),
            (['-s', 'st', '-e', '17', *listen], 'word 4: BadNumber'),
            (['-s', 'st', '-c', 'ca', '-e', '17', *listen], 'word 6: BadNumber'),
            (['-s', 'st', '-e', '1', '-e', '1', '-c', 'ca', *listen], 'word 5: TooMany'),
            (['-s', '|'.join('abcdefghijklmnopq'), '-c', 'ca', *listen], 'word 2: TooMany'),
            (['-s', 'far', '-c', 'near', *listen], 'far: no such folder'),
            (['-s', 'st', '-c', 'near', *listen], 'near: no such folder'),
            (['-s', 'st', '-s', 'http://h/|far', '-e', '16', '-c', 'near', *listen], 'far: no such folder'),
            ([*stored(*['st|st'] * 8), '-c', 'near', *listen], 'near: no such folder')):
        with cases.case(f'the words {" ".join(given)}') as folder:
            os.mkdir(os.path.join(folder, 'st'))
            os.mkdir(os.path.join(folder, 'ca'))
            expect_ended(program.run(['chunk-server', *given], folder), text)
            expect_equal(files_of(folder), {}, 'the files')
    with cases.case('an address that is in use') as folder:
        lay_out(folder)
        with proxy(folder) as server:
            expect_ended(program.run(server.words, folder), 'the listener failed')
            expect_equal(said_to(server, GET_ABC), GIVES_ABC.bytes, 'the reply')
    with cases.case('16 stores, of which the last has the chunk') as folder:
        lay_out(folder, st=None)
        names = [f's{number}' for number in range(16)]
        for name in names:
            os.mkdir(os.path.join(folder, name))
        formats.write_chunk(os.path.join(folder, 's15'), NAME, ABC)
        with proxy(folder, *stored(*names[1:]), store=names[0]) as server:
            expect_equal(said_to(server, GET_ABC), GIVES_ABC.bytes, 'the reply')
        expect_cache(folder, ABC)


def main():
    needs_program('proxy')
    cases = Cases('proxy')
    if b'--cache' not in program.run(['chunk-server', '--help'], program.TOP).out:
        with cases.case('chunk-server with a cache'):
            raise Skip('this program has no `chunk-server -c`')
        return cases.end()
    for count in CREWS:
        for part in (one_chunk, origin_ends, groups_and_retries, full_disk):
            part(cases, count)
    shim = workers.compiled(cases.top)
    for count in CREWS:
        failing_calls(cases, count, shim)
    for part in (largest, before_servers, many_clients, side_by_side, words):
        part(cases)
    return cases.end()


if __name__ == '__main__':
    sys.exit(main())
