#!/usr/bin/env python3
"""Stores over HTTP: what commands ask servers for, what they take from them, and how each wrong reply ends.

The servers listen on the loopback interface alone: Python's own, nginx where it is installed, and those of this script,
which answer as no server should. The runs that wait for a server that says nothing, which are a minute long, go on
beside the other cases.
"""

import concurrent.futures
import contextlib
import gzip
import os
import random
import socket
import struct
import sys

import formats
import program
import servers
from checks import Cases, Skip, expect, expect_ended, expect_equal, file_bytes, needs_program, snapshot
from servers import in_chunks, reply, to_the_end

FAILED = 'store 0 failed'
LIMIT = 16_384


class Image:
    """An image of a few random pieces with its index `new.caibx`; the store `all`, and `none` and `near`, which are
    empty."""

    def __init__(self, folder, pieces=20):
        chance = random.Random(8)
        self.folder = folder
        self.pieces = [chance.randbytes(chance.randint(2_000, 40_000)) for _ in range(pieces)]
        self.bytes = b''.join(self.pieces)
        self.index = formats.index_of_pieces(self.pieces)
        self.names = [name for _, name in self.index.entries]
        formats.write_chunks(self.path('all'), self.index, self.bytes)
        formats.write_index(self.path('new.caibx'), self.index)
        with open(self.path('image'), 'wb') as file:
            file.write(self.bytes)
        for name in ('near', 'none'):
            os.mkdir(self.path(name))

    def path(self, name):
        return os.path.join(self.folder, name)

    def run(self, *words):
        return program.run(words, self.folder)

    def extract(self, *stores, more=(), out='out'):
        """With one worker, so that chunks are asked for in order."""
        words = [word for store in stores for word in ('-s', store)]
        return self.run('extract', '-n', '1', *words, *more, 'new.caibx', out)

    def expect_out(self, out='out'):
        expect(file_bytes(self.path(out)) == self.bytes, f'{out} isn\'t the image')

    def expect_store(self, folder, pieces=None):
        """The folder has these chunks, all if they aren't told, and no other file."""
        chunks = {name.hex(): piece for name, piece in list(zip(self.names, self.pieces))[:pieces]}
        held = {name: os.path.join(path, name) for path, _, names in os.walk(self.path(folder)) for name in names}
        expect_equal(sorted(held), sorted(chunks), f'the list of files in {folder}')
        for name, piece in chunks.items():
            expect(file_bytes(held[name]) == piece, f'{name} has other bytes in {folder}')

    def refusal(self, why, entry=0):
        """The text where each entry has the same fault: None, `damaged`, `missing`, or a text of its own."""
        if why in ('damaged', 'missing'):
            return formats.refusal(entry, self.names[entry], why, 0)
        return why or ''

    def figures(self, held):
        return (f'{{"chunk-size-avg":65536,"chunk-size-max":262144,"chunk-size-min":16384,"in-store":{held},'
                f'"size":{len(self.bytes)},"total":{len(self.pieces)},"unique":{len(self.pieces)}}}\n')

    def asks(self, prefix='', method='GET'):
        return [(method, f'{prefix}/{name.hex()[:4]}/{name.hex()}') for name in self.names]


def files(folder, but=None):
    """What stands in a folder, but for the folder `but`: not its own times, which a temporary file moves."""
    return {path: seen for path, seen in snapshot(folder).items() if path != '.' and path.split(os.sep)[0] != but}


# Servers as they should be

def read(cases):
    for spelled, prefix in (('', ''), ('/', ''), ('/a/store', '/a/store'), ('/a/store/', '/a/store'),
                            ('/a%20b', '/a%20b')):
        with cases.case(f'extract from the URL with {spelled!r} behind the port') as folder:
            image = Image(folder)
            with servers.store(image.path('all'), prefix) as server:
                expect_ended(image.extract(server.url(spelled)))
                image.expect_out()
                expect_equal(server.asked, image.asks(prefix), 'what was asked')
                wanted = (f'GET {image.asks(prefix)[0][1]} HTTP/1.1\r\nHost: localhost:{server.port}\r\n'
                          'Accept-Encoding: identity\r\nConnection: close')
                expect_equal(server.heads[0].decode(), wanted, 'the first ask')
    with cases.case('extract from an address of version 6') as folder:
        image = Image(folder)
        try:
            server = servers.store(image.path('all'), host='::1')
        except OSError as why:
            raise Skip(f'the loopback interface has no address of version 6: {why}') from why
        with server:
            expect_ended(image.extract(f'http://[::1]:{server.port}'))
            image.expect_out()
            expect(f'\r\nHost: [::1]:{server.port}\r\n' in server.heads[0].decode(), f'the ask is {server.heads[0]}')
    with cases.case('extract and info from Python\'s server of static files') as folder:
        image = Image(folder)
        with servers.static(folder) as port:
            read_all(image, f'http://localhost:{port}/all')
    with cases.case('extract and info from nginx') as folder:
        image = Image(folder)
        with nginx(image) as port:
            read_all(image, f'http://localhost:{port}/all')
    with cases.case('a server with a half of the chunks, and a folder with the others') as folder:
        image = Image(folder)
        for name, piece in list(zip(image.names, image.pieces))[::2]:
            formats.write_chunk(image.path('none'), name, piece)
            os.remove(formats.chunk_path(image.path('all'), name))
        with servers.store(image.path('none')) as server:
            expect_ended(image.extract(server.url(), 'all'))
            image.expect_out()
            expect_equal(server.asked, image.asks(), 'what was asked')
    with cases.case('a folder that has all chunks stands before a server') as folder:
        image = Image(folder)
        with servers.store(image.path('none')) as server:
            expect_ended(image.extract('all', server.url()))
            image.expect_out()
            expect_equal(server.asked, [], 'what was asked')
    with cases.case('what an output holds rightly isn\'t asked for') as folder:
        image = Image(folder)
        with open(image.path('out'), 'wb') as file:
            file.write(b''.join(image.pieces[:7]) + bytes(len(image.bytes)))
        with servers.store(image.path('all')) as server:
            expect_ended(image.extract(server.url(), more=['-k']))
            image.expect_out()
            expect_equal(server.asked, image.asks()[7:], 'what was asked')
    with cases.case('extract fills a cache, which is enough from then on') as folder:
        image = Image(folder)
        with servers.store(image.path('all')) as server:
            expect_ended(image.extract(server.url(), more=['-c', 'near']))
            image.expect_store('near')
            expect_ended(image.extract(server.url(), more=['-c', 'near'], out='again'))
            image.expect_out('again')
            expect_equal(server.asked, image.asks(), 'what was asked')
    with cases.case('info asks with HEAD, and waits for no body') as folder:
        image = Image(folder)
        os.remove(formats.chunk_path(image.path('all'), image.names[7]))
        with servers.store(image.path('all'), '/s') as server:
            expect_ended(image.run('info', '-s', server.url('/s'), 'new.caibx'), out=image.figures(19))
            expect_equal(server.asked, image.asks('/s', 'HEAD'), 'what was asked')


def read_all(image, url):
    """Runs `extract` and `info` over a server that has all chunks, and then over one that lacks a chunk."""
    expect_ended(image.extract(url))
    image.expect_out()
    expect_ended(image.run('info', '-s', url, 'new.caibx'), out=image.figures(20))
    os.remove(formats.chunk_path(image.path('all'), image.names[7]))
    expect_ended(image.extract(url), image.refusal('missing', 7))
    expect_ended(image.run('info', '-s', url, 'new.caibx'), out=image.figures(19))


@contextlib.contextmanager
def nginx(image, lines=''):
    if servers.nginx_program() is None:
        raise Skip('nginx isn\'t installed')
    with servers.nginx(image.folder, image.path('nginx'), lines) as port:
        yield port


def cached(cases):
    with cases.case('cache fills a cache from a server, in the order of the entries') as folder:
        image = Image(folder)
        with servers.store(image.path('all')) as server:
            for _ in range(2):
                expect_ended(image.run('cache', '-n', '1', '-s', server.url(), '-c', 'near', 'new.caibx'))
                image.expect_store('near')
                expect_equal(server.asked, image.asks(), 'what was asked')
    for workers in ('2', '4', '8'):
        with cases.case(f'cache fills a cache from a server, by {workers} of -n') as folder:
            image = Image(folder)
            with servers.store(image.path('all')) as server:
                for _ in range(2):
                    expect_ended(image.run('cache', '-n', workers, '-s', server.url(), '-c', 'near', 'new.caibx'))
                    image.expect_store('near')
                    expect_equal(sorted(server.asked), sorted(image.asks()), 'what was asked')
    with cases.case('cache asks a server for what a folder before it lacks') as folder:
        image = Image(folder)
        for name, piece in list(zip(image.names, image.pieces))[:5]:
            formats.write_chunk(image.path('none'), name, piece)
            os.remove(formats.chunk_path(image.path('all'), name))
        with servers.store(image.path('none')) as server:
            expect_ended(image.run('cache', '-s', 'all', '-s', server.url(), '-c', 'near', 'new.caibx'))
            image.expect_store('near')
            expect_equal(sorted(server.asked), sorted(image.asks()[:5]), 'what was asked')
    for what, spell, why in (('lacks it', lambda b: reply(404), 'missing'), ('fails', lambda b: reply(500), FAILED),
                             ('has other bytes', lambda b: reply(200, b'x'), 'damaged'),
                             ('sends more', lambda b: reply(200, b + b'x'), 'damaged'),
                             ('ends in it', lambda b: reply(200, b)[:-1], FAILED)):
        with cases.case(f'cache ends at the first chunk where the server {what}') as folder:
            image = Image(folder)
            fifth = image.pieces[5]
            with servers.store(image.path('all'), spell=lambda b: spell(b) if b == fifth else reply(200, b)) as server:
                ended = image.run('cache', '-n', '1', '-s', server.url(), '-c', 'near', 'new.caibx')
                expect_ended(ended, image.refusal(why, 5))
                image.expect_store('near', 5)
                expect_equal(server.asked, image.asks()[:6], 'what was asked')
        with cases.case(f'cache by 8 of -n ends at the first chunk where the server {what}') as folder:
            image = Image(folder)
            fifth = image.pieces[5]
            with servers.store(image.path('all'), spell=lambda b: spell(b) if b == fifth else reply(200, b)) as server:
                ended = image.run('cache', '-n', '8', '-s', server.url(), '-c', 'near', 'new.caibx')
                expect_ended(ended, image.refusal(why, 5))
                image.expect_store('near', 5)
                expect_equal(sorted(server.asked), sorted(set(server.asked)), 'what was asked, each once')


def written(cases):
    with cases.case('chop puts what a server lacks') as folder:
        image = Image(folder)
        with servers.store(image.path('none'), '/s') as server:
            expect_ended(image.run('chop', '-s', server.url('/s'), 'new.caibx', 'image'))
            image.expect_store('none')
            both = [ask for pair in zip(image.asks('/s'), image.asks('/s', 'PUT')) for ask in pair]
            expect_equal(server.asked, both, 'what was asked')
            wanted = (f'PUT {both[1][1]} HTTP/1.1\r\nHost: localhost:{server.port}\r\nAccept-Encoding: identity\r\n'
                      f'Connection: close\r\nContent-Length: {len(image.pieces[0])}')
            expect_equal(server.heads[1].decode(), wanted, 'the first PUT')
            del server.asked[:]
            expect_ended(image.run('chop', '-s', server.url('/s'), 'new.caibx', 'image'))
            expect_equal(server.asked, image.asks('/s'), 'what was asked the second time')
    with cases.case('chop puts right what a server has wrongly') as folder:
        image = Image(folder)
        for place, held in ((3, b''), (7, image.pieces[7][:-1] + b'\0'), (9, image.pieces[9] + b'x')):
            formats.write_chunk(image.path('all'), image.names[place], held)
        with servers.store(image.path('all')) as server:
            expect_ended(image.run('chop', '-s', server.url(), 'new.caibx', 'image'))
            image.expect_store('all')
            put = [path for method, path in server.asked if method == 'PUT']
            expect_equal(put, [image.asks()[place][1] for place in (3, 7, 9)], 'what was put')
    with cases.case('chop puts the chunks before the first that isn\'t the image\'s') as folder:
        image = Image(folder)
        at = sum(map(len, image.pieces[:5]))
        with open(image.path('image'), 'r+b') as file:
            file.seek(at)
            file.write(b'\0\0\0\0')
        other = formats.digest_of(bytes(4) + image.pieces[5][4:]).hex()
        with servers.store(image.path('none')) as server:
            ended = image.run('chop', '-s', server.url(), 'new.caibx', 'image')
            expect_ended(ended, f'entry 5 has the name {other}')
        image.expect_store('none', 5)
    with cases.case('make puts its chunks, each once, and extract has them back') as folder:
        image = Image(folder)
        with open(image.path('image'), 'ab') as file:
            file.write(bytes(900_000))
        index = formats.index_of(file_bytes(image.path('image')))
        expect(len(index.names()) < len(index.entries), 'no chunk stands twice')
        with servers.store(image.path('none')) as server:
            expect_ended(image.run('make', '-s', server.url(), 'made.caibx', 'image'))
            expect_equal(file_bytes(image.path('made.caibx')), formats.spell_index(index), 'the index')
            paths = [formats.chunk_path('/', name) for name in dict.fromkeys(name for _, name in index.entries)]
            wanted = [(method, path) for path in paths for method in ('GET', 'PUT')]
            expect_equal(server.asked, wanted, 'what was asked')
            expect_ended(image.run('extract', '-s', server.url(), 'made.caibx', 'out'))
        expect(file_bytes(image.path('out')) == file_bytes(image.path('image')), 'out isn\'t the image')
    with cases.case('make, chop and extract over nginx that takes chunks') as folder:
        image = Image(folder)
        with nginx(image, servers.TAKES_CHUNKS) as port:
            url = f'http://localhost:{port}/none'
            for _ in range(2):
                expect_ended(image.run('chop', '-s', url, 'new.caibx', 'image'))
            image.expect_store('none')
            expect_ended(image.run('make', '-s', url, 'made.caibx', 'image'))
            expect_ended(image.run('extract', '-s', url, 'made.caibx', 'out'))
        image.expect_out()
    for status in (200, 201, 204, 299):
        with cases.case(f'a server that takes chunks with the status {status}') as folder:
            image = Image(folder, 2)
            with servers.store(image.path('none'), taken=status) as server:
                expect_ended(image.run('chop', '-s', server.url(), 'new.caibx', 'image'))
            image.expect_store('none')
    refused(cases)


# What a server sends for a PUT that it doesn't take.
REFUSALS = {
    'the status 405': reply(405),
    'the status 300': reply(300),
    'the status 100, and then 201': b'HTTP/1.1 100 Continue\r\n\r\n' + reply(201),
    'no byte': b'',
    'half a head': b'HTTP/1.1 201 Cre',
    'no HTTP': b'taken\r\n\r\n',
}


def refused(cases):
    for what, sent in REFUSALS.items():
        with cases.case(f'the server sends for a PUT {what}') as folder:
            image = Image(folder, 4)
            def answer(peer, method, _path, _body):
                peer.sendall(reply(404) if method == 'GET' else sent)
            with servers.Server(answer) as server:
                before = files(folder)
                for words in (['make', 'made.caibx'], ['chop', 'new.caibx']):
                    expect_ended(image.run(words[0], '-s', server.url(), words[1], 'image'), FAILED)
                expect_equal(files(folder), before, 'what stands in the folder')
                expect_equal([method for method, _ in server.asked], ['GET', 'PUT'] * 2, 'the methods')
    with cases.case('nginx that takes no chunks') as folder:
        image = Image(folder, 4)
        with nginx(image) as port:
            before = files(folder, but='nginx')
            expect_ended(image.run('make', '-s', f'http://localhost:{port}/none', 'made.caibx', 'image'), FAILED)
            expect_equal(files(folder, but='nginx'), before, 'what stands in the folder')
    with cases.case('what isn\'t known to lack is put nowhere') as folder:
        image = Image(folder, 4)
        with servers.Server(lambda peer, *_: peer.sendall(reply(500))) as server:
            for words in (['make', 'made.caibx'], ['chop', 'new.caibx']):
                expect_ended(image.run(words[0], '-s', server.url(), words[1], 'image'), FAILED)
            expect_equal([method for method, _ in server.asked], ['GET'] * 2, 'the methods')


# Servers as they shouldn't be

def longest_head(body, size):
    head = f'HTTP/1.1 200 OK\r\nContent-Length: {len(body)}\r\nA: '
    return head.encode() + b'b' * (size - len(head) - 4) + servers.HEAD_END + body


def long_trailer(body, size):
    return in_chunks(body, trailer=b'A: ' + b'b' * (size - 7) + b'\r\n')


# What the server sends for the bytes of a chunk, and how the run ends: None where it is done.
WRONG = {
    'no byte': (lambda b: b'', FAILED),
    'half a head': (lambda b: b'HTTP/1.1 200 OK\r\nContent-Le', FAILED),
    'no HTTP': (lambda b: b'SSH-2.0-server\r\n\r\n', FAILED),
    'a head of 1 MiB': (lambda b: to_the_end(b, *['A: b'] * 180_000), FAILED),
    'a head of the most bytes': (lambda b: longest_head(b, LIMIT), None),
    'a head of one byte more': (lambda b: longest_head(b, LIMIT + 1), FAILED),
    '64 header lines': (lambda b: reply(200, b, *['A: b'] * 63), None),
    '65 header lines': (lambda b: reply(200, b, *['A: b'] * 64), FAILED),
    'lines that end with LF alone': (lambda b: b'HTTP/1.1 200 OK\nContent-Length: %d\n\n' % len(b) + b, None),
    'HTTP/1.0': (lambda b: b'HTTP/1.0 200 OK\r\n\r\n' + b, None),
    'names in other cases, and blanks': (lambda b: to_the_end(b + b'more', f'cONTENT-lENGTH: \t {len(b)} \t'), None),

    'a body to the end': (to_the_end, None),
    'a longer body to the end': (lambda b: to_the_end(b + b'x'), 'damaged'),
    'a shorter body to the end': (lambda b: to_the_end(b[:-1]), 'damaged'),
    'other bytes': (lambda b: reply(200, bytes(len(b))), 'damaged'),
    'compressed content': (lambda b: reply(200, gzip.compress(b), 'Content-Encoding: gzip'), 'damaged'),
    'a body cut short': (lambda b: reply(200, b[:-1], length=len(b)), FAILED),
    'a body of the length, and more behind it': (lambda b: reply(200, b) + b'more', None),
    'a longer body by length': (lambda b: reply(200, b + b'x'), 'damaged'),
    'a length of 18 digits': (lambda b: reply(200, b, length='9' * 18), 'damaged'),
    'a length of 19 digits': (lambda b: reply(200, b, length=str(len(b)).zfill(19)), FAILED),
    'a length with a sign': (lambda b: reply(200, b, length=f'+{len(b)}'), FAILED),
    'a list of lengths': (lambda b: reply(200, b, length=f'{len(b)}, {len(b)}'), FAILED),
    'two lengths': (lambda b: reply(200, b, f'Content-Length: {len(b) + 1}'), FAILED),
    'one length twice': (lambda b: reply(200, b, f'Content-Length: 0{len(b)}'), None),

    'chunks': (in_chunks, None),
    'chunks of one byte': (lambda b: in_chunks(b, 1), None),
    'chunks, and a wrong length': (lambda b: in_chunks(b).replace(b'\r\n', b'\r\nContent-Length: 1\r\n', 1), None),
    'chunks with extensions and trailers': (lambda b: in_chunks(b, 77, b';a="b"', b'Etag: x\r\nB: c\r\n'), None),
    'a size line of the most bytes': (lambda b: in_chunks(b, extension=b';'.ljust(251, b'a')), None),
    'a size line of more bytes': (lambda b: in_chunks(b, extension=b';'.ljust(252, b'a')), FAILED),
    'a trailer of the most bytes': (lambda b: long_trailer(b, LIMIT), None),
    'a trailer of one byte more': (lambda b: long_trailer(b, LIMIT + 1), FAILED),
    'chunks cut short': (lambda b: in_chunks(b)[:-5], FAILED),
    'chunks without the last line': (lambda b: in_chunks(b)[:-2], FAILED),
    'chunks of a longer body': (lambda b: in_chunks(b + b'x'), 'damaged'),
    'chunks of a shorter body': (lambda b: in_chunks(b[:-1]), 'damaged'),
    'chunks with a wrong size': (lambda b: in_chunks(b).replace(b'3e8', b'3eg', 1), FAILED),
    'chunks with a size that is too small': (lambda b: in_chunks(b).replace(b'3e8', b'3e7', 1), FAILED),
    'a coding that isn\'t known': (lambda b: to_the_end(b, 'Transfer-Encoding: gzip'), FAILED),
    'two codings': (lambda b: to_the_end(b, 'Transfer-Encoding: gzip, chunked'), FAILED),

    'status 404': (lambda b: reply(404, b), 'missing'),
    'status 404 and a body that is cut short': (lambda b: reply(404, b, length=len(b) + 1), 'missing'),
    **{f'status {status}': (lambda b, status=status: reply(status, b), FAILED)
       for status in (201, 204, 206, 304, 400, 403, 410, 500, 503)},
    'status 100, and then 200': (lambda b: b'HTTP/1.1 100 Continue\r\n\r\n' + reply(200, b), FAILED),
}


def wrong(cases):
    for what, (spell, why) in WRONG.items():
        with cases.case(f'the server sends {what}') as folder:
            image = Image(folder, 4)
            with servers.store(image.path('all'), spell=spell) as server:
                ends(image, server.url(), why)
    with cases.case('the server resets the connection') as folder:
        image = Image(folder, 4)
        def reset(peer, *_):
            peer.sendall(reply(200, image.pieces[0])[:500])
            peer.setsockopt(socket.SOL_SOCKET, socket.SO_LINGER, struct.pack('ii', 1, 0))
        with servers.Server(reset) as server:
            ends(image, server.url(), FAILED)
    with cases.case('the server sends the address of another, which has all') as folder:
        image = Image(folder, 4)
        with servers.store(image.path('all')) as other:
            def redirect(peer, _method, path, _body):
                peer.sendall(reply(302, b'', f'Location: {other.url(path)}'))
            with servers.Server(redirect) as server:
                ends(image, server.url(), FAILED)
            expect_equal(other.asked, [], 'what the other was asked')
    with cases.case('the server sends single bytes') as folder:
        image = Image(folder, 4)
        def drip(peer, _method, path, _body):
            peer.setsockopt(socket.IPPROTO_TCP, socket.TCP_NODELAY, 1)
            sent = in_chunks(servers.file_at(image.path('all'), '', path))
            single = [sent[at:at + 1] for at in range(len(sent))]
            for piece in [*single[:300], sent[300:-100], *single[-100:]]:
                peer.sendall(piece)
        with servers.Server(drip) as server:
            ends(image, server.url(), None)
    for what, url in (('nobody listens', f'http://localhost:{servers.free_port()}'),
                      ('the name of the server has no address', f'http://{"x" * 70}/')):
        with cases.case(what) as folder:
            ends(Image(folder, 4), url, FAILED)


def ends(image, url, why):
    """How a run ends, and what it leaves, over a server that answers alike for each chunk; and how a folder makes up
    for it."""
    text = image.refusal(why)
    before = files(image.folder)
    expect_ended(image.extract(url), text)
    if why is None:
        image.expect_out()
        return
    expect_equal(files(image.folder), before, 'what stands in the folder')
    expect_ended(image.extract(url, more=['-k']), text)
    expect_equal(file_bytes(image.path('out')), bytes(len(image.bytes)), 'out')
    expect_ended(image.extract(url, 'all'))
    image.expect_out()


def now_and_then(cases):
    def answers(image, count):
        def answer(peer, method, path, _body):
            count[0] += 1
            held = servers.file_at(image.path('all'), '', path)
            peer.sendall(reply(500) if count[0] % 3 == 0 else reply(200, b'' if method == 'HEAD' else held))
        return answer
    with cases.case('the server answers 500 to every third request, and a folder stands behind it') as folder:
        image = Image(folder)
        with servers.Server(answers(image, [0])) as server:
            expect_ended(image.extract(server.url(), 'all'))
            image.expect_out()
            expect_equal(server.asked, image.asks(), 'what was asked')
    with cases.case('the server answers 500 to every third request, and runs in place go on from there') as folder:
        image = Image(folder)
        count, asked, right = [0], [], set()
        with servers.Server(answers(image, count)) as server:
            for _ in range(20):
                # Each entry that isn't right is tried, and then once more where it still isn't.
                at_first = set(right)
                for _ in range(2):
                    for entry in sorted(set(range(20)) - right):
                        asked.append(image.asks()[entry])
                        if len(asked) % 3:
                            right.add(entry)
                whole = len(right) == 20
                expect_ended(image.extract(server.url(), more=['-k']), '' if whole else FAILED)
                wanted = b''.join(piece if entry in right else bytes(len(piece))
                                  for entry, piece in enumerate(image.pieces))
                expect(file_bytes(image.path('out')) == wanted, f'out isn\'t what was had: {sorted(right)}')
                expect_equal(server.asked, asked, 'what was asked')
                if whole:
                    break
                expect(right > at_first, 'no entry was had')
            expect(whole, 'the image isn\'t whole')
    with cases.case('info ends at the first request that is answered 500') as folder:
        image = Image(folder)
        with servers.Server(answers(image, [0])) as server:
            expect_ended(image.run('info', '-s', server.url(), 'new.caibx'), FAILED)
            expect_equal(server.asked, image.asks(method='HEAD')[:3], 'what was asked')


# What the server sends for a HEAD, and how many of the four chunks it has: None where it fails.
HEADS = {
    'status 200': (reply(200, length=5), 4),
    'status 200 and no length': (to_the_end(b''), 4),
    'status 200 and a body all the same': (reply(200, b'hello'), 4),
    'status 200 and two lengths': (reply(200, b'', 'Content-Length: 7'), 4),
    'status 200 and a coding that isn\'t known': (to_the_end(b'', 'Transfer-Encoding: gzip'), 4),
    'status 404': (reply(404, length=12), 0),
    **{f'status {status}': (reply(status), None) for status in (204, 206, 301, 403, 405, 500)},
    'half a head': (reply(200)[:-2], None),
    'no HTTP': (b'here\r\n\r\n', None),
}


def counted(cases):
    for what, (sent, held) in HEADS.items():
        with cases.case(f'the server sends for a HEAD {what}') as folder:
            image = Image(folder, 4)
            with servers.Server(lambda peer, *_: peer.sendall(sent)) as server:
                ended = image.run('info', '-s', server.url(), 'new.caibx')
                expect_ended(ended, FAILED if held is None else '', '' if held is None else image.figures(held))
                expect_equal(server.asked, image.asks(method='HEAD')[:1 if held is None else 4], 'what was asked')


# What a server sends without end: what stands before it, what is repeated, and how the run ends.
FLOODS = {
    'a line of a head': (b'HTTP/1.1 200 OK\r\nA: ', b'b', FAILED),
    'lines of a head': (b'HTTP/1.1 200 OK\r\n', b'A: b\r\n', FAILED),
    'a body to the end': (to_the_end(b''), b'b', 'damaged'),
    'a body by length': (reply(200, length=10 ** 17), b'b', 'damaged'),
    'chunks': (to_the_end(b'', 'Transfer-Encoding: chunked'), b'1\r\nb\r\n', 'damaged'),
    'a size line': (to_the_end(b'', 'Transfer-Encoding: chunked'), b'0', FAILED),
    'a trailer': (to_the_end(b'0\r\n', 'Transfer-Encoding: chunked'), b'A: b\r\n', FAILED),
}


def floods(cases):
    for what, (first, more, why) in FLOODS.items():
        with cases.case(f'memory stays bounded where a server sends {what} without end') as folder:
            image = Image(folder, 4)
            def flood(peer, *_):
                peer.sendall(first)
                while not server.over.is_set():
                    peer.sendall(more * 65536)
            with servers.Server(flood) as server:
                words = ['extract', '-s', server.url(), 'new.caibx', 'out']
                ended, _, peak = program.run_measured(words, folder)
            expect_ended(ended, image.refusal(why))
            expect(peak < 16 << 10, f'the peak is {peak} KiB')


# Servers that say nothing

class Waiting:
    """Runs that wait for a server, beside the other cases. `begin` starts one in a folder of its own, `judge` compares
    them all."""

    def __init__(self, cases, held):
        self.cases = cases
        self.held = held
        self.threads = held.enter_context(concurrent.futures.ThreadPoolExecutor())
        self.runs = []

    def begin(self, what, words, sends=lambda method, piece: b'', drips=b'', port=None, seconds=(55, 110), text=FAILED,
              out=None):
        """Starts a run, which is to end within these seconds, with this text, and with the image in the file `out`. The
        server sends what `sends` makes of the method and the one chunk, and then what `drips` once a second, or nothing
        more; with `port` it is the one at that port."""
        folder = os.path.join(self.cases.top, what)
        os.mkdir(folder)
        image = Image(folder, 1)
        def answer(peer, method, *_):
            peer.sendall(sends(method, image.bytes))
            while drips and not server.over.wait(1):
                peer.sendall(drips)
            return servers.WAIT
        server = None if port else self.held.enter_context(servers.Server(answer))
        port = port or server.port
        words = [f'http://localhost:{port}' if word == 'URL' else word for word in words]
        run = self.threads.submit(program.run_measured, words, folder)
        self.runs.append((what, image, run, files(folder), seconds, text, out))

    def judge(self):
        for what, image, run, before, (least, most), text, out in self.runs:
            with self.cases.case(what):
                ended, seconds, _ = run.result()
                expect_ended(ended, text)
                expect(least < seconds < most, f'it took {seconds} seconds')
                if out:
                    expect_equal(file_bytes(image.path(out)), image.bytes, out)
                else:
                    expect_equal(files(image.folder), before, 'what stands in the folder')


def silent(waiting, deaf):
    """A read is given up after a minute without a byte, a reply whose bytes were waited for a minute, and an address
    that doesn't take a connection after ten seconds."""
    info = ['info', '-s', 'URL', 'new.caibx']
    waiting.begin('the server never answers', info)
    waiting.begin('the server stops in a head', info, lambda *_: b'HTTP/1.1 200 OK\r\nContent-')
    waiting.begin('the server takes no connection', info, port=deaf, seconds=(8, 60))
    waiting.begin('the server never answers, and a folder stands behind it',
                  ['extract', '-s', 'URL', '-s', 'all', 'new.caibx', 'out'], text='', out='out')
    fill = ['cache', '-n', '1', '-s', 'URL', '-c', 'near', 'new.caibx']
    waiting.begin('the server stops in a body', fill,
                  lambda _, piece: reply(200, piece)[:-1])
    waiting.begin('the server sends a byte of a head a second', info, lambda *_: b'HTTP/1.1 200 OK\r\nA:', b'x')
    waiting.begin('the server sends a byte of a body a second', fill,
                  lambda _, piece: reply(200, piece)[:-len(piece)], b'x')
    waiting.begin('the server never answers a PUT', ['make', '-s', 'URL', 'made.caibx', 'image'],
                  lambda method, _: reply(404) if method == 'GET' else b'')


def main():
    needs_program('http_stores')
    cases = Cases('http_stores')
    with contextlib.ExitStack() as held:
        waiting = Waiting(cases, held)
        silent(waiting, held.enter_context(servers.deaf()))
        for part in (read, cached, written, wrong, counted, now_and_then, floods):
            part(cases)
        waiting.judge()
    return cases.end()


if __name__ == '__main__':
    sys.exit(main())
