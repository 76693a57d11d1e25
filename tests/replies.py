"""What `desync chunk-server` replies to requests, byte for byte: cases that tests/serving.py runs.

The replies are spelled here by docs/FORMATS.md. Each group of cases has a folder of its own with the store `st`.
"""

import contextlib
import os
import random
import re
import socket
import ssl
import struct
import time

import formats
import servers
from checks import DAMAGES, expect, expect_equal, expect_files, file_bytes, files_of, put_file
from servers import ChunkServer

LIMIT = 16_384
MIB = 1 << 20
PHRASES = {200: 'OK', 400: 'Bad Request', 404: 'Not Found', 405: 'Method Not Allowed', 411: 'Length Required',
           413: 'Content Too Large', 431: 'Request Header Fields Too Large', 500: 'Internal Server Error'}


# What is said on a connection

def path_of(piece):
    return formats.chunk_path('/', formats.digest_of(piece))


def request(method, target, *lines, body=b'', version='HTTP/1.1'):
    return '\r\n'.join([f'{method} {target} {version}', 'Host: localhost', *lines]).encode() + servers.HEAD_END + body


def put(target, body, *lines):
    return request('PUT', target, f'Content-Length: {len(body)}', *lines, body=body)


class Wanted:
    """A reply. After one that `closes` there is no other on its connection."""

    def __init__(self, status, body=b'', length=None, closes=False):
        lines = [f'HTTP/1.1 {status} {PHRASES[status]}', f'Content-Length: {len(body) if length is None else length}']
        self.bytes = '\r\n'.join(lines + ['Connection: close'] * closes).encode() + servers.HEAD_END + body
        self.closes = closes


def refused(status):
    return Wanted(status, closes=True)


NOTHING = Wanted(404)
ABC, PATH = b'abc', path_of(b'abc')
DIGITS = PATH[6:]
# A chunk whose first four digits are letters.
EEEE = b'149'
GET_ABC, GIVES_ABC = request('GET', PATH), Wanted(200, ABC)


def to_the_end(peer, size=65536):
    pieces = []
    while piece := peer.recv(size):
        pieces.append(piece)
    return b''.join(pieces)


def said_to(server, sent):
    """What the server says to a peer that sends these bytes and nothing more."""
    with server.connect() as peer:
        peer.sendall(sent)
        peer.shutdown(socket.SHUT_WR)
        return to_the_end(peer)


def expect_reply(server, sent, wanted):
    """The reply to a request is this one; and the GET behind it is answered too, unless the connection closes."""
    replies = wanted.bytes + (b'' if wanted.closes else GIVES_ABC.bytes)
    expect_equal(said_to(server, sent + GET_ABC), replies, 'the reply')


def expect_serves(server):
    expect_equal(said_to(server, GET_ABC), GIVES_ABC.bytes, 'what is said to the next peer')


# Stores

# A file beside the store, which nobody is to get.
SECRET = b'secret'


def lay_out(folder, *pieces):
    """The store `st` with chunks, a stranger and a temporary file."""
    store = os.path.join(folder, 'st')
    for piece in (ABC, *pieces):
        formats.write_chunk(store, formats.digest_of(piece), piece)
    put_file(os.path.join(store, 'notes.txt'), b'notes')
    put_file(os.path.join(store, '5304', '.tmp-cacnkx'), b'ab')
    put_file(os.path.join(folder, 'secret'), SECRET)
    return store


def expect_store(store, held):
    expect_files(store, held, 'of the store')


# Heads of requests

def padded(size):
    """A GET whose head has so many bytes."""
    return request('GET', PATH, 'A: ' + 'b' * (size - len(request('GET', PATH, 'A: '))))


HEADS = {
    'GET': (GET_ABC, GIVES_ABC),
    'HEAD': (request('HEAD', PATH), Wanted(200, length=3)),
    **{f'the target {target}': (request('GET', target), Wanted(200, EEEE)) for target in (
        path_of(EEEE), path_of(EEEE).upper(), '/EEEE' + path_of(EEEE)[5:], '/eeEe/EE' + path_of(EEEE)[8:])},
    'no Host': (f'GET {PATH} HTTP/1.1\r\n\r\n'.encode(), GIVES_ABC),
    'two Hosts': (request('GET', PATH, 'Host: other'), GIVES_ABC),
    'a range': (request('GET', PATH, 'Range: bytes=0-0'), GIVES_ABC),
    'a condition': (request('GET', PATH, 'If-None-Match: *'), GIVES_ABC),
    'a word for an upgrade': (request('GET', PATH, 'Connection: Upgrade', 'Upgrade: h2c'), GIVES_ABC),
    'Expect': (request('GET', PATH, 'Expect: 100-continue'), GIVES_ABC),
    'lines that end with LF alone': (GET_ABC.replace(b'\r', b''), GIVES_ABC),
    'an empty line before it': (b'\r\n' + GET_ABC, GIVES_ABC),
    'bytes above 127 in a value': (GET_ABC[:-2] + b'A: \xff\xe9\r\n\r\n', GIVES_ABC),
    '64 header lines': (request('GET', PATH, *['A: b'] * 63), GIVES_ABC),
    'a head of the most bytes': (padded(LIMIT), GIVES_ABC),

    'HTTP/1.0': (request('GET', PATH, version='HTTP/1.0'), Wanted(200, ABC, closes=True)),
    'HTTP/1.0 that is to stay': (request('GET', PATH, 'Connection: keep-alive', version='HTTP/1.0'),
                                 Wanted(200, ABC, closes=True)),
    'HTTP/1.0 of what isn\'t there': (request('GET', '/', version='HTTP/1.0'), Wanted(404, closes=True)),
    **{f'Connection: {value!r}': (request('GET', PATH, f'Connection:{value}'), Wanted(200, ABC, closes=True))
       for value in ('close', ' CLOSE', '\t close \t', ' keep-alive, Close', 'a,close ,b', ' ,,close')},
    **{f'Connection: {value!r}': (request('GET', PATH, f'Connection: {value}'), GIVES_ABC)
       for value in ('keep-alive', 'closed', 'close;q=1', 'clo se', '', '"close"', 'close close')},
    'close in the second of two lines': (request('GET', PATH, 'Connection: a', 'connection: close'),
                                         Wanted(200, ABC, closes=True)),
    'a HEAD that closes': (request('HEAD', PATH, 'Connection: close'), Wanted(200, length=3, closes=True)),

    **{f'the method {method}': (request(method, PATH), refused(405))
       for method in ('PUT', 'POST', 'DELETE', 'OPTIONS', 'TRACE', 'PATCH', 'CONNECT', 'get', 'Head', 'GETT')},
    'a PUT with its chunk': (put(PATH, ABC), refused(405)),
    'a POST with a coding': (request('POST', PATH, 'Transfer-Encoding: chunked'), refused(405)),
    **{f'a GET with the coding {coding!r}': (request('GET', PATH, f'Transfer-Encoding: {coding}'), refused(411))
       for coding in ('chunked', 'gzip', 'identity', '')},
    'a coding and a length': (request('GET', PATH, 'Content-Length: 1', 'Transfer-Encoding: chunked'), refused(411)),
    **{f'a GET with the length {length!r}': (request('GET', PATH, f'Content-Length: {length}'), GIVES_ABC)
       for length in ('0', '00', '0' * 18, ' 0\t')},
    **{f'a GET with the length {length!r}': (request('GET', PATH, f'Content-Length: {length}', body=b'x'), refused(400))
       for length in ('1', '01', 'x', '', '-1', '+0', '0, 0', '0 0', '0' * 19, '0x0')},
    'two lengths that are equal': (request('GET', PATH, 'Content-Length: 0', 'content-length: 00'), GIVES_ABC),
    'two lengths that aren\'t': (request('GET', PATH, 'Content-Length: 0', 'Content-Length: 1'), refused(400)),

    **{what: (sent, refused(400)) for what, sent in {
        'two empty lines before it': b'\r\n\r\n' + GET_ABC,
        '65 header lines': request('GET', PATH, *['A: b'] * 64),
        'HTTP/0.9': f'GET {PATH}\r\n\r\n'.encode(),
        'HTTP/1.2': request('GET', PATH, version='HTTP/1.2'),
        'HTTP/2.0': b'PRI * HTTP/2.0\r\n\r\nSM\r\n\r\n',
        'no target': b'GET HTTP/1.1\r\n\r\n',
        'a blank in the target': request('GET', PATH + ' x'),
        'a line that goes on': request('GET', PATH, 'A: b', ' c'),
        'a blank before the colon': request('GET', PATH, 'A : b'),
        'a line without a colon': request('GET', PATH, 'A'),
        'a zero byte in a value': request('GET', PATH, 'A: \0'),
        'CR alone in a value': request('GET', PATH, 'A: b\rc'),
        'no request': b'\0\xff\x16\x03\n\n',
        'another protocol': b'SSH-2.0-OpenSSH_9.2\r\n\r\n',
        'a reply': b'HTTP/1.1 200 OK\r\n\r\n',
    }.items()},
    'a head of one byte more': (padded(LIMIT + 1), refused(431)),
    'bytes without an end': (b'x' * LIMIT, refused(431)),
    'a line without an end': (b'GET /' + b'x' * 300_000, refused(431)),
    'lines without an end': (b'GET / HTTP/1.1\r\n' + b'A: b\r\n' * 50_000, refused(431)),
}

# Targets that are no path of a chunk, or of one that isn't there.
TARGETS = [
    '/', '*', '//', '/5304', '/5304/', '/5304//', f'/{PATH}', f'//5304/{DIGITS}', f'/5304//{DIGITS}', f'{PATH}/',
    f'/.{PATH}', f'/a/..{PATH}', f'/../st{PATH}', f'/5304/../5304/{DIGITS}', f'/5304/./{DIGITS}', '/..', '/../secret',
    '/5304/../../secret', '/%2e%2e/secret', '/..%2fsecret', '/secret', '/notes.txt', '/5304/.tmp-cacnkx',
    f'/%35304/{DIGITS}', f'/5304/%35{DIGITS[1:]}', f'{PATH}?', f'{PATH}?a=b', f'{PATH}#a', f'{PATH};a', f'{PATH}%00',
    f'{PATH}.cacnk', f'{PATH}0', PATH[:-1], f'/5304{DIGITS}', f'/5305/{DIGITS}', f'/530/{DIGITS}', f'/53048/{DIGITS}',
    f'/5304\\{DIGITS}', f'http://localhost{PATH}', PATH[1:], PATH.replace('a', 'g'), path_of(b'abd'), '/' + 'a' * 4_000,
    '/5304/' + '../' * 500 + 'secret', '/etc/passwd', '/dev/zero',
]


def heads(cases, folder):
    lay_out(folder, EEEE)
    before = files_of(folder)
    with ChunkServer(folder) as server:
        for what, (sent, wanted) in HEADS.items():
            with cases.case(f'a request has {what}'):
                expect_reply(server, sent, wanted)
        for target in TARGETS:
            with cases.case(f'the target {target[:90]}'):
                expect_reply(server, request('GET', target), NOTHING)
                expect_reply(server, request('HEAD', target), NOTHING)
        with cases.case('a target that has a half of a character'):
            got = said_to(server, b'GET /\xff' + GET_ABC[5:])
            expect(got in (NOTHING.bytes, refused(400).bytes), f'the reply is {got}')
        with cases.case('the hello of TLS'):
            expect_equal(said_to(server, tls_hello()), b'', 'the reply')
            expect_serves(server)
        with cases.case('no request has changed or shown what else stands there'):
            expect_equal(files_of(folder), before, 'the files')


def tls_hello():
    """What a client of TLS sends first, without what would be the end of a head."""
    for _ in range(1_000):
        sent = ssl.MemoryBIO()
        with contextlib.suppress(ssl.SSLWantReadError):
            ssl.create_default_context().wrap_bio(ssl.MemoryBIO(), sent, server_hostname='localhost').do_handshake()
        hello = sent.read()
        if b'\n\n' not in hello and b'\n\r\n' not in hello:
            return hello
    raise AssertionError('each hello has the end of a head')


# Chunks

def chunks(cases, folder):
    chance = random.Random(11)
    whole = [chance.randbytes(size) for size in (1, 1_000, 262_143, 262_144, 262_145, 3 * MIB)]
    spoiled = [chance.randbytes(70_000 + number) for number in range(len(DAMAGES))]
    store = lay_out(folder, b'', *whole)
    with ChunkServer(folder) as server:
        def gives(piece, wanted):
            given = piece if wanted == 200 else b''
            expect_reply(server, request('GET', path_of(piece)), Wanted(wanted, given))
            expect_reply(server, request('HEAD', path_of(piece)), Wanted(wanted, length=len(given)))

        for piece in (b'', *whole):
            with cases.case(f'a chunk of {len(piece)} bytes'):
                gives(piece, 200)
        for piece, (what, change) in zip(spoiled, DAMAGES.items()):
            with cases.case(f'a chunk file that is damaged: {what}'):
                formats.write_chunk(store, formats.digest_of(piece), change(piece))
                gives(piece, 404)
                formats.write_chunk(store, formats.digest_of(piece), piece)
                gives(piece, 200)
        with cases.case('a chunk of 64 MiB, and one of a byte more'):
            for piece, wanted in ((bytes(64 * MIB), 200), (bytes(64 * MIB + 1), 404)):
                formats.write_chunk(store, formats.digest_of(piece), b'')
                os.truncate(formats.chunk_path(store, formats.digest_of(piece)), len(piece))
                gives(piece, wanted)
        with cases.case('a compressed chunk alone'):
            put_file(formats.chunk_path(store, formats.digest_of(b'one')) + '.cacnk', b'one')
            gives(b'one', 404)
        with cases.case('a chunk whose file has a name in upper case'):
            put_file(store + path_of(b'two').upper(), b'two')
            gives(b'two', 404)
        with cases.case('a link to a chunk\'s bytes'):
            os.makedirs(os.path.dirname(store + path_of(b'three')), exist_ok=True)
            put_file(os.path.join(folder, 'three'), b'three')
            os.symlink(os.path.join(folder, 'three'), store + path_of(b'three'))
            gives(b'three', 200)
        with cases.case('a link to other bytes'):
            os.makedirs(os.path.dirname(store + path_of(b'four')), exist_ok=True)
            os.symlink(os.path.join(folder, 'secret'), store + path_of(b'four'))
            gives(b'four', 404)
        with cases.case('a folder stands where a chunk\'s file should, and then its file'):
            os.makedirs(store + path_of(b'five'))
            gives(b'five', 500)
            os.rmdir(store + path_of(b'five'))
            put_file(store + path_of(b'five'), b'five')
            gives(b'five', 200)
        with cases.case('a chunk comes and goes while the server runs'):
            gives(b'six', 404)
            put_file(store + path_of(b'six'), b'six')
            gives(b'six', 200)
            os.remove(store + path_of(b'six'))
            gives(b'six', 404)
        with cases.case('the store is moved away, and comes back'):
            os.rename(store, store + '-away')
            expect_equal(said_to(server, GET_ABC), NOTHING.bytes, 'the reply')
            os.rename(store + '-away', store)
            expect_serves(server)


# Chunks that are put

def puts(cases, folder):
    """What a server that takes chunks replies to a PUT, and what the store has afterwards."""
    chance = random.Random(12)
    large = chance.randbytes(8 * MIB)
    store = lay_out(folder)
    held = files_of(store)
    with ChunkServer(folder, '-w') as server:
        def answers(what, sent, wanted, *stored):
            with cases.case(f'a PUT {what}'):
                held.update({path_of(piece)[1:]: piece for piece in stored})
                expect_reply(server, sent, wanted)
                expect_store(store, held)

        taken = Wanted(200)
        answers('of a chunk', put(path_of(b'one'), b'one'), taken, b'one')
        answers('of what is there', put(path_of(b'one'), b'one'), taken)
        for what, body in (('other bytes', b'onE'), ('a byte less', b'on'), ('a byte more', b'ones'),
                           ('no bytes', b'')):
            answers(f'of {what}', put(path_of(b'one'), body), Wanted(400))
        answers('of an empty chunk', put(path_of(b''), b''), taken, b'')
        answers('of 8 MiB', put(path_of(large), large), taken, large)
        answers('to digits in upper case', put(path_of(b'two').upper(), b'two'), taken, b'two')
        for target in TARGETS:
            if target != path_of(b'abd'):
                answers(f'to {target[:90]}', put(target, b'abc'), NOTHING)
        answers('with its length twice', request('PUT', path_of(b'three'), 'Content-Length: 5', 'Content-Length: 05',
                                                 body=b'three'), taken, b'three')
        answers('of HTTP/1.0', request('PUT', path_of(b'four'), 'Content-Length: 4', body=b'four', version='HTTP/1.0'),
                Wanted(200, closes=True), b'four')
        answers('that closes', put(path_of(b'five'), b'five', 'Connection: close'), Wanted(200, closes=True), b'five')
        for what, lines, status in (
                ('without a length', [], 411), ('in chunks', ['Transfer-Encoding: chunked'], 411),
                ('in chunks and with a length', ['Transfer-Encoding: chunked', 'Content-Length: 3'], 411),
                ('with two lengths', ['Content-Length: 3', 'Content-Length: 4'], 400),
                ('with a list of lengths', ['Content-Length: 3, 3'], 400), ('with a sign', ['Content-Length: +3'], 400),
                ('with a length of 19 digits', ['Content-Length: ' + '3'.zfill(19)], 400),
                ('of more than 64 MiB', [f'Content-Length: {64 * MIB + 1}'], 413),
                ('of 18 digits', ['Content-Length: ' + '9' * 18], 413)):
            answers(what, request('PUT', path_of(b'seven'), *lines, body=b'seven'), refused(status))
        for method in ('POST', 'DELETE', 'PATCH', 'put'):
            with cases.case(f'the method {method} where chunks are taken'):
                expect_reply(server, request(method, PATH, 'Content-Length: 3', body=ABC), refused(405))
                expect_store(store, held)
        for number, (what, change) in enumerate(DAMAGES.items()):
            piece = b'damaged %d' % number
            formats.write_chunk(store, formats.digest_of(piece), change(piece))
            answers(f'in the place of a damaged chunk: {what}', put(path_of(piece), piece), taken, piece)
        os.makedirs(store + path_of(b'eight'))
        answers('where a folder stands', put(path_of(b'eight'), b'eight'), Wanted(500))
        os.rmdir(store + path_of(b'eight'))
        answers('where one stood', put(path_of(b'eight'), b'eight'), taken, b'eight')
        put_file(os.path.dirname(store + path_of(b'nine')), b'a file')
        held[path_of(b'nine')[1:5]] = b'a file'
        answers('where a file stands in the place of the folder', put(path_of(b'nine'), b'nine'), Wanted(500))
        with cases.case('a PUT waits for no word that it may go on'):
            with server.connect() as peer:
                peer.sendall(request('PUT', path_of(b'ten'), 'Content-Length: 3', 'Expect: 100-continue'))
                peer.settimeout(0.3)
                with contextlib.suppress(TimeoutError):
                    raise AssertionError(f'the server says {peer.recv(100)} before the body')
                peer.settimeout(servers.SECONDS)
                peer.sendall(b'ten')
                peer.shutdown(socket.SHUT_WR)
                expect_equal(to_the_end(peer), taken.bytes, 'the reply')
            held[path_of(b'ten')[1:]] = b'ten'
            expect_store(store, held)
        with cases.case('a PUT that is refused while 300,000 bytes of its body are sent still has its reply'):
            sent = put(path_of(b'eleven'), bytes(300_000), 'Transfer-Encoding: chunked')
            expect_equal(said_to(server, sent), refused(411).bytes, 'the reply')
        with cases.case('a PUT of 64 MiB'):
            piece = bytes(64 * MIB)
            expect_equal(said_to(server, put(path_of(piece), piece)), taken.bytes, 'the reply')
            expect(file_bytes(store + path_of(piece)) == piece, 'the file has other bytes')


# Connections that are cut, and pieces of requests

def pieces(cases, folder):
    store = lay_out(folder)
    held = files_of(store)
    putting = put(path_of(b'body'), b'body')
    large = random.Random(13).randbytes(8 * MIB)
    with ChunkServer(folder, '-w') as server:
        for what, whole in (('GET', GET_ABC), ('PUT', putting)):
            with cases.case(f'a {what} that is cut off anywhere has no reply'):
                for size in range(len(whole)):
                    expect_equal(said_to(server, whole[:size]), b'', f'the reply to {size} bytes')
                expect_store(store, held)
                expect_serves(server)
            with cases.case(f'a {what} in two pieces, and in single bytes'):
                cuts = [*([size] for size in range(1, len(whole))), range(1, len(whole))]
                wanted = GIVES_ABC if what == 'GET' else Wanted(200)
                for places in cuts:
                    expect_equal(said_in_pieces(server, whole, places), wanted.bytes, f'the reply, cut at {places}')
                if what == 'PUT':
                    held[path_of(b'body')[1:]] = b'body'
                    expect_store(store, held)
        with cases.case('bytes without an end of a head, one fewer than are refused'):
            expect_equal(said_to(server, b'x' * (LIMIT - 1)), b'', 'the reply')
        with cases.case('1,000 requests in one piece'):
            several = [(GET_ABC, GIVES_ABC), (request('HEAD', PATH), Wanted(200, length=3)), (putting, Wanted(200)),
                       (put(PATH, b'abd'), Wanted(400)), (request('GET', '/'), NOTHING)] * 200
            got = said_to(server, b''.join(sent for sent, _ in several))
            expect_equal(got, b''.join(wanted.bytes for _, wanted in several), 'the replies')
        formats.write_chunk(store, formats.digest_of(large), large)
        with cases.case('a peer that takes 8 MiB little by little'):
            with server.connect() as peer:
                peer.sendall(request('GET', path_of(large), 'Connection: close'))
                time.sleep(1)
                expect_equal(to_the_end(peer, 1_000), Wanted(200, large, closes=True).bytes, 'the reply')
        for what, leave in (('resets', reset), ('closes', socket.socket.close)):
            with cases.case(f'a peer {what} its connection in the middle of a reply of 8 MiB'):
                for count in (0, 1, 100, 100_000, 4_000_000):
                    peer = server.connect()
                    peer.sendall(request('GET', path_of(large)))
                    while count > 0:
                        count -= len(peer.recv(min(count, 65536)))
                    leave(peer)
                    expect_serves(server)
            with cases.case(f'a peer {what} its connection in the middle of a request, or says nothing'):
                for sent in (b'', b'G', GET_ABC[:40], putting[:-1], put(path_of(large), large)[:4_000_000]):
                    peer = server.connect()
                    peer.sendall(sent)
                    leave(peer)
                    expect_serves(server)
        with cases.case('100 peers who reset their connections at once'):
            for peer in [server.connect() for _ in range(100)]:
                reset(peer)
            expect_serves(server)
        with cases.case('50 peers at once, each in its turn'):
            peers = [server.connect() for _ in range(50)]
            for peer in peers:
                peer.sendall(request('GET', PATH, 'Connection: close'))
            for peer in peers:
                with peer:
                    expect_equal(to_the_end(peer), Wanted(200, ABC, closes=True).bytes, 'the reply')


def said_in_pieces(server, whole, places):
    with server.connect() as peer:
        peer.setsockopt(socket.IPPROTO_TCP, socket.TCP_NODELAY, 1)
        for start, end in zip([0, *places], [*places, len(whole)]):
            peer.sendall(whole[start:end])
            time.sleep(0.001)
        peer.shutdown(socket.SHUT_WR)
        return to_the_end(peer)


def reset(peer):
    peer.setsockopt(socket.SOL_SOCKET, socket.SO_LINGER, struct.pack('ii', 1, 0))
    peer.close()


# Random requests, by a second reading of docs/FORMATS.md

class RandomRequest:
    """A random request, and the reply of a store that holds the chunks `held`, by path, and takes some where
    `takes`."""

    def __init__(self, chance, held, takes):
        method = chance.choice(['GET'] * 4 + ['HEAD'] * 2 + ['PUT'] * 4 + ['POST', 'get', 'DELETE'])
        piece = chance.choice([b'', b'a', b'bb', b'ccc', b'dddd'])
        target = path_of(piece)
        spelled = chance.choice([target] * 6 + [target.upper(), target[:-1], '/', target + '/', '/0000' + target[5:]])
        body = chance.choice([piece] * 4 + [piece + b'x', b''])
        put_one = method == 'PUT'
        length = chance.choice([len(body)] * 12 + [64 * MIB + 1])
        lines = [('Content-Length', str(length))] if put_one else []
        lines += chance.choice([[]] * 12 + [[('content-length', f'0{length}')], [('Content-Length', '7, 7')],
                                            [('CONTENT-LENGTH', '0')]])
        lines += chance.choice([[]] * 14 + [[('Transfer-Encoding', 'chunked')], [('transfer-encoding', '')]])
        lines += chance.choice([[]] * 8 + [[('Connection', 'close')], [('connection', 'x ,\tCLOSE')],
                                           [('Connection', 'keep-alive')], [('Accept', '*/*'), ('Range', 'bytes=1-')]])
        if put_one and chance.random() < .05:
            lines = [line for line in lines if line[0].lower() != 'content-length']
        chance.shuffle(lines)
        version = chance.choice(['HTTP/1.1'] * 12 + ['HTTP/1.0'])
        told = [f'{name}:{chance.choice(["", " ", chr(9)])}{value}' for name, value in lines]
        self.sent = request(method, spelled, *told, version=version, body=body if put_one else b'')
        status = self.refusal(method, lines, takes)
        closes = status is not None or version == 'HTTP/1.0' or any(
            word.strip(' \t').lower() == 'close' for value in values(lines, 'connection') for word in value.split(','))
        if status is not None:
            self.wanted = refused(status)
        elif spelled.lower() != target:
            self.wanted = Wanted(404, closes=closes)
        elif put_one:
            if body == piece:
                held[target] = piece
            self.wanted = Wanted(200 if body == piece else 400, closes=closes)
        elif target not in held:
            self.wanted = Wanted(404, closes=closes)
        else:
            self.wanted = Wanted(200, piece if method == 'GET' else b'', len(piece), closes)

    @staticmethod
    def refusal(method, lines, takes, most=64 * MIB):
        if method not in ('GET', 'HEAD', 'PUT') or method == 'PUT' and not takes:
            return 405
        if values(lines, 'transfer-encoding'):
            return 411
        lengths = [value.strip(' \t') for value in values(lines, 'content-length')]
        if not all(re.fullmatch('[0-9]{1,18}', length) for length in lengths) or len(set(map(int, lengths))) > 1:
            return 400
        if method != 'PUT':
            return 400 if any(map(int, lengths)) else None
        if not lengths:
            return 411
        return 413 if int(lengths[0]) > most else None


def values(lines, name):
    return [value for each, value in lines if each.lower() == name]


# Any bytes, by the same reading

TOKEN = rb"[!#$%&'*+\-.^_`|~0-9A-Za-z]+"
TEXT = rb'[\t\x20-\x7e\x80-\xff]*'
HEADER = re.compile(rb'(%s):(%s)\r?\n' % (TOKEN, TEXT))
REQUEST = re.compile(rb'(?:\r?\n)*(%s) ([\x21-\x7e\x80-\xff]+) HTTP/1\.([01])\r?\n((?:%s:%s\r?\n)*)\r?\n'
                     % (TOKEN, TOKEN, TEXT))
STATUS = re.compile(rb'(?:\r?\n)*HTTP/1\.[01] ([0-9]{3})(?: %s)?\r?\n((?:%s:%s\r?\n)*)\r?\n' % (TEXT, TOKEN, TEXT))
HEAD_ENDS = re.compile(rb'\n\r?\n')
MOST_LINES = 64


def head_of(data):
    """Where the head ends with which bytes begin, or None where 16,384 bytes have no end."""
    end = HEAD_ENDS.search(data, 0, LIMIT)
    return end.end() if end else None


def header_lines(spelled):
    """The names and values of header lines, or None where they are too many."""
    lines = [(name.decode('latin1'), value.strip(b' \t').decode('latin1')) for name, value in HEADER.findall(spelled)]
    return lines if len(lines) <= MOST_LINES else None


def read_head(head):
    """Method, target, whether the version is 1.0, and header lines of a request's head; None where it isn't right."""
    read = REQUEST.fullmatch(head)
    lines = header_lines(read[4]) if read else None
    if lines is None:
        return None
    try:
        return read[1].decode(), read[2].decode('utf-8'), read[3] == b'0', lines
    except UnicodeDecodeError:
        return None


class Chunks:
    """What `chunk-server` has under its paths: chunks, of at most so many bytes."""
    most = 64 * MIB

    @staticmethod
    def path(target):
        """The path of what a target names, or None."""
        path = target.lower()
        is_path = re.fullmatch('/([0-9a-fA-F]{4})/([0-9a-fA-F]{64})', target) and path[1:5] == path[6:10]
        return path if is_path else None

    @staticmethod
    def is_right(path, body):
        """Whether the body may be put there."""
        return formats.digest_of(body).hex() == path[6:]


class Indexes:
    """The same of `index-server`."""
    most = 167_772_264

    @staticmethod
    def path(target):
        return target if re.fullmatch(r'/(?=.{1,128}$)[A-Za-z0-9_-][A-Za-z0-9._-]*\.caibx', target) else None

    @staticmethod
    def is_right(path, body):
        return formats.fault_of(body) is None


def reply_to(head, rest, held, takes, kind):
    """The reply to a request, and how many bytes its body has; None where the body isn't whole."""
    read = read_head(head)
    if read is None:
        return refused(400), 0
    method, target, is_old, lines = read
    status = RandomRequest.refusal(method, lines, takes, kind.most)
    if status is not None:
        return refused(status), 0
    closes = is_old or any(word.strip(' \t').lower() == 'close' for value in values(lines, 'connection')
                           for word in value.split(','))
    size = int(values(lines, 'content-length')[0]) if method == 'PUT' else 0
    if len(rest) < size:
        return None, 0
    path, body = kind.path(target), rest[:size]
    if path is None or method != 'PUT' and path not in held:
        return Wanted(404, closes=closes), size
    if method == 'PUT':
        is_right = kind.is_right(path, body)
        if is_right:
            held[path] = body
        return Wanted(200 if is_right else 400, closes=closes), size
    return Wanted(200, held[path] if method == 'GET' else b'', len(held[path]), closes), size


def replies_to(data, held, takes, kind=Chunks):
    """All that is said on a connection to which these bytes come, and then its end. `held` is what is there by path."""
    said = b''
    while True:
        end = head_of(data)
        if end is None:
            return said + (refused(431).bytes if len(data) >= LIMIT else b'')
        wanted, size = reply_to(data[:end], data[end:], held, takes, kind)
        if wanted is None:
            return said
        said += wanted.bytes
        if wanted.closes:
            return said
        data = data[end + size:]


# Replies that are read

SIZE_LINE = re.compile(rb'([0-9a-fA-F]{1,16})[ \t]*(?:;[^\r\n]*)?\r\n')
FAILED, MISSING, LONGER, TAKEN = 'failed', 'missing', 'longer', 'taken'


def reply_given(data, method, room):
    """What a store gives where these bytes come in reply to a method, and then the end: the body of a GET; or that it
    is missing, longer than the room, taken, or that the reply is none."""
    end = head_of(data)
    read = STATUS.fullmatch(data[:end]) if end else None
    lines = header_lines(read[2]) if read else None
    if lines is None:
        return FAILED
    status = int(read[1])
    codings = [value.lower() for value in values(lines, 'transfer-encoding')]
    lengths = values(lines, 'content-length')
    has_body = method != 'HEAD' and status >= 200 and status not in (204, 304)
    if has_body and codings and codings != ['chunked']:
        return FAILED
    if has_body and not codings and lengths and not are_right(lengths):
        return FAILED
    if method == 'PUT':
        return TAKEN if 200 <= status < 300 else FAILED
    if status != 200:
        return MISSING if status == 404 else FAILED
    if method == 'HEAD':
        return TAKEN
    return body_given(data[end:], codings, lengths, room)


def are_right(lengths):
    return all(re.fullmatch('[0-9]{1,18}', length) for length in lengths) and len(set(map(int, lengths))) == 1


def body_given(data, codings, lengths, room):
    if codings:
        return chunks_given(data, room)
    if not lengths:
        return data if len(data) <= room else LONGER
    length = int(lengths[0])
    if length > room and data:
        return LONGER
    return data[:length] if len(data) >= length else FAILED


def chunks_given(data, room):
    body = b''
    while True:
        line = SIZE_LINE.match(data, 0, 256)
        if line is None:
            return FAILED
        size, data = int(line[1], 16), data[line.end():]
        if size == 0:
            return body if trailer_ends(data) else FAILED
        if len(body) + size > room:
            return LONGER
        if data[size:size + 2] != b'\r\n':
            return FAILED
        body, data = body + data[:size], data[size + 2:]


def trailer_ends(data):
    """Whether the lines up to an empty one are there, within 16,384 bytes."""
    at = 0
    while True:
        end = data.find(b'\n', at, LIMIT)
        if end < 0:
            return False
        if data[at:end] in (b'', b'\r'):
            return True
        at = end + 1


def at_random(cases, folder):
    chance = random.Random(14)
    for takes in (True, False):
        top = os.path.join(folder, str(takes))
        os.makedirs(os.path.join(top, 'st'))
        held = {}
        if not takes:
            held = {path_of(piece): piece for piece in (b'a', b'ccc')}
        for path, piece in held.items():
            put_file(os.path.join(top, 'st') + path, piece)
        told = set()
        with ChunkServer(top, *['-w'] * takes) as server:
            for turn in range(4):
                with cases.case(f'random requests, {"taking chunks" if takes else "taking none"}, turn {turn}'):
                    for _ in range(150):
                        sent, wanted = b'', b''
                        for _ in range(chance.randint(1, 8)):
                            one = RandomRequest(chance, held, takes)
                            sent, wanted = sent + one.sent, wanted + one.wanted.bytes
                            told.add(one.wanted.bytes[9:12])
                            if one.wanted.closes:
                                break
                        expect_equal(said_to(server, sent), wanted, f'what is said to {sent}')
                    expect_store(os.path.join(top, 'st'), {path[1:]: piece for path, piece in held.items()})
        with cases.case('the random requests had each reply'):
            wanted = {b'200', b'400', b'404', b'405', b'411'} | ({b'413'} if takes else set())
            expect_equal(told, wanted, 'the statuses')


GROUPS = (heads, chunks, puts, pieces, at_random)
