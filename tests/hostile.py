#!/usr/bin/env python3
"""Random bytes at the program: indexes, requests, replies, words and locations that were right and then changed.

    tests/hostile.py                        10,000 rounds
    tests/hostile.py --rounds N [--seed S]  N rounds of each kind, from a seed

Each answer is compared with tests/formats.py and tests/replies.py. The seed is printed, so that a round that has failed
can be run again. The program has 64 MiB of address space beside what an index lists, whatever sizes the bytes claim;
replies and requests without an end are measured. The servers listen on the loopback interface at free ports.
"""

import concurrent.futures
import contextlib
import os
import random
import re
import resource
import socket
import struct
import subprocess
import sys
import time
from collections import Counter

import formats
import program
import servers
import words
from checks import Cases, expect, expect_ended, expect_equal, file_bytes, files_of, needs_program, put_file
from replies import (LIMIT, Indexes, RandomRequest, expect_serves, lay_out, path_of, put, replies_to, reply_given,
                     request, said_to)
from servers import ChunkServer, IndexServer, in_chunks, reply, to_the_end

# They are 10,000 in all.
ROUNDS = {'indexes': 1_800, 'requests': 4_000, 'requests for indexes': 800, 'replies': 1_400,
          'replies with indexes': 600, 'words': 1_000, 'locations': 400}
# Rounds of a case, and of a process that does some of a kind.
CASE = 50
PART = 200
MIB = 1 << 20
SPACE = 64 * MIB
# The most peak memory in KiB of a run whose index lists little.
PEAK = 64 << 10
# Numbers that sizes, places and counts are compared with.
NUMBERS = [0, 1, 2, 48, 255, 16384, 65536, 262144, 1 << 22, 4 << 20, 64 << 20, (64 << 20) + 1, (1 << 31) - 1, 1 << 32,
           (1 << 63) - 1, 1 << 63, (1 << 64) - 1, formats.INDEX_TYPE, formats.TABLE_TYPE, formats.TAIL_MARKER,
           formats.SHA512_256_FLAG]


def run_small(given, folder, more=0):
    """Runs the program in 64 MiB of address space, and more."""
    def lower():
        resource.setrlimit(resource.RLIMIT_AS, (SPACE + more, SPACE + more))
    return program.run(given, folder, lower=lower)


class Rounds:
    """Rounds of a kind, in cases of fifty, from the numbers `firsts` on and below `count`. A round that fails tells its
    number. `told` counts what the answers were."""

    def __init__(self, cases, seed, firsts, count):
        self.cases = cases
        self.seed = seed
        self.firsts = firsts
        self.count = count
        self.told = Counter()

    def run(self, kind, one):
        for first in self.firsts:
            with self.cases.case(f'random {kind}, from round {first} on, seed {self.seed}') as folder:
                for number in range(first, min(first + CASE, self.count)):
                    chance = random.Random(f'{self.seed} {kind} {number}')
                    try:
                        one(chance, folder)
                    except AssertionError as why:
                        raise AssertionError(f'round {number}: {why}') from why


def changed(chance, data, parts=()):
    """The bytes with one to four changes; `parts` are bytes that may come in."""
    data = bytearray(data)
    for _ in range(chance.choice([1, 1, 1, 2, 3, 4])):
        at = chance.randint(0, len(data))
        upto = min(len(data), at + chance.choice([1, 1, 2, 8, 40]))
        kind = chance.randrange(7)
        if kind == 0 and at < len(data):
            data[at] ^= 1 << chance.randrange(8)
        elif kind == 1 and at < len(data):
            data[at] = chance.randrange(256)
        elif kind == 2:
            del data[at:upto]
        elif kind == 3:
            data[at:at] = data[chance.randint(0, at):at][:chance.choice([1, 8, 40, 300])]
        elif kind == 4:
            del data[at:]
        else:
            upto = at if chance.random() < .5 else upto
            data[at:upto] = chance.choice(parts) if parts else chance.randbytes(chance.randint(0, 9))
    return bytes(data)


# Indexes

def random_index(chance):
    """The bytes of an index, most of which is right, and the image that it had listed, with its pieces."""
    pieces = [chance.randbytes(chance.randint(1, 60)) for _ in range(chance.randint(0, 5))]
    pieces += chance.choices(pieces, k=chance.randint(0, 2)) if pieces else []
    index = formats.index_of_pieces(pieces)
    if chance.random() < .2:
        index.sizes = tuple(chance.choice(NUMBERS) for _ in range(3))
    data = bytearray(formats.spell_index(index))
    how = chance.random()
    if how < .45:
        # A word of eight bytes is another number.
        at = 8 * chance.randrange(len(data) // 8)
        data[at:at + 8] = struct.pack('<Q', chance.choice([*NUMBERS, chance.randrange(1 << 20)]))
    elif how < .85:
        data = changed(chance, data, [struct.pack('<Q', chance.choice(NUMBERS)), b'\0', b'\xff' * 9, bytes(40)])
    elif how < .88:
        data = chance.randbytes(chance.randint(0, 300))
    elif how < .93:
        data += chance.randbytes(chance.randint(1, 50))
    return bytes(data), b''.join(pieces), pieces


def indexes(rounds):
    def one(chance, folder):
        data, image, pieces = random_index(chance)
        try:
            rounds.told[read_index(chance, folder, data, image, pieces)] += 1
        except AssertionError as why:
            raise AssertionError(f'of the index {data.hex()}: {why}') from why

    rounds.run('indexes', one)


def read_index(chance, folder, data, image, pieces):
    """A changed index is read as formats.py reads it, by each command. Answers its fault, or `right`."""
    put_file(os.path.join(folder, 'a.caibx'), data)
    index, text = formats.read_text(data, 'a.caibx')
    out = '' if text else formats.listed(index)
    expect_ended(run_small(['list-chunks', 'a.caibx'], folder), text, out, 'list-chunks')
    kind = chance.randrange(3)
    if kind == 0:
        out = '' if text else formats.figures(index)
        expect_ended(run_small(['info', 'a.caibx'], folder), text, out, 'info')
    elif kind == 1:
        image = image if chance.random() < .8 else changed(chance, image)
        put_file(os.path.join(folder, 'image'), image)
        text = text or formats.checked(index, image)
        expect_ended(run_small(['verify-index', 'a.caibx', 'image'], folder), text, what='verify-index')
    else:
        extract_it(chance, folder, data, pieces)
    return formats.fault_of(data) or 'right'


def extract_it(chance, folder, data, pieces):
    store, out = os.path.join(folder, 'st'), os.path.join(folder, 'o')
    os.makedirs(store, exist_ok=True)
    old = changed(chance, b''.join(pieces)) if chance.random() < .5 else None
    with contextlib.suppress(FileNotFoundError):
        os.remove(out)
    if old is not None:
        put_file(out, old)
    for piece in pieces:
        formats.write_chunk(store, formats.digest_of(piece), piece if chance.random() < .9 else changed(chance, piece))
    text, wanted = formats.extracted(data, 'a.caibx', [store], old)
    index, _ = formats.read_text(data, 'a.caibx')
    largest = max((end - start for start, end, _ in index.slices()), default=0) if index else 0
    ended = run_small(['extract', '-k', '-n', '1', '-s', 'st', 'a.caibx', 'o'], folder, largest)
    expect_ended(ended, text, what='extract')
    expect_equal(file_bytes(out), wanted, 'the output')


# Requests

HELD = [b'', b'a', b'bb', b'ccc', b'dddd']
WORDS_OF_HEADS = [b'\r\n', b'\n', b'\r', b'\r\n\r\n', b'\0', b':', b' ', b'\t', b',', b'/', b'HTTP/1.0', b'PUT ',
                  b'HEAD ', b'Content-Length: 3\r\n', b'Content-Length: 18446744073709551615\r\n',
                  b'Connection: close\r\n',
                  b'Transfer-Encoding: chunked\r\n', b'A: b\r\n' * 70, b'\xff', b'%2e', b'../', b'x' * 17_000,
                  b'Content-Length: 67108864\r\n', b'Content-Length: -1\r\n', b'Content-Length: 99999999999999999\r\n']


def random_talk(chance):
    """The bytes of some requests, changed."""
    sent = b''.join(RandomRequest(chance, {}, True).sent for _ in range(chance.randint(1, 4)))
    return changed(chance, sent, WORDS_OF_HEADS) if chance.random() < .9 else chance.randbytes(chance.randint(0, 2_000))


def held_of(pieces):
    return {path_of(piece): piece for piece in pieces}


def expect_said(server, sent):
    """Answers the statuses of the replies, which are those of replies.py."""
    wanted = replies_to(sent, held_of(HELD), True)
    expect_equal(said_to(server, sent), wanted, f'what is said to {sent[:3_000]!r}')
    return re.findall(rb'^HTTP/1.1 ([0-9]+) ', wanted, re.MULTILINE) or [b'none']


def requests(rounds, workers, at_once):
    """The store has all chunks that requests are about, so what is put changes nothing."""
    cases = rounds.cases
    folder = os.path.join(cases.top, 'requests')
    os.mkdir(folder)
    store = lay_out(folder, *HELD)
    before = files_of(store)
    with ChunkServer(folder, '-w', '-n', workers) as server, concurrent.futures.ThreadPoolExecutor(at_once) as threads:
        def talk(chance, _):
            talks = [random_talk(chance) for _ in range(at_once)]
            for statuses in threads.map(lambda sent: expect_said(server, sent), talks):
                rounds.told.update(statuses)

        rounds.run('requests', talk)
        with cases.case(f'the store and the memory of a server with -n {workers} after random requests'):
            expect_serves(server)
            expect(files_of(store) == before, 'the store has changed')
            expect_small(server)


# Requests for indexes

LISTS_ABC = formats.ABC_INDEX
LISTS_TWO = formats.spell_index(formats.index_of_pieces([b'a', b'bb']))
SERVED = {'/a.caibx': LISTS_ABC, '/b.caibx': LISTS_TWO}
TARGETS = ['/a.caibx'] * 5 + ['/b.caibx', '/new.caibx', '/text.caibx', '/', '/a', '/.caibx', '/../a.caibx', '/A.CAIBX',
                              '/./a.caibx', '/a.caibx/', '/%61.caibx', f'/{"x" * 122}.caibx', f'/{"x" * 123}.caibx']


def random_asks(chance):
    """The bytes of some requests for indexes, changed."""
    sent = b''
    for _ in range(chance.randint(1, 4)):
        method, target = chance.choice(['GET', 'GET', 'HEAD', 'PUT', 'PUT', 'PUT', 'POST']), chance.choice(TARGETS)
        body = chance.choice([LISTS_ABC, LISTS_TWO, LISTS_ABC[:-1], LISTS_TWO + b'\0', changed(chance, LISTS_ABC), b''])
        sent += put(target, body) if method == 'PUT' else request(method, target)
    return changed(chance, sent, WORDS_OF_HEADS) if chance.random() < .8 else sent


def requests_for_indexes(rounds):
    """Each round begins with the same files, and with one that is no index."""
    cases = rounds.cases
    folder = os.path.join(cases.top, f'requests for indexes {rounds.firsts[0]}')
    begun = {path[1:]: data for path, data in [*SERVED.items(), ('/text.caibx', b'text')]}
    store = os.path.join(folder, 'st')
    for name, data in begun.items():
        put_file(os.path.join(store, name), data)
    with IndexServer(folder, '-w') as server:
        def talk(chance, _):
            sent, held = random_asks(chance), dict(SERVED)
            wanted = replies_to(sent, held, True, Indexes)
            expect_equal(said_to(server, sent), wanted, f'what is said to {sent[:3_000]!r}')
            rounds.told.update(re.findall(rb'^HTTP/1.1 ([0-9]+) ', wanted, re.MULTILINE) or [b'none'])
            left = begun | {path[1:]: data for path, data in held.items()}
            expect(files_of(store) == left, f'the folder has other files after {sent[:3_000]!r}')
            for path in held:
                os.remove(os.path.join(store, path[1:]))
            for name, data in begun.items():
                put_file(os.path.join(store, name), data)

        rounds.run('requests for indexes', talk)
        with cases.case('the memory of a server of indexes after random requests'):
            expect_small(server)


# Replies

PIECE = b'a chunk of some bytes'
WORDS_OF_REPLIES = [b'\r\n', b'\n', b'\r', b'\r\n\r\n', b'0', b'\0', b'204', b'404', b'301', b'100', b';x=y', b'f' * 16,
                    b'Transfer-Encoding: chunked\r\n', b'Transfer-Encoding: gzip\r\n', b'Content-Length: 3\r\n',
                    b'Content-Length: 21\r\n', b'Content-Length: 18446744073709551615\r\n', b'x' * 17_000, b' ', b':',
                    b'Content-Length: 999999999999999999\r\n', b'A: b\r\n' * 70, b'HTTP/1.1 200 OK\r\n\r\n', b'\xff']


def random_reply(chance, body=PIECE):
    """The bytes of a reply, mostly changed; a GET of it would give the body."""
    whole = reply(200, body)
    spelled = chance.choice([whole, whole, in_chunks(body, chance.randint(1, 30)), to_the_end(body), reply(404),
                             in_chunks(body, 7, b';a=b', b'A: b\r\n'), reply(200, body + b'x')])
    return changed(chance, spelled, WORDS_OF_REPLIES) if chance.random() < .85 else spelled


class Scripted:
    """A server that sends the bytes of `said`, by the method that it is asked by, whatever it is asked."""

    def __init__(self):
        self.said = {}
        self.server = servers.Server(lambda peer, method, *_: peer.sendall(self.said[method]))


def text_of_gets(given, piece=PIECE):
    """The text where a store that is asked by GET gives this."""
    if isinstance(given, bytes):
        return '' if given == piece else formats.refusal(0, formats.digest_of(piece), 'damaged', 0)
    why = {'failed': 'failed', 'missing': 'missing', 'longer': 'damaged'}[given]
    return formats.refusal(0, formats.digest_of(piece), why, 0)


def replies(rounds):
    scripted = Scripted()
    with scripted.server as server:
        def one(chance, folder):
            index = formats.index_of_pieces([PIECE])
            formats.write_index(os.path.join(folder, 'a.caibx'), index)
            put_file(os.path.join(folder, 'image'), PIECE)
            scripted.said = {method: random_reply(chance) for method in ('GET', 'HEAD', 'PUT')}
            given = {method: reply_given(said, method, len(PIECE)) for method, said in scripted.said.items()}
            rounds.told.update(what if isinstance(what, str) else 'a body' for what in given.values())
            command = chance.choice(['extract', 'extract -k', 'info', 'cache', 'make', 'chop'])
            try:
                answered(command, folder, server.url(), given)
            except AssertionError as why:
                raise AssertionError(f'{command}, to which is said {scripted.said}: {why}') from why

        rounds.run('replies', one)


def answered(command, folder, url, given):
    """The command ends as the replies that are given say."""
    got = text_of_gets(given['GET'])
    if command.startswith('extract'):
        put_file(os.path.join(folder, 'o'), b'old')
        ended = run_small([*command.split(), '-n', '1', '-s', url, 'a.caibx', 'o'], folder)
        expect_ended(ended, got)
        left = bytes(len(PIECE)) if command == 'extract -k' else b'old'
        left = b'old' + left[3:]
        expect_equal(file_bytes(os.path.join(folder, 'o')), PIECE if got == '' else left, 'the output')
    elif command == 'info':
        index = formats.index_of_pieces([PIECE])
        held = {'taken': 1, 'missing': 0, 'failed': None}[given['HEAD']]
        out = '' if held is None else formats.figures(index, held)
        expect_ended(run_small(['info', '-s', url, 'a.caibx'], folder), 'store 0 failed' if held is None else '', out)
    elif command == 'cache':
        near = os.path.join(folder, 'near')
        os.makedirs(near, exist_ok=True)
        with contextlib.suppress(FileNotFoundError):
            os.remove(formats.chunk_path(near, formats.digest_of(PIECE)))
        expect_ended(run_small(['cache', '-n', '1', '-s', url, '-c', 'near', 'a.caibx'], folder), got)
        held = {formats.path_in_store(formats.digest_of(PIECE)): PIECE} if got == '' else {}
        expect_equal(files_of(near), held, 'the cache')
    else:
        is_put = given['GET'] != PIECE and given['GET'] != 'failed'
        text = 'store 0 failed' if given['GET'] == 'failed' or is_put and given['PUT'] == 'failed' else ''
        given_words = {'make': ['made.caibx', 'image', '-n', '1'], 'chop': ['a.caibx', 'image']}[command]
        expect_ended(run_small([command, '-s', url, *given_words], folder), text)


def replies_with_indexes(rounds):
    """An INDEX that is a URL, to which a changed reply comes that has a changed index."""
    scripted = Scripted()
    with scripted.server as server:
        def one(chance, folder):
            data, image, pieces = random_index(chance)
            scripted.said = {'GET': random_reply(chance, data)}
            given = reply_given(scripted.said['GET'], 'GET', Indexes.most)
            rounds.told[given if isinstance(given, str) else 'a body'] += 1
            try:
                reads_from(server.url('/x'), chance, folder, given, image)
            except AssertionError as why:
                raise AssertionError(f'to which is said {scripted.said}: {why}') from why

        rounds.run('replies with indexes', one)


def reads_from(url, chance, folder, given, image):
    """A command reads the index that the reply gives."""
    if isinstance(given, bytes):
        index, text = formats.read_text(given, url)
    else:
        index, text = None, f'{url}: {"no such file" if given == "missing" else "failed"}'
    command = chance.choice(['list-chunks', 'info', 'verify-index'])
    put_file(os.path.join(folder, 'image'), image)
    if command == 'verify-index':
        text = text or formats.checked(index, image)
    out = {'list-chunks': formats.listed, 'info': formats.figures}.get(command, lambda index: '')
    ended = program.run([command, url, *['image'] * (command == 'verify-index')], folder)
    expect_ended(ended, text, '' if text else out(index), command)


# Words

def random_words(rounds):
    rounds.run('words', said_words)


CHARACTERS = ['-', '--', 'x', '0', '9', ':', '|', ' ', '\t', '\n', '=', '*', '"', '\\', 'é', '٣', '\u2028', '𝛑']


def changed_words(chance):
    given = words.random_words(chance) or ['extract']
    at = chance.randrange(len(given))
    word, place = given[at], chance.randint(0, len(given[at]))
    kind = chance.randrange(4)
    if kind == 0:
        given[at] = word[:place] + chance.choice(CHARACTERS) + word[place:]
    elif kind == 1:
        given[at] = word[:place] + word[place + 1:]
    elif kind == 2:
        given[at] = word * chance.choice([2, 3])
    else:
        given[at] = chance.choice(given)
    return given


def is_read(given):
    """Whether tests/words.py knows what the words mean, and no run of them takes long or finds a file."""
    demo = [word for word in given if given[0] == 'demo' and re.fullmatch('[0-9]{6,}', word)]
    return not demo and not any('://' in word and word not in words.LOCATIONS or '\0' in word for word in given)


def said_words(chance, folder):
    given = changed_words(chance)
    if is_read(given):
        words.agrees(given, folder)
    broken = [word.encode() for word in given]
    broken[chance.randrange(len(broken))] += chance.choice([b'\xff', b'\xc3', b'\xed\xa0\x80', b'\xf5\x80\x80\x80'])
    ended = program.run(broken, folder)
    expect_ended(ended, 'a word is no text in UTF-8', what=broken)
    expect_equal(os.listdir(folder), [], f'the folder after {broken}')


# Locations

PIECES_OF_PATHS = [' ', '\t', '\r\n', '\n', '%0d%0a', '%00', '\\', '..', '.', '/', '//', ';', 'é', '\x01', '\x7f',
                   '<', '"', '`', '{', '}', '^', '%', '%zz', '?', '#', '@', ':', '[', '+', '&', 'HTTP/1.1', '%20',
                   'a', '\u2028']
ASK = re.compile(rb'HEAD (/[\x21-\x7e]*) HTTP/1\.1\r\nHost: 127\.0\.0\.1:[0-9]+\r\nAccept-Encoding: identity\r\n'
                 rb'Connection: close')


def locations(rounds):
    """Whatever the path of a location is, the request is of one line, and asks for a chunk without `..` before it. It
    has no `|`, which would end it."""
    with servers.Server(lambda peer, *_: peer.sendall(reply(404))) as server:
        def one(chance, folder):
            put_file(os.path.join(folder, 'a.caibx'), formats.ABC_INDEX)
            path = ''.join(chance.choice(PIECES_OF_PATHS) for _ in range(chance.randint(0, 8)))
            before = len(server.heads)
            ended = program.run(['info', '-s', f'http://127.0.0.1:{server.port}/{path}', 'a.caibx'], folder)
            if len(server.heads) == before:
                expect_ended(ended, 'word 2: BadLocation', what=repr(path))
            else:
                expect_ended(ended, '', formats.figures(formats.read_index(formats.ABC_INDEX), 0), repr(path))
                asked = ASK.fullmatch(server.heads[-1])
                expect(asked and b'..' not in asked[1].split(b'/') and asked[1].endswith(path_of(b'abc').encode()),
                       f'the request for {path!r} is {server.heads[-1]}')

        rounds.run('locations', one)


# Memory and time

def sizes(cases):
    """Whatever sizes the bytes tell, memory is taken for what is there."""
    claims = bytearray(formats.EMPTY_INDEX)
    claims[88:96] = struct.pack('<Q', 16 + 40 * (1 << 22) + 40)
    for what, data, text in (
            ('claims 2^22 entries and has none', claims, ''),
            ('ends before its entries', claims[:64], 'a.caibx: bad index: truncated at byte 64'),
            ('has 160 MiB of zeros for entries', claims[:64] + bytes(160 * MIB), 'a.caibx: bad index: bad table tail')):
        for command in (['list-chunks'], ['extract', '-k', '-n', '1', '-s', '.']):
            with cases.case(f'memory for an index that {what}: {command[0]}') as folder:
                put_file(os.path.join(folder, 'a.caibx'), data)
                operands = ['a.caibx', 'o'] if command[0] == 'extract' else ['a.caibx']
                ended, _, peak = program.run_measured([*command, *operands], folder)
                expect_ended(ended, text)
                expect(peak < PEAK, f'the peak is {peak} KiB')


def endless(peer, front, piece):
    """Sends without an end, until the peer hangs up or 256 MiB are sent."""
    peer.sendall(front)
    many = piece * (65_536 // len(piece) + 1)
    with contextlib.suppress(OSError):
        for _ in range(256 * MIB // len(many)):
            peer.sendall(many)


CHUNKED = b'HTTP/1.1 200 OK\r\nTransfer-Encoding: chunked\r\n\r\n'
ENDLESS = {
    'the length 2^64 - 1': (b'HTTP/1.1 200 OK\r\nContent-Length: 18446744073709551615\r\n\r\n', b'x', 'failed'),
    'the length 10^18 - 1': (b'HTTP/1.1 200 OK\r\nContent-Length: 999999999999999999\r\n\r\n', b'x', 'damaged'),
    'a body without an end': (b'HTTP/1.1 200 OK\r\n\r\n', b'x', 'damaged'),
    'a head without an end': (b'HTTP/1.1 200 OK\r\n', b'A: b\r\n', 'failed'),
    'a line of the head without an end': (b'HTTP/1.1 200 OK\r\nA:', b'b', 'failed'),
    'no line end': (b'', b'H', 'failed'),
    'empty lines without an end': (b'', b'\r\n', 'failed'),
    'the extension of a chunk without an end': (CHUNKED + b'1;', b'x', 'failed'),
    'chunks of one byte with extensions': (CHUNKED, b'1;' + b'x' * 200 + b'\r\na\r\n', 'damaged'),
    'a chunk of 2^64 - 1 bytes': (CHUNKED + b'ffffffffffffffff\r\n', b'x', 'damaged'),
    'chunks whose sizes add up to 2^64': (CHUNKED + b'1\r\na\r\nffffffffffffffff\r\n', b'x', 'damaged'),
    'a size of 17 digits': (CHUNKED + b'00000000000000001\r\n', b'x', 'failed'),
    'a trailer without an end': (CHUNKED + b'0\r\n', b'A: b\r\n', 'failed'),
    'digits without an end': (CHUNKED, b'0', 'failed'),
}


def endless_replies(cases):
    for what, (front, piece, why) in ENDLESS.items():
        for command in (['extract', '-k', '-n', '1'], ['cache', '-n', '1', '-c', '.']):
            with cases.case(f'a reply has {what}: {command[0]}') as folder:
                formats.write_index(os.path.join(folder, 'a.caibx'), formats.index_of_pieces([PIECE]))
                with servers.Server(lambda peer, *_: endless(peer, front, piece)) as server:
                    operands = ['a.caibx', 'o'] if command[0] == 'extract' else ['a.caibx']
                    ended, _, peak = program.run_measured([*command, '-s', server.url(), *operands], folder)
                expect_ended(ended, formats.refusal(0, formats.digest_of(PIECE), why, 0))
                expect(peak < PEAK, f'the peak is {peak} KiB')


def endless_indexes(cases):
    """The same of an INDEX that is a URL. What tells no length has room for the longest index."""
    for what, (front, piece, _) in ENDLESS.items():
        with cases.case(f'a reply with an index has {what}') as folder:
            with servers.Server(lambda peer, *_: endless(peer, front, piece)) as server:
                url = server.url('/x')
                ended, _, peak = program.run_measured(['list-chunks', url], folder)
            expect_ended(ended, f'{url}: failed')
            expect(peak < PEAK + (Indexes.most >> 10), f'the peak is {peak} KiB')


ENDLESS_REQUESTS = {
    'no line end': (b'', b'G', b'431'),
    'header lines': (b'GET / HTTP/1.1\r\n', b'A: b\r\n', b'431'),
    'empty lines': (b'', b'\r\n', b'400'),
    'a target': (b'GET /', b'x', b'431'),
    'a body of 2^64 - 1 bytes': (request('PUT', '/', 'Content-Length: 18446744073709551615'), b'x', b'400'),
    'a body of 10^17 bytes': (request('PUT', '/', 'Content-Length: ' + '9' * 17), b'x', b'413'),
}


def endless_requests(cases):
    """A server of one worker ends each of these, and then serves the next peer."""
    folder = os.path.join(cases.top, 'endless')
    os.mkdir(folder)
    lay_out(folder)
    for workers in ('1', '8'):
        with ChunkServer(folder, '-w', '-n', workers) as server:
            for what, (front, piece, status) in ENDLESS_REQUESTS.items():
                with cases.case(f'a request has {what} without an end, -n {workers}'), server.connect() as peer:
                    endless_one(peer, front, piece, status)
                    expect_serves(server)
                    expect_small(server)


def claims(cases):
    """Bodies that were told and don't come take no memory."""
    folder = os.path.join(cases.top, 'claims')
    os.mkdir(folder)
    lay_out(folder)
    with cases.case('64 peers tell a body of 64 MiB each, and send 1,000 bytes of it'), \
            ChunkServer(folder, '-w') as server, contextlib.ExitStack() as held:
        for number in range(64):
            path = path_of(str(number).encode())
            peer = held.enter_context(server.connect())
            peer.sendall(request('PUT', path, f'Content-Length: {64 * MIB}') + bytes(1_000))
        expect_serves(server)
        expect_small(server)


def expect_small(server):
    with open(f'/proc/{server.process.pid}/status', encoding='utf-8') as file:
        peak = int(re.search(r'^VmHWM:\s+(\d+) kB$', file.read(), re.MULTILINE)[1])
    expect(peak < PEAK, f'the peak of its memory is {peak} KiB')


def endless_one(peer, front, piece, status):
    """The peer sends until it is answered and hung up on."""
    got = b''
    with contextlib.suppress(OSError):
        peer.sendall(front)
        for _ in range(1_000):
            peer.sendall(piece * (4_096 // len(piece)))
            peer.settimeout(.001)
            with contextlib.suppress(TimeoutError, BlockingIOError):
                got += peer.recv(4_096)
            peer.settimeout(servers.SECONDS)
            if got:
                break
    expect(got.startswith(b'HTTP/1.1 ' + status), f'the reply is {got!r}')


def slow_peer(cases):
    """No other peer waits for one that sends a byte a second; tests/serving.py waits for its end."""
    with cases.case('a peer sends a byte of a request a second, and the others are served') as folder:
        lay_out(folder)
        with ChunkServer(folder, '-w', '-n', '8') as server, server.connect() as slow:
            for byte in put(path_of(b'slow'), b'slow')[:4]:
                slow.sendall(bytes([byte]))
                expect_serves(server)
                time.sleep(1)
            expect_serves(server)


def options(given):
    """The number of rounds, None where it isn't told, and the seed."""
    told = dict(zip(given[::2], given[1::2]))
    if len(given) % 2 or set(told) - {'--rounds', '--seed'}:
        sys.exit(__doc__)
    return int(told.get('--rounds', 0)) or None, told.get('--seed', 'hostile')


def part(cases, seed, firsts, count, function, *given):
    """Some rounds of a kind. Answers how often each of their answers came."""
    rounds = Rounds(cases, seed, firsts, count)
    function(rounds, *given)
    return rounds.told


def parts_of(seed, count):
    """Each kind with what one process does of it. A server of requests has all rounds to itself."""
    parts = []
    for workers, at_once in (('1', 1), ('8', 8)):
        upto = count or ROUNDS['requests'] // at_once // 2
        parts.append(('requests', (part, seed, range(0, upto, CASE), upto, requests, workers, at_once)))
    for kind, function in (('indexes', indexes), ('replies', replies), ('requests for indexes', requests_for_indexes),
                           ('replies with indexes', replies_with_indexes), ('words', random_words),
                           ('locations', locations)):
        upto = count or ROUNDS[kind]
        for first in range(0, upto, PART):
            parts.append((kind, (part, seed, range(first, min(first + PART, upto), CASE), upto, function)))
    return parts


# Answers of which each is to come some times.
TOLD = {
    'indexes': [fault for fault in formats.FAULT_TEXTS if fault != 'Items'] + ['right'],
    'requests': [b'200', b'400', b'404', b'405', b'411', b'413', b'431', b'none'],
    'requests for indexes': [b'200', b'400', b'404', b'405', b'411', b'431', b'none'],
    'replies': ['a body', 'failed', 'longer', 'missing', 'taken'],
    'replies with indexes': ['a body', 'failed', 'missing'],
}


def expect_told(cases, kind, told):
    with cases.case(f'the random {kind} had each of these answers: {" ".join(map(str, TOLD[kind]))}'):
        few = {what: told[what] for what in TOLD[kind] if told[what] < 3}
        expect(not few, f'how often these came: {few}')


def main():
    needs_program('hostile')
    count, seed = options(sys.argv[1:])
    print(f'hostile: seed {seed}, {count or ROUNDS} rounds', flush=True)
    cases = Cases('hostile')
    parts = parts_of(seed, count)
    others = [(slow_peer,), (endless_replies,), (endless_indexes,), (endless_requests,), (sizes,), (claims,)]
    answers = cases.side_by_side([given for _, given in parts] + others)
    for kind in TOLD:
        expect_told(cases, kind, sum((told for (of, _), told in zip(parts, answers) if of == kind), Counter()))
    return cases.end()


if __name__ == '__main__':
    sys.exit(main())
