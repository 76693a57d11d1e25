#!/usr/bin/env python3
"""`desync index-server`: what curl gets from it and puts to it, and what no request reaches.

The indexes are spelled by tests/formats.py. The server listens on the loopback interface at a free port, over the
folder `st` of a case; beside it lie files that no request may read or change.
"""

import contextlib
import os
import shutil
import socket
import sys

import formats
import program
from checks import Cases, expect, expect_ended, expect_equal, expect_files, files_of, needs_program, put_file
from replies import NOTHING, Wanted, put, refused, request, said_to
from servers import IndexServer, free_port
from serving import WAYS_TO_PUT, curl


def index_of(*pieces, flags=formats.WRITTEN_FLAGS):
    """The bytes of an index of these pieces."""
    index = formats.Index([], flags=flags)
    for piece in pieces:
        index.add(piece)
    return formats.spell_index(index)


ABC = index_of(b'abc')
LONG = index_of(*(b'%d' % number for number in range(9_000)))
BY_SHA256 = index_of(b'abc', b'def', flags=formats.SHA256_FLAGS)

# Names under which no index is served or put, whatever lies there.
NO_NAMES = ['/', '/plain', '/.caibx', '/.hidden.caibx', '/..caibx', '/../outside.caibx', '/sub/../disk.caibx',
            '/sub/inner.caibx', '/%2e%2e/outside.caibx', '/%64isk.caibx', '//disk.caibx', '/./disk.caibx',
            '/disk.caibx/', '/disk.caibx?a=b', '/disk.CAIBX', '/di~sk.caibx', f'/{"x" * 123}.caibx']

# What is no index.
NO_INDEXES = {'text': b'abc', 'nothing': b'', 'one byte less': ABC[:-1], 'one byte more': ABC + b'\0',
              'another marker': ABC[:-1] + b'\0', 'entries out of order': ABC[:64] + 2 * ABC[64:104] + ABC[104:]}


def lay_out(folder):
    """The folder `st`, with files beside it. Answers what is there."""
    for name in ('disk.caibx', 'plain', '.caibx', '.hidden.caibx', '..caibx', 'sub/inner.caibx', f'{"x" * 123}.caibx',
                 f'{"y" * 122}.caibx', 'disk.CAIBX', 'di~sk.caibx', '%64isk.caibx'):
        put_file(os.path.join(folder, 'st', name), ABC)
    put_file(os.path.join(folder, 'st', 'sha256.caibx'), BY_SHA256)
    put_file(os.path.join(folder, 'st', 'text.caibx'), b'abc')
    put_file(os.path.join(folder, 'st', 'short.caibx'), ABC[:-1])
    os.mkdir(os.path.join(folder, 'st', 'folder.caibx'))
    put_file(os.path.join(folder, 'outside.caibx'), ABC)
    put_file(os.path.join(folder, 'long'), LONG)
    return files_of(folder)


def reads(cases, folder):
    held = lay_out(folder)
    with IndexServer(folder) as server:
        for name, data in (('disk', ABC), ('sha256', BY_SHA256), ('y' * 122, ABC)):
            with cases.case(f'curl: a GET of {name[:20]}.caibx'):
                got, reports, _ = curl(folder, server.url(f'/{name}.caibx'))
                expect_equal((got, reports), (data, [f'200 {len(data)} 1']), 'the index and the report')
        with cases.case('curl: a HEAD'):
            got, reports, _ = curl(folder, '-I', server.url('/disk.caibx'))
            expect_equal(got, b'HTTP/1.1 200 OK\r\nContent-Length: 144\r\n\r\n', 'the head')
        for target in ('/text.caibx', '/short.caibx', '/absent.caibx', *NO_NAMES):
            with cases.case(f'GET and HEAD of {target[:40]}'):
                got, reports, _ = curl(folder, '--path-as-is', server.url(target))
                expect_equal((got or b'', reports), (b'', ['404 0 1']), 'the body and the report')
                expect_equal(said_to(server, request('HEAD', target)), NOTHING.bytes, 'the reply to HEAD')
        with cases.case('a folder is no index'):
            expect_equal(said_to(server, request('GET', '/folder.caibx')), Wanted(500).bytes, 'the reply')
        for how, words in WAYS_TO_PUT.items():
            with cases.case(f'curl: a PUT{how} without -w'):
                _, reports, _ = curl(folder, *words, '-T', 'outside.caibx', server.url('/new.caibx'))
                expect_equal(reports, ['405 0 1'], 'the report')
        with cases.case('nothing has changed'):
            expect_unchanged(folder, held)


def expect_unchanged(folder, held):
    """The files are these, but for the one that curl writes."""
    with contextlib.suppress(FileNotFoundError):
        os.remove(os.path.join(folder, 'got'))
    expect_files(folder, held, 'after the requests')


def writes(cases, folder):
    held = lay_out(folder)
    with IndexServer(folder, '-w') as server:
        for what, data in NO_INDEXES.items():
            with cases.case(f'a PUT of {what}'):
                for name in ('/new.caibx', '/disk.caibx'):
                    expect_equal(said_to(server, put(name, data)), Wanted(400).bytes, f'the reply to {name}')
                expect_unchanged(folder, held)
        for target in NO_NAMES:
            with cases.case(f'a PUT to {target[:40]}'):
                expect_equal(said_to(server, put(target, BY_SHA256)), NOTHING.bytes, 'the reply')
                expect_unchanged(folder, held)
        with cases.case('a PUT that is cut short'):
            expect_equal(said_to(server, put('/disk.caibx', BY_SHA256)[:-1]), b'', 'the reply')
            expect_unchanged(folder, held)
        with cases.case('a PUT above the greatest length'):
            sent = request('PUT', '/disk.caibx', 'Content-Length: 167772265')
            expect_equal(said_to(server, sent), refused(413).bytes, 'the reply')
            expect_unchanged(folder, held)
        for how, words in WAYS_TO_PUT.items():
            with cases.case(f'curl: a PUT{how} in chunks'):
                chunked = [*words, '-H', 'Transfer-Encoding: chunked']
                _, reports, _ = curl(folder, *chunked, '-T', 'long', server.url('/long.caibx'))
                expect_equal(reports, ['411 0 1'], 'the report')
                expect_unchanged(folder, held)
            with cases.case(f'curl: a PUT{how}, which a GET then gives'):
                name = f'put{len(how)}.caibx'
                _, reports, _ = curl(folder, *words, '-T', 'long', server.url(f'/{name}'))
                expect_equal(reports, ['200 0 1'], 'the report')
                held[f'st/{name}'] = LONG
                got, _, _ = curl(folder, server.url(f'/{name}'))
                expect(got == LONG, 'it gives another index')
                expect_unchanged(folder, held)
        with cases.case('a PUT in the place of another index'):
            sent = put('/disk.caibx', BY_SHA256) + request('GET', '/disk.caibx') + put('/disk.caibx', b'abc')
            wanted = Wanted(200).bytes + Wanted(200, BY_SHA256).bytes + Wanted(400).bytes
            expect_equal(said_to(server, sent), wanted, 'the replies')
            held['st/disk.caibx'] = BY_SHA256
            expect_unchanged(folder, held)


def refusals(cases, folder):
    lay_out(folder)
    for name, text in (('far', 'far: no such folder'), ('outside.caibx', 'outside.caibx: no such folder')):
        with cases.case(f'the folder {name}'):
            words = ['index-server', '-s', name, '-l', f'127.0.0.1:{free_port()}']
            expect_ended(program.run(words, folder), text)
    with cases.case('an address that is in use'), IndexServer(folder) as server:
        expect_ended(program.run(server.words, folder), 'the listener failed')
        expect_equal(said_to(server, request('GET', '/disk.caibx')), Wanted(200, ABC).bytes, 'the reply')
    with cases.case('one connection after the other'), IndexServer(folder) as server, server.connect() as first, \
            server.connect() as second:
        first.sendall(request('GET', '/disk.caibx'))
        expect_next(first, Wanted(200, ABC))
        second.sendall(request('GET', '/disk.caibx', 'Connection: close'))
        second.settimeout(0.5)
        with contextlib.suppress(TimeoutError):
            raise AssertionError(f'beside the first connection it replies {second.recv(100)!r}')
        second.settimeout(20)
        first.close()
        expect_next(second, Wanted(200, ABC, closes=True))


def expect_next(peer, wanted):
    expect_equal(peer.recv(len(wanted.bytes), socket.MSG_WAITALL), wanted.bytes, 'the reply')


def main():
    needs_program('index_serving')
    cases = Cases('index_serving')
    if shutil.which('curl') is None:
        cases.skip('index_serving', 'curl isn\'t installed')
        return cases.end()
    for group in (reads, writes, refusals):
        folder = os.path.join(cases.top, group.__name__)
        os.mkdir(folder)
        group(cases, folder)
    return cases.end()


if __name__ == '__main__':
    sys.exit(main())
