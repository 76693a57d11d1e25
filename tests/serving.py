#!/usr/bin/env python3
"""`desync chunk-server`: what curl, casync, nginx and our own commands get from it, and what no peer can do to it.

    tests/serving.py           all but the last case
    tests/serving.py --slow    also a peer that takes nothing of a reply, which takes some minutes

The replies to single requests are those of tests/replies.py, many peers at once those of tests/at_once.py. The servers
listen on the loopback interface at free ports, but for the cases of all addresses. Peers that hold up a server, for a
minute, do so beside the other cases.
"""

import concurrent.futures
import contextlib
import os
import random
import re
import resource
import shutil
import signal
import socket
import subprocess
import sys
import threading
import time

import at_once
import formats
import program
import replies
import servers
from checks import Cases, Skip, expect, expect_ended, expect_equal, file_bytes, files_of, needs_program, put_file
from http_stores import Image
from replies import (ABC, GET_ABC, GIVES_ABC, MIB, NOTHING, PATH, Wanted, expect_serves, expect_store, lay_out, path_of,
                     put, refused, request, said_to, to_the_end)
from servers import ChunkServer


# Memory

def memory(cases, folder):
    """Memory and open files of one worker after 10,000 requests are what they were after the first ones, of which some
    were large. Those of threads, whose stacks come and go, are compared by tests/at_once.py."""
    large = random.Random(15).randbytes(MIB)
    lay_out(folder, large)
    several = [(GET_ABC, GIVES_ABC), (request('HEAD', PATH), Wanted(200, length=3)), (put(PATH, ABC), Wanted(200)),
               (put(PATH, b'abd'), Wanted(400)), (request('GET', '/'), NOTHING)]
    with ChunkServer(folder, '-w', '-n', '1') as server:
        def kept(count):
            for _ in range(count // 100):
                got = said_to(server, b''.join(sent for sent, _ in several * 20))
                expect_equal(got, b''.join(wanted.bytes for _, wanted in several * 20), 'the replies')

        def anew(count):
            for number in range(count):
                sent, wanted = several[number % len(several)]
                expect_equal(said_to(server, sent), wanted.bytes, 'the reply')
                if number % 100 == 0:
                    expect_equal(said_to(server, request('GET', '/', 'A: b' * 5_000)), refused(431).bytes, 'the reply')
                    expect_equal(said_to(server, GET_ABC[:50]), b'', 'the reply')

        for piece in (large, ABC):
            said_to(server, put(path_of(piece), piece) + request('GET', path_of(piece)))
        for what, ask in (('on kept connections', kept), ('on connections of their own', anew)):
            with cases.case(f'memory and open files stay where 10,000 requests come {what}'):
                ask(100)
                before = taken_by(server.process.pid)
                ask(10_000)
                after = taken_by(server.process.pid)
                expect_equal(after[0], before[0], 'the number of open files')
                # A page or two may be touched late: of the stack, of the C library's or of the program's own.
                expect(after[1] <= before[1] + 64, f'the memory was {before[1]} KiB, and is {after[1]} KiB')


    with cases.case('memory has room for two chunks of 64 MiB at most'), ChunkServer(folder, '-w') as server:
        piece = bytes(64 * MIB)
        sent = put(path_of(piece), piece) + request('HEAD', path_of(piece)) + request('GET', path_of(piece))
        expect(said_to(server, sent).endswith(Wanted(200, piece).bytes), 'the chunk isn\'t given')
        with open(f'/proc/{server.process.pid}/status', encoding='utf-8') as file:
            peak = int(re.search(r'^VmHWM:\s+(\d+) kB$', file.read(), re.MULTILINE)[1])
        expect(peak < 140 << 10, f'the peak is {peak} KiB')


def taken_by(number):
    """How many files a process has open, and how much memory it takes in KiB, counted page by page."""
    # An answer comes before its connection has ended.
    time.sleep(0.2)
    with open(f'/proc/{number}/smaps_rollup', encoding='utf-8') as file:
        return len(os.listdir(f'/proc/{number}/fd')), int(re.search(r'^Rss: +(\d+) kB$', file.read(), re.MULTILINE)[1])


# A full disk

def full_disk(cases, folder):
    """A limit on the length of files stands for a full disk: nothing is left of a PUT that has no room."""
    def lower():
        signal.signal(signal.SIGXFSZ, signal.SIG_IGN)
        resource.setrlimit(resource.RLIMIT_FSIZE, (1_000, 1_000))

    store = lay_out(folder)
    held = files_of(store)
    for workers in ('1', '10'):
        with cases.case(f'a PUT that the disk has no room for, -n {workers}'), \
                ChunkServer(folder, '-w', '-n', workers, lower=lower) as server:
            small, large = f'small {workers}'.encode(), bytes(2_000)
            for _ in range(3):
                expect_equal(said_to(server, put(path_of(large), large) + GET_ABC), Wanted(500).bytes + GIVES_ABC.bytes,
                             'the replies')
                expect_store(store, held)
            expect_equal(said_to(server, put(path_of(small), small)), Wanted(200).bytes, 'the reply')
            held[path_of(small)[1:]] = small
            expect_store(store, held)


# Few files

def few_files(cases, folder):
    """Connections for which the server may open no file wait until others have ended."""
    lay_out(folder)
    with cases.case('40 connections at once to a server that may open 12 files'), \
            ChunkServer(folder, files=12) as server, contextlib.ExitStack() as kept:
        peers = [kept.enter_context(server.connect()) for _ in range(40)]
        for peer in peers:
            peer.sendall(request('GET', '/', 'Connection: close'))
            expect_equal(to_the_end(peer), Wanted(404, closes=True).bytes, 'the reply')
            peer.close()
        expect_equal(said_to(server, GET_ABC), GIVES_ABC.bytes, 'the reply when they have ended')


# Addresses

def addresses(cases, folder):
    lay_out(folder)
    four, also_four, six = '127.0.0.1', '127.0.0.2', '::1'
    for host, reached, others in ((four, [four], [also_four, six]), ('localhost', ['localhost'], [also_four]),
                                  (f'[{six}]', [six], [four]), ('', [four, also_four, six], []),
                                  ('0.0.0.0', [four, also_four], [six]), ('[::]', [six], [])):
        for address in reached:
            with cases.case(f'the address {host}:PORT, reached at {address}'):
                if six in (address, host.strip('[]')) and not has_version_6():
                    raise Skip('the loopback interface has no address of version 6')
                with ChunkServer(folder, host=host, address=address) as server:
                    expect_serves(server)
                    for another in others:
                        with contextlib.suppress(OSError):
                            socket.create_connection((another, server.port), 5).close()
                            raise AssertionError(f'it is reached at {another} too')
    with cases.case('an address that is in use'):
        with ChunkServer(folder) as server:
            for words in (server.words, [*server.words, '-w', '-n', '1']):
                expect_ended(program.run(words, folder), 'the listener failed')
            expect_serves(server)
    for what, address in (('of another machine', '192.0.2.1:8080'), ('whose host has no address', f'{"x" * 70}:8080'),
                          ('in brackets that aren\'t closed', '[::1:8080')):
        with cases.case(f'an address {what}'):
            expect_ended(program.run(['chunk-server', '-s', 'st', '-l', address], folder), 'the listener failed')
    for name, text in (('far', 'far: no such folder'), ('secret', 'secret: no such folder')):
        with cases.case(f'the store {name}, and an address that is in use'), ChunkServer(folder) as server:
            words = ['chunk-server', '-s', name, '-l', f'127.0.0.1:{server.port}']
            expect_ended(program.run(words, folder), text)
            expect_serves(server)
    with cases.case('a store that can\'t be reached') as other:
        os.makedirs(os.path.join(other, 'closed', 'st'))
        os.chmod(other, 0o755)
        os.chmod(os.path.join(other, 'closed'), 0)
        words = ['chunk-server', '-s', 'closed/st', '-l', f'127.0.0.1:{servers.free_port()}']
        expect_ended(program.run_without_rights(words, other), 'closed/st: failed')
    with cases.case('a server that is killed, and started again at once, where it was'):
        port = servers.free_port()
        for turn in range(5):
            with ChunkServer(folder, port=port) as server:
                # It ends this connection first, which the system then keeps for a while, and still has the other one.
                expect_equal(said_to(server, request('GET', PATH, 'Connection: close')),
                             Wanted(200, ABC, closes=True).bytes, f'the reply, turn {turn}')
                open_one = server.connect()
                open_one.sendall(GET_ABC)
                open_one.recv(10)
            open_one.close()


def has_version_6():
    with contextlib.suppress(OSError):
        socket.create_server(('::1', 0), family=socket.AF_INET6).close()
        return True
    return False


# curl

def curl(folder, *words):
    """What curl writes to the file `got`, its report of each transfer (`status size connections`), and what it says."""
    got = os.path.join(folder, 'got')
    with contextlib.suppress(FileNotFoundError):
        os.remove(got)
    words = ['curl', '-q', '-sS', '-m', '60', '--noproxy', '*', '-o', 'got', '-w',
             '%{http_code} %{size_download} %{num_connects}\\n', *words]
    ended = subprocess.run(words, cwd=folder, stdin=subprocess.DEVNULL, stdout=subprocess.PIPE, stderr=subprocess.PIPE)
    expect_equal(ended.returncode, 0, f'the status of {words}, which says {ended.stderr.decode()}')
    return file_bytes(got), ended.stdout.decode().splitlines(), ended.stderr.decode()


# curl waits for a word that it may go on, and after a while does so without.
WAYS_TO_PUT = {' with Expect': ['-H', 'Expect: 100-continue', '--expect100-timeout', '0.2'], '': ['-H', 'Expect:']}


def by_curl(cases, folder):
    if shutil.which('curl') is None:
        cases.skip('the cases of curl', 'curl isn\'t installed')
        return
    chance = random.Random(16)
    piece, lacking = chance.randbytes(200_000), chance.randbytes(150_000)
    path = path_of(piece)
    store = lay_out(folder, piece)
    put_file(os.path.join(folder, 'lacking'), lacking)
    held = files_of(store)
    with ChunkServer(folder) as server:
        for what, words in (('', []), (' of a range', ['-r', '0-9']), (' by HTTP/1.0', ['-0']),
                            (' that upgrades', ['--http2']), (' of compressed content', ['--compressed']),
                            (' that closes', ['-H', 'Connection: close'])):
            with cases.case(f'curl: a GET{what}'):
                got, reports, _ = curl(folder, *words, server.url(path))
                expect_equal(reports, ['200 200000 1'], 'the report')
                expect(got == piece, 'the chunk has other bytes')
        with cases.case('curl: a GET of a chunk that isn\'t there'):
            got, reports, _ = curl(folder, server.url(path_of(lacking)))
            expect_equal((got or b'', reports), (b'', ['404 0 1']), 'the body and the report')
        with cases.case('curl: a HEAD'):
            got, reports, _ = curl(folder, '-I', server.url(path))
            expect_equal(got, b'HTTP/1.1 200 OK\r\nContent-Length: 200000\r\n\r\n', 'the head')
            expect_equal(reports, ['200 0 1'], 'the report')
        with cases.case('curl: several on one connection'):
            got, reports, told = curl(folder, '-v', server.url(path), '-o', 'two', server.url(PATH), '-o', 'three',
                                      server.url('/'), '-o', 'four', server.url(path))
            expect_equal(reports, ['200 200000 1', '200 3 0', '404 0 0', '200 200000 0'], 'the reports')
            expect_equal(told.count('Re-using existing connection'), 3, 'the number of times that it was used again')
            expect(got == piece and file_bytes(os.path.join(folder, 'four')) == piece, 'the chunk has other bytes')
        for target in (f'/../st{path}', f'/5304/..{path}', '/../secret', '/%2e%2e/secret', f'/{path}', f'{path}?a=b'):
            with cases.case(f'curl: a GET of {target[:60]}'):
                got, reports, _ = curl(folder, '--path-as-is', server.url(target))
                expect_equal((got or b'', reports), (b'', ['404 0 1']), 'the body and the report')
        for what, words in WAYS_TO_PUT.items():
            with cases.case(f'curl: a PUT{what} that isn\'t taken'):
                _, reports, _ = curl(folder, *words, '-T', 'lacking', server.url(path_of(lacking)))
                expect_equal(reports, ['405 0 1'], 'the report')
        with cases.case('curl: nothing of it was stored'):
            expect_store(store, held)
    with ChunkServer(folder, '-w') as server:
        def puts_it(what, url, words, report):
            with cases.case(f'curl: a PUT{what}'):
                _, reports, _ = curl(folder, '-T', 'lacking', *words, url)
                expect_equal(reports, [report], 'the report')
                expect_store(store, held)

        url = server.url(path_of(lacking))
        for how, words in WAYS_TO_PUT.items():
            puts_it(f'{how} of other bytes', server.url(path_of(b'other')), words, '400 0 1')
            puts_it(f'{how} in chunks', url, [*words, '-H', 'Transfer-Encoding: chunked'], '411 0 1')
        held[path_of(lacking)[1:]] = lacking
        for how, words in WAYS_TO_PUT.items():
            puts_it(how, url, words, '200 0 1')
        with cases.case('curl: what was put is given'):
            got, reports, _ = curl(folder, url)
            expect_equal(reports, ['200 150000 1'], 'the report')
            expect(got == lacking, 'the chunk has other bytes')


# casync, nginx and our own commands

def image_in(folder):
    """An image of pieces, of which all are in the store `st`."""
    image = Image(folder)
    os.rename(image.path('all'), image.path('st'))
    return image


def by_casync(cases):
    with cases.case('casync extracts from the server, by an index of ours') as folder:
        if shutil.which('casync') is None:
            raise Skip('casync isn\'t installed')
        os.mkdir(os.path.join(folder, 'st'))
        data = random.Random(17).randbytes(3 * MIB) + bytes(MIB)
        put_file(os.path.join(folder, 'image'), data)
        expect_ended(program.run(['make', '-s', 'st', 'made.caibx', 'image'], folder))
        with ChunkServer(folder) as server:
            words = ['casync', 'extract', f'--store={server.url("/")}', 'made.caibx', 'out']
            environment = {**os.environ, 'CASYNC_COMPRESSED_CHUNK_SUFFIX': '', 'no_proxy': '*'}
            ended = subprocess.run(words, cwd=folder, env=environment, stdin=subprocess.DEVNULL, stdout=subprocess.PIPE,
                                   stderr=subprocess.STDOUT, timeout=100)
            expect_equal(ended.returncode, 0, f'the status of casync, which says {ended.stdout.decode()}')
        expect(file_bytes(os.path.join(folder, 'out')) == data, 'out isn\'t the image')


def by_us(cases):
    for words in ([], ['-n', '1'], ['-n', '32']):
        with cases.case(f'extract, info and cache from a server with the words {words}') as folder:
            image = image_in(folder)
            with ChunkServer(folder, *words) as server:
                expect_ended(image.extract(server.url()))
                image.expect_out()
                expect_ended(image.run('info', '-s', server.url(), 'new.caibx'), out=image.figures(20))
                expect_ended(image.run('cache', '-s', server.url(), '-c', 'near', 'new.caibx'))
                image.expect_store('near')
                os.remove(formats.chunk_path(image.path('st'), image.names[7]))
                expect_ended(image.extract(server.url()), image.refusal('missing', 7))
                expect_ended(image.run('info', '-s', server.url(), 'new.caibx'), out=image.figures(19))
                expect_ended(image.extract(server.url('/sub/folder')), image.refusal('missing'))
    with cases.case('a chunk that is damaged in the server\'s store is missing, and isn\'t counted') as folder:
        image = image_in(folder)
        formats.write_chunk(image.path('st'), image.names[7], b'x')
        with ChunkServer(folder) as server:
            expect_ended(image.extract(server.url()), image.refusal('missing', 7))
            expect_ended(image.run('info', '-s', server.url(), 'new.caibx'), out=image.figures(19))
    with cases.case('chop puts what a server lacks or has damaged, and make the rest') as folder:
        image = image_in(folder)
        for name in image.names[::2]:
            os.remove(formats.chunk_path(image.path('st'), name))
        formats.write_chunk(image.path('st'), image.names[7], b'x')
        with ChunkServer(folder, '-w') as server:
            expect_ended(image.run('chop', '-s', server.url(), 'new.caibx', 'image'))
            image.expect_store('st')
            expect_ended(image.run('make', '-s', server.url(), 'made.caibx', 'image'))
        wanted = formats.spell_index(formats.index_of(image.bytes))
        expect_equal(file_bytes(image.path('made.caibx')), wanted, 'the index')
        expect_ended(image.run('extract', '-s', 'st', 'made.caibx', 'out'))
        image.expect_out()
        expect_ended(image.run('verify', '-s', 'st'))
    with cases.case('a server that takes nothing refuses make and chop, unless it has all') as folder:
        image = image_in(folder)
        with ChunkServer(folder) as server:
            expect_ended(image.run('chop', '-s', server.url(), 'new.caibx', 'image'))
            os.remove(formats.chunk_path(image.path('st'), image.names[7]))
            before = files_of(folder)
            expect_ended(image.run('chop', '-s', server.url(), 'new.caibx', 'image'), 'store 0 failed')
            expect_ended(image.run('make', '-s', server.url(), 'made.caibx', 'image'), 'store 0 failed')
            expect_equal(files_of(folder), before, 'the files')
    with cases.case('eight at once extract from one server, while a ninth puts chunks into it') as folder:
        image = image_in(folder)
        data = random.Random(18).randbytes(4 * MIB)
        put_file(image.path('other'), data)
        with ChunkServer(folder, '-w') as server, concurrent.futures.ThreadPoolExecutor() as threads:
            runs = [threads.submit(image.extract, server.url(), out=f'out{number}') for number in range(8)]
            made = threads.submit(image.run, 'make', '-s', server.url(), 'made.caibx', 'other')
            for number, run in enumerate(runs):
                expect_ended(run.result())
                image.expect_out(f'out{number}')
            expect_ended(made.result())
        expect_ended(image.run('extract', '-s', 'st', 'made.caibx', 'again'))
        expect(file_bytes(image.path('again')) == data, 'again isn\'t what was put')


PROXY = '''server {{
    listen 127.0.0.1:{port};
    location /chunks/ {{
        proxy_pass http://127.0.0.1:{server}/;
        client_max_body_size 64m;
        limit_except GET {{ allow 127.0.0.1; deny all; }}
    }}
}}'''


def behind_nginx(cases):
    with cases.case('make, chop, extract and info by way of nginx') as folder:
        if servers.nginx_program() is None:
            raise Skip('nginx isn\'t installed')
        image = image_in(folder)
        os.remove(formats.chunk_path(image.path('st'), image.names[7]))
        port = servers.free_port()
        with ChunkServer(folder, '-w') as server, \
                servers.nginx_of(PROXY.format(port=port, server=server.port), port, image.path('nginx')):
            url = f'http://localhost:{port}/chunks/'
            expect_ended(image.extract(url), image.refusal('missing', 7))
            expect_ended(image.run('chop', '-s', url, 'new.caibx', 'image'))
            image.expect_store('st')
            expect_ended(image.extract(url))
            image.expect_out()
            expect_ended(image.run('info', '-s', url, 'new.caibx'), out=image.figures(20))
            expect_ended(image.run('make', '-s', url, 'made.caibx', 'image'))
            expect_ended(image.run('extract', '-s', url, 'made.caibx', 'again'))
            image.expect_out('again')


# Peers that hold up a server

def dripping(front, more):
    """Sends the front, and then some more each second, until the peer hangs up."""
    def drip(peer):
        with contextlib.suppress(OSError):
            peer.sendall(front)
            while True:
                time.sleep(1)
                peer.sendall(more)
    return lambda peer: threading.Thread(target=drip, args=(peer,), daemon=True).start()


HELD = {
    'sends a byte of a head a second': dripping(b'GET /', b'x'),
    'sends a byte of a body a second': dripping(request('PUT', PATH, 'Content-Length: 1000'), b'x'),
    'says nothing': lambda peer: None,
    'stops in a head': lambda peer: peer.sendall(GET_ABC[:50]),
    'stops in a body': lambda peer: peer.sendall(put(path_of(b'held'), b'held')[:-1]),
    'stops after a request': lambda peer: peer.sendall(GET_ABC),
}
# A call that sends waits for a minute too, and is repeated where it has sent a part by then.
SLOWLY_HELD = {'takes nothing of a reply': lambda peer: peer.sendall(request('GET', path_of(bytes(64 * MIB))))}


def answered_after(folder, hold):
    """After how many seconds a peer is answered that came after one which holds up the server, and by what."""
    store = lay_out(folder)
    name = formats.digest_of(bytes(64 * MIB))
    formats.write_chunk(store, name, b'')
    os.truncate(formats.chunk_path(store, name), 64 * MIB)
    with ChunkServer(folder, '-w', '-n', '1') as server, server.connect() as first:
        hold(first)
        begun = time.monotonic()
        with server.connect() as second:
            second.settimeout(600)
            second.sendall(request('GET', PATH, 'Connection: close'))
            return to_the_end(second), time.monotonic() - begun


class HoldingUp:
    """Peers that hold up a server of their own, of one worker, beside the other cases. `judge` compares when the next
    peer was answered."""

    def __init__(self, cases, threads):
        self.cases = cases
        self.threads = threads
        self.runs = []

    def begin(self, held, most):
        for what, hold in held.items():
            folder = os.path.join(self.cases.top, what)
            os.mkdir(folder)
            self.runs.append((what, most, self.threads.submit(answered_after, folder, hold)))

    def judge(self):
        for what, most, run in self.runs:
            with self.cases.case(f'with -n 1 a peer that {what} holds up the next one for at most {most} seconds'):
                got, seconds = run.result()
                expect_equal(got, Wanted(200, ABC, closes=True).bytes, 'the reply')
                expect(55 < seconds < most, f'the next peer was answered after {seconds} seconds')


def main():
    needs_program('serving')
    cases = Cases('serving')
    with concurrent.futures.ThreadPoolExecutor() as threads:
        holding_up = HoldingUp(cases, threads)
        holding_up.begin(HELD, 80)
        if sys.argv[1:] == ['--slow']:
            holding_up.begin(SLOWLY_HELD, 400)
        for group in (*replies.GROUPS, *at_once.GROUPS, memory, full_disk, few_files, addresses, by_curl):
            folder = os.path.join(cases.top, group.__name__)
            os.mkdir(folder)
            group(cases, folder)
        for group in (by_casync, by_us, behind_nginx):
            group(cases)
        holding_up.judge()
    return cases.end()


if __name__ == '__main__':
    sys.exit(main())
