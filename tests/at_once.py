"""Many peers of one `desync chunk-server` at the same time: cases that tests/serving.py runs.

Each case ends by itself: sockets wait for at most a minute. Chunks are small, so that requests are many.
"""

import concurrent.futures
import contextlib
import os
import random
import re
import statistics
import threading
import time

import formats
import program
from checks import expect, expect_ended, expect_equal, file_bytes, files_of, put_file
from replies import (ABC, GET_ABC, GIVES_ABC, NOTHING, PATH, Wanted, expect_serves, lay_out, path_of, put, refused,
                     request, said_to)
from servers import ChunkServer

# As many connections are served at once; further ones wait in the listener's queue.
MOST = 256


def pieces_of(seed, count, size=1000):
    maker = random.Random(seed)
    return [maker.randbytes(size + number) for number in range(count)]


def receive_exactly(peer, wanted, what):
    """Receives as many bytes as are wanted, and compares them."""
    got = bytearray()
    while len(got) < len(wanted):
        piece = peer.recv(len(wanted) - len(got))
        if not piece:
            break
        got += piece
    expect_equal(bytes(got), wanted, what)


def all_of(runs):
    """Waits for all, and raises what one of them has raised."""
    for run in concurrent.futures.as_completed(runs):
        run.result()


# Slow peers

def seconds_to_serve(server, times=20):
    """How long a request on a connection of its own takes, in the middle."""
    taken = []
    for _ in range(times):
        begun = time.monotonic()
        expect_equal(said_to(server, GET_ABC), GIVES_ABC.bytes, 'the reply')
        taken.append(time.monotonic() - begun)
    return statistics.median(taken)


def drip(peers, over):
    """Sends a byte a second to each peer, of a request that doesn't end meanwhile."""
    for number in range(60):
        for peer in peers:
            peer.sendall(GET_ABC[number % 20:][:1])
        if over.wait(1):
            return


def slow_peers(cases, folder):
    lay_out(folder)
    with cases.case('64 peers that send a byte a second, and a peer beside them'), ChunkServer(folder) as server, \
            contextlib.ExitStack() as held:
        alone = seconds_to_serve(server)
        peers = [held.enter_context(server.connect()) for _ in range(64)]
        over = threading.Event()
        thread = threading.Thread(target=drip, args=(peers, over))
        thread.start()
        try:
            time.sleep(1.5)
            beside = seconds_to_serve(server)
        finally:
            over.set()
            thread.join()
        # The clock and the machine's other work blur what takes less than some milliseconds.
        expect(beside <= 3 * max(alone, 0.005), f'it takes {beside} seconds, and {alone} alone')
    with cases.case('silent peers beside good ones'), ChunkServer(folder, '-w') as server, \
            contextlib.ExitStack() as held:
        for front in (b'', GET_ABC[:50], put(path_of(b'held'), b'held')[:-1], GET_ABC):
            held.enter_context(server.connect()).sendall(front)
        begun = time.monotonic()
        for _ in range(20):
            expect_serves(server)
        expect(time.monotonic() - begun < 10, 'the good peers waited')
    with cases.case('a peer that is told to close and doesn\'t, beside good ones'), ChunkServer(folder) as server, \
            contextlib.ExitStack() as held:
        for _ in range(8):
            peer = held.enter_context(server.connect())
            peer.sendall(request('DELETE', PATH))
            receive_exactly(peer, refused(405).bytes, 'the reply')
        begun = time.monotonic()
        for _ in range(20):
            expect_serves(server)
        expect(time.monotonic() - begun < 4, 'the good peers waited')
    with cases.case(f'{MOST} peers that say nothing, and one more that waits until one of them goes'), \
            ChunkServer(folder) as server, contextlib.ExitStack() as held:
        peers = [held.enter_context(server.connect()) for _ in range(MOST)]
        time.sleep(0.5)
        with server.connect() as late:
            late.sendall(GET_ABC)
            late.settimeout(1)
            with contextlib.suppress(TimeoutError):
                late.recv(1)
                raise AssertionError('more are served than may be')
            late.settimeout(60)
            peers[0].close()
            receive_exactly(late, GIVES_ABC.bytes, 'the reply')


# Many clients

def ask_in_turns(server, seed, held, count):
    """Sends so many requests on a connection, 50 at a time, and compares each reply."""
    maker = random.Random(seed)
    with server.connect() as peer:
        for _ in range(count // 50):
            sent, wanted = [], []
            for _ in range(50):
                piece = maker.choice(held)
                for said, reply in ((request('GET', path_of(piece)), Wanted(200, piece)),
                                    (request('HEAD', path_of(piece)), Wanted(200, length=len(piece))),
                                    (request('GET', '/'), NOTHING))[maker.randrange(3):][:1]:
                    sent.append(said)
                    wanted.append(reply.bytes)
            peer.sendall(b''.join(sent))
            receive_exactly(peer, b''.join(wanted), 'the replies')


def put_and_get(server, seed, both, turns):
    """Puts chunks that others put too, and gets them again."""
    maker = random.Random(seed)
    with server.connect() as peer:
        for _ in range(turns):
            piece = maker.choice(both)
            peer.sendall(put(path_of(piece), piece) + request('GET', path_of(piece)) + put(path_of(piece), piece[:-1]))
            receive_exactly(peer, Wanted(200).bytes + Wanted(200, piece).bytes + Wanted(400).bytes, 'the replies')


def break_off(server, piece, times):
    """Breaks connections off in the middle of a PUT."""
    for number in range(times):
        with server.connect() as peer:
            peer.sendall(put(path_of(piece), piece)[:-1 - number % 300])


def expect_right(store, allowed):
    """Each chunk file has the bytes that its name tells, and is one of these. Answers the files."""
    files = files_of(store)
    chunks = {path: data for path, data in files.items() if re.fullmatch('[0-9a-f]{4}/[0-9a-f]{64}', path)}
    expect(chunks, 'the store has no chunk')
    for path, data in chunks.items():
        expect_equal(formats.path_in_store(formats.digest_of(data)), path, 'the path of a chunk')
        expect(data in allowed, f'{path} was put whole by nobody')
    return files


def many(cases, folder):
    held = pieces_of(1, 40)
    lay_out(folder, *held)
    store = os.path.join(folder, 'st')
    with cases.case('256 clients, each of 1,000 requests'), ChunkServer(folder) as server, \
            concurrent.futures.ThreadPoolExecutor(MOST) as threads:
        all_of([threads.submit(ask_in_turns, server, seed, held, 1_000) for seed in range(MOST)])
    both = pieces_of(2, 8, 20_000)
    with cases.case('the same chunks put and got by 32 connections, and others broken off beside them'), \
            ChunkServer(folder, '-w') as server, concurrent.futures.ThreadPoolExecutor(34) as threads:
        torn = pieces_of(3, 1, 5_000)[0]
        runs = [threads.submit(put_and_get, server, seed, both, 60) for seed in range(32)]
        all_of([*runs, threads.submit(break_off, server, torn, 200)])
        expect_equal(said_to(server, request('GET', path_of(torn))), NOTHING.bytes, 'the reply')
        expect_right(store, {ABC, *held, *both})


# Ended in the middle

class started:
    """A server that is ended by the case."""

    def __init__(self, server):
        self.server = server
        server.__enter__()

    def close(self):
        self.server.process.kill()
        self.server.process.communicate()


def killed(cases, folder):
    both = pieces_of(4, 6, 200_000)
    with cases.case('a server that is killed under load leaves right chunks'):
        for turn in range(5):
            store = lay_out(folder)
            server = ChunkServer(folder, '-w')
            with contextlib.closing(started(server)), concurrent.futures.ThreadPoolExecutor(16) as threads:
                runs = [threads.submit(put_and_get, server, seed, both, 1_000) for seed in range(16)]
                time.sleep(0.3 + 0.1 * turn)
                server.process.kill()
                # Each peer finds its connection broken, or a reply cut off.
                for run in runs:
                    expect(isinstance(run.exception(60), (OSError, AssertionError)), 'a peer was served to its end')
            files = expect_right(store, {ABC, *both})
            expect_equal(file_bytes(formats.chunk_path(store, formats.digest_of(ABC))), ABC, 'the old chunk')
            # A temporary file that the kill has left goes by `prune`, and all chunks stay.
            put_file(os.path.join(store, '5304', formats.TEMPORARY + 'x'), b'left')
            formats.write_index(os.path.join(folder, 'all.caibx'), formats.index_of_pieces([ABC, *both]))
            expect_ended(program.run(['prune', '-y', '-s', 'st', 'all.caibx'], folder))
            kept = {path: data for path, data in files.items() if formats.TEMPORARY not in path}
            expect_equal(files_of(store), kept, 'what the store has')


# Memory

def taken_by(number):
    """How many files a process has open, how many threads, and how much memory it takes in KiB."""
    time.sleep(0.5)
    with open(f'/proc/{number}/smaps_rollup', encoding='utf-8') as file:
        rss = int(re.search(r'^Rss: +(\d+) kB$', file.read(), re.MULTILINE)[1])
    return len(os.listdir(f'/proc/{number}/fd')), len(os.listdir(f'/proc/{number}/task')), rss


def come_and_go(server, connections):
    for _ in range(connections):
        expect_equal(said_to(server, GET_ABC), GIVES_ABC.bytes, 'the reply')


def memory_at_once(cases, folder):
    held = pieces_of(5, 10)
    lay_out(folder, *held)
    with cases.case('memory, threads and open files after 100,000 requests are what they were after 1,000'), \
            ChunkServer(folder) as server:
        def connections(seeds):
            for seed in seeds:
                ask_in_turns(server, seed, held, 50)

        # Each connection has a thread of its own, whose buffers the allocator may take from an arena that is new.
        connections(range(20))
        before = taken_by(server.process.pid)
        connections(range(20, 2_000))
        after = taken_by(server.process.pid)
        expect_equal(after[:2], before[:2], 'the numbers of open files and of threads')
        expect(after[2] <= before[2] + 2048, f'the memory was {before[2]} KiB, and is {after[2]} KiB')
    with cases.case('memory, threads and open files stay where 100,000 requests come on 10,000 connections'), \
            ChunkServer(folder) as server, concurrent.futures.ThreadPoolExecutor(16) as threads:
        def turns(requests, connections):
            runs = [threads.submit(ask_in_turns, server, seed, held, requests // 16) for seed in range(16)]
            all_of([*runs, *(threads.submit(come_and_go, server, connections // 16) for _ in range(16))])

        # The allocator keeps what the buffers of connections at once have taken, up to where this no longer grows.
        turns(48_000, 5_000)
        before = taken_by(server.process.pid)
        turns(96_000, 10_000)
        after = taken_by(server.process.pid)
        expect_equal(after[:2], before[:2], 'the numbers of open files and of threads')
        expect(after[2] <= before[2] + 2048, f'the memory was {before[2]} KiB, and is {after[2]} KiB')


GROUPS = slow_peers, many, killed, memory_at_once
