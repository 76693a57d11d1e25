#!/usr/bin/env python3
"""`desync chunk-server` on the loopback interface, beside nginx over the same folder.

One client asks for chunks of 64 KiB of random bytes on one connection, one after the other, each once a run. It is
measured twice: as a client that checks each chunk against its digest before it asks for the next one, as `extract`
does, and as one that only receives them; its bytes are checked after the timed part. nginx has one worker, and sends
files as they are; ours reads and names each chunk before it is sent. Then several clients at once, each a process with
a connection of its own, ask for all chunks in an order of their own and check each; nginx has one worker a processor
for them. Clients and server share the processors, and chunk-server computes a digest more of each chunk than nginx. So
the limit is nginx with clients that check each chunk twice. Needs nginx, and the size under the temporary folder and in
memory.
"""

import multiprocessing
import os
import random
import re
import socket
import statistics
import sys
import time

import side_by_side
import formats
import servers
from sliced import CHUNK, pieces

# nginx closes a connection after 1,000 requests where nothing else is said.
STAY_OPEN = 'keepalive_requests 1000000000;'
LENGTH = re.compile(rb'\r\nContent-Length: (\d+)\r\n', re.IGNORECASE)


def lay_out(folder, count):
    """The names of the store's chunks."""
    names = []
    for piece in pieces(count * CHUNK, 3):
        names.append(formats.digest_of(piece))
        formats.write_chunk(os.path.join(folder, 'st'), names[-1], piece)
    # nginx's worker may be another user.
    os.chmod(folder, 0o755)
    return names


def receive(peer, piece):
    """Receives a reply of 200 whose body is as long as the piece, and fills that."""
    got = b''
    while servers.HEAD_END not in got:
        got += received(peer.recv(len(piece)))
    head, front = got.split(servers.HEAD_END, 1)
    told = LENGTH.search(head + b'\r\n')
    if not head.startswith(b'HTTP/1.1 200 ') or told is None or int(told[1]) != len(piece):
        sys.exit(f'the head of a reply is {head}')
    filled = len(front)
    piece[:filled] = front
    while filled < len(piece):
        filled += received(peer.recv_into(piece[filled:]))


def received(some):
    return some or sys.exit('the connection was closed')


def seconds_for(port, names, room, checks):
    """The seconds that it takes to ask for all chunks on one connection, whose bytes are received into `room`. With
    `checks` each chunk is checked before the next one is asked for."""
    asks = [f'GET {formats.chunk_path("/", name)} HTTP/1.1\r\nHost: localhost\r\n\r\n'.encode() for name in names]
    with socket.create_connection(('127.0.0.1', port)) as peer:
        peer.setsockopt(socket.IPPROTO_TCP, socket.TCP_NODELAY, 1)
        begun = time.monotonic()
        for place, ask in enumerate(asks):
            peer.sendall(ask)
            receive(peer, room[place * CHUNK:(place + 1) * CHUNK])
            if checks:
                check(names[place], place, room)
        return time.monotonic() - begun


def ask_for_all(port, names, seed, checks, together):
    """A client of its own process: each chunk is checked so often as it comes."""
    order = random.Random(seed).sample(names, len(names))
    room = memoryview(bytearray(CHUNK))
    with socket.create_connection(('127.0.0.1', port)) as peer:
        peer.setsockopt(socket.IPPROTO_TCP, socket.TCP_NODELAY, 1)
        together.wait()
        for name in order:
            peer.sendall(f'GET {formats.chunk_path("/", name)} HTTP/1.1\r\nHost: localhost\r\n\r\n'.encode())
            receive(peer, room)
            for _ in range(checks):
                check(name, 0, room)


def seconds_for_many(port, names, clients, checks):
    """The seconds that so many clients take at once, from when all are connected. Each checks each chunk so often."""
    together = multiprocessing.Barrier(clients + 1)
    runs = [multiprocessing.Process(target=ask_for_all, args=(port, names, seed, checks, together))
            for seed in range(clients)]
    for run in runs:
        run.start()
    together.wait()
    begun = time.monotonic()
    for run in runs:
        run.join()
        if run.exitcode != 0:
            sys.exit('a client has failed')
    return time.monotonic() - begun


def check(name, place, room):
    if formats.digest_of(room[place * CHUNK:(place + 1) * CHUNK]) != name:
        sys.exit(f'{name.hex()} has other bytes')


def main():
    parser = side_by_side.options(__doc__, 256)
    parser.add_argument('--clients', type=int, default=8, help='clients at once (default 8)')
    options = parser.parse_args()
    if servers.nginx_program() is None:
        sys.exit('nginx isn\'t installed')
    count = options.size * side_by_side.MIB // CHUNK
    with side_by_side.work_folder() as folder:
        names = lay_out(folder, count)
        room = memoryview(bytearray(count * CHUNK))
        seconds = {(what, checks): [] for checks in (True, False) for what in ('nginx', 'chunk-server')}
        with servers.ChunkServer(folder) as ours, \
                servers.nginx(os.path.join(folder, 'st'), os.path.join(folder, 'nginx'), STAY_OPEN) as nginx:
            ports = {'nginx': nginx, 'chunk-server': ours.port}
            for _ in range(options.runs):
                for (what, checks), each in seconds.items():
                    each.append(seconds_for(ports[what], names, room, checks))
                    for place, name in enumerate(names):
                        check(name, place, room)
                    room[:] = bytes(len(room))
        many = {('nginx', 1): [], ('nginx', 2): [], ('chunk-server', 1): []}
        top = os.path.join(folder, 'nginx')
        with servers.ChunkServer(folder) as ours, \
                servers.nginx(os.path.join(folder, 'st'), top, STAY_OPEN, os.cpu_count()) as nginx:
            ports = {'nginx': nginx, 'chunk-server': ours.port}
            for _ in range(options.runs):
                for (what, checks), each in many.items():
                    each.append(seconds_for_many(ports[what], names, options.clients, checks))
    rates = {run: count / statistics.median(each) for run, each in seconds.items()}
    crowd = {run: options.clients * count / statistics.median(each) for run, each in many.items()}
    print(f'{count} chunks of {CHUNK} bytes; medians of {options.runs} runs')
    print(f'{"":30} {"requests/s":>11} {"MB/s":>8} {"ratio":>7} {"at least":>9}')
    for (what, checks), rate in rates.items():
        shown = f'{what}, {"each checked" if checks else "taken alone"}'
        wanted = '0.50' if what == 'chunk-server' else ''
        print(f'{shown:30} {rate:11.0f} {rate * CHUNK / 1e6:8.1f} {rate / rates["nginx", checks]:7.2f} {wanted:>9}')
    for (what, checks), rate in crowd.items():
        shown = f'{what}, {options.clients} clients' + (', two checks' if checks == 2 else '')
        print(f'{shown:30} {rate:11.0f} {rate * CHUNK / 1e6:8.1f} {rate / crowd["nginx", 1]:7.2f} {"":>9}')
    print(f'chunk-server with {options.clients} clients, times nginx with two checks: '
          f'{crowd["chunk-server", 1] / crowd["nginx", 2]:.2f}')


if __name__ == '__main__':
    main()
