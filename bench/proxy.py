#!/usr/bin/env python3
"""`desync chunk-server -c`, a caching proxy, on the loopback interface: chunks that its cache has beside `chunk-server`
from that folder, and chunks that it fetches from nginx beside `desync cache -n 1` from nginx into a new folder.

One client asks for chunks of 64 KiB of random bytes on one connection, one after the other, each once a run; it only
receives them, and they are checked after the timed part. The cache is a new folder in each run where it is to be empty.
A proxy takes room for the longest chunk, 64 MiB, at its first request: an image several times as long shows what a
chunk takes. Needs nginx, the size in memory, and under the temporary folder once, and three times more a run.
"""

import os
import statistics
import sys

import side_by_side
import formats
import program
import serve
import servers
from sliced import CHUNK

HELD, FETCHED = 1.1, 1.3


class Asked:
    """The seconds of runs over servers of one kind; `server` starts one."""

    def __init__(self, what, server, at_most=None):
        self.what = what
        self.server = server
        self.at_most = at_most
        self.seconds = []
        self.peak = ''

    def median(self):
        return statistics.median(self.seconds)

    def run(self, names, room):
        with self.server() as server:
            self.seconds.append(serve.seconds_for(server.port, names, room, False))
        for place, name in enumerate(names):
            serve.check(name, place, room)
        room[:] = bytes(len(room))


class Filled:
    """The seconds of `cache` into a new folder."""

    at_most = None
    peak = ''

    def __init__(self, url, folder, empty):
        self.what = 'cache -n 1 from nginx'
        self.words = ['cache', '-n', '1', '-s', url, 'image.caibx', '-c']
        self.folder = folder
        self.empty = empty
        self.seconds = []

    def median(self):
        return statistics.median(self.seconds)

    def run(self, _names, _room):
        ended, seconds, _ = program.run_measured([*self.words, self.empty()], self.folder)
        if ended.status != 0:
            sys.exit(f'{self.what}: status {ended.status}')
        self.seconds.append(seconds)


def main():
    options = side_by_side.arguments(__doc__, 320)
    if servers.nginx_program() is None:
        sys.exit('nginx isn\'t installed')
    count = options.size * side_by_side.MIB // CHUNK
    with side_by_side.work_folder() as folder:
        names = serve.lay_out(folder, count)
        entries = [(CHUNK * (place + 1), name) for place, name in enumerate(names)]
        formats.write_index(os.path.join(folder, 'image.caibx'), formats.Index(entries))
        os.mkdir(os.path.join(folder, 'none'))
        room = memoryview(bytearray(count * CHUNK))
        made = []

        def empty():
            """A new folder. Nothing is removed: files are created far slower right after others were removed."""
            made.append(f'near-{len(made)}')
            os.mkdir(os.path.join(folder, made[-1]))
            return made[-1]

        def proxy(count, store, cache):
            return servers.ChunkServer(folder, '-n', str(count), '-c', cache, store=store)

        with servers.nginx(os.path.join(folder, 'st'), os.path.join(folder, 'nginx')) as port:
            url = f'http://localhost:{port}'
            held = [Asked('chunk-server -n 1', lambda: servers.ChunkServer(folder, '-n', '1')),
                    Asked('-c, the cache has all, -n 1', lambda: proxy(1, 'none', 'st'), HELD),
                    Asked('chunk-server -n 10', lambda: servers.ChunkServer(folder, '-n', '10')),
                    Asked('-c, the cache has all, -n 10', lambda: proxy(10, 'none', 'st'), HELD)]
            fetched = [Filled(url, folder, empty),
                       Asked('-c, the cache is empty, -n 1', lambda: proxy(1, url, empty()), FETCHED),
                       Asked('-c, the cache is empty, -n 10', lambda: proxy(10, url, empty()), FETCHED)]
            for _ in range(options.runs):
                for row in (*held, *fetched):
                    row.run(names, room)
        print(f'{count} chunks of {CHUNK} bytes; medians of {options.runs} runs')
        for rows in (held[:2], held[2:], fetched):
            side_by_side.print_table(rows, count * CHUNK)


if __name__ == '__main__':
    main()
