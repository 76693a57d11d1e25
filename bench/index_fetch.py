#!/usr/bin/env python3
"""`desync list-chunks` of an index that is fetched from nginx and from `desync index-server` on the loopback interface,
beside the same of the file.

What is listed goes nowhere. Needs nginx, and the size of the index under the temporary folder: 42 MB for 2^20 entries.
"""

import argparse
import os
import sys

import side_by_side
import formats
import servers

AT_MOST = 1.5


class IndexServer(servers.ChunkServer):
    """`desync index-server` over the indexes of a folder."""

    def __init__(self, folder, store):
        super().__init__(folder, store=store)
        self.words[0] = 'index-server'


def listing(what, index, at_most=None):
    return side_by_side.Row(what, ['list-chunks', index], at_most=at_most)


def main():
    parser = argparse.ArgumentParser(description=__doc__)
    parser.add_argument('--entries', type=int, default=1 << 20, help='entries of the index (default 2^20)')
    parser.add_argument('--runs', type=int, default=5, help='rounds, of which medians are taken (default 5)')
    options = parser.parse_args()
    if servers.nginx_program() is None:
        sys.exit('nginx isn\'t installed')
    with side_by_side.work_folder() as folder:
        served = os.path.join(folder, 'served')
        os.mkdir(served)
        path = os.path.join(served, 'long.caibx')
        with open(path, 'wb') as file:
            file.write(formats.long_index(options.entries))
        size = os.path.getsize(path)
        # nginx's worker may be another user.
        os.chmod(folder, 0o755)
        with servers.nginx(served, os.path.join(folder, 'nginx')) as port, IndexServer(folder, 'served') as server:
            rows = [
                listing('the file', path),
                listing('from nginx', f'http://localhost:{port}/long.caibx', AT_MOST),
                listing('from index-server', server.url('/long.caibx'), AT_MOST),
            ]
            side_by_side.measure(rows, folder, options.runs)
        print(f'an index of {options.entries} entries, {size} bytes; medians of {options.runs} runs')
        side_by_side.print_table(rows, size)


if __name__ == '__main__':
    main()
