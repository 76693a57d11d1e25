#!/usr/bin/env python3
"""`desync extract` from nginx on the loopback interface, beside the same from the folder that nginx serves.

The image is of random bytes, cut every 64 KiB; the output is absent before each run. Needs nginx, and twice the image's
size under the temporary folder.
"""

import os
import sys

import side_by_side
import servers
import sliced


def main():
    options = side_by_side.arguments(__doc__, 256)
    if servers.nginx_program() is None:
        sys.exit('nginx isn\'t installed')
    size = options.size * side_by_side.MIB
    with side_by_side.work_folder() as folder:
        sliced.lay_out(folder, size, store='store')
        # nginx's worker may be another user.
        os.chmod(folder, 0o755)
        clear = side_by_side.remover(os.path.join(folder, 'out'))

        def extract(what, store, at_most=None):
            words = ['extract', '-n', '1', '-k', '-s', store, 'image.caibx', 'out']
            return side_by_side.Row(what, words, clear, at_most=at_most)

        with servers.nginx(folder, os.path.join(folder, 'nginx')) as port:
            rows = [extract('the folder', 'store'), extract('nginx', f'http://localhost:{port}/store', 2.0)]
            side_by_side.measure(rows, folder, options.runs)
        print(f'an image of {size} bytes, {-(-size // sliced.CHUNK)} chunks; medians of {options.runs} runs')
        side_by_side.print_table(rows, size)


if __name__ == '__main__':
    main()
