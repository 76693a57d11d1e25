#!/usr/bin/env python3
"""`desync` with one store in each group beside an earlier build of the program, whose path is given.

    bench/groups.py PROGRAM

`extract` from a folder, from three folders of which only the last has the chunks, and from nginx, where it is
installed; `cache` into a new folder, `info` and, where the earlier build has it, `cat`. Both programs do each job in
every round, and each goes first in every second round; they are compared as by bench/earlier.py, by the least time of
the processors, and are to be compiled in the same way. Then the new program alone extracts from a group of two folders,
and from one whose first server isn't there, beside the second alone. The image is of random bytes, cut every 64 KiB.
Needs twice the image's size under the temporary folder, and twice more a run. With --count valgrind counts the
instructions of one run of each, and strace its system calls.
"""

import contextlib
import os
import subprocess
import tempfile

import earlier
import program
import servers
import side_by_side
import sliced

AT_MOST = 1.02


def anew(path):
    """Returns a function that moves the folder aside and makes an empty one in its place."""
    def empty():
        if os.path.isdir(path):
            os.rename(path, tempfile.mkdtemp(dir=os.path.dirname(path)))
        os.mkdir(path)
    return empty


def jobs(folder, port):
    """What each job is, its words, and what is done before it."""
    clear = side_by_side.remover(os.path.join(folder, 'out'))
    listed = ['image.caibx', 'out']

    def extract(count, *stores):
        words = [word for store in stores for word in ('-s', store)]
        return ['extract', '-k', '-n', str(count), *words, *listed], clear

    found = [('extract -n 1, a folder', *extract(1, 'st')), ('extract -n 4, a folder', *extract(4, 'st')),
             ('extract -n 1, three folders', *extract(1, 'none', 'empty', 'st'))]
    if port is not None:
        found.append(('extract -n 1, nginx', *extract(1, f'http://localhost:{port}/st')))
    near = anew(os.path.join(folder, 'near'))
    return [*found, ('cache -n 1', ['cache', '-n', '1', '-s', 'st', '-c', 'near', 'image.caibx'], near),
            ('info', ['info', '-s', 'st', 'image.caibx'], lambda: None)]


def takes(command, words, folder):
    """Whether a build of the program takes the words."""
    ended = subprocess.run([command, *words], cwd=folder, stdin=subprocess.DEVNULL, stdout=subprocess.DEVNULL,
                           stderr=subprocess.DEVNULL)
    return ended.returncode == 0


def in_groups(folder):
    """The second folder alone, and as the second of a group whose first one is there, or is a server that isn't."""
    clear = side_by_side.remover(os.path.join(folder, 'out'))
    nowhere = f'http://localhost:{servers.free_port()}'
    return [side_by_side.Row(what, ['extract', '-k', '-n', '1', '-s', store, 'image.caibx', 'out'], clear,
                             at_most=at_most)
            for what, store, at_most in (('a folder', 'st', None), ('a group of it and another', 'st|none', AT_MOST),
                                         ('a group whose first server isn\'t there', f'{nowhere}|st', None))]


def main():
    parser = side_by_side.options(__doc__, 256)
    parser.add_argument('earlier', help='the earlier build of the program')
    parser.add_argument('--count', action='store_true', help='count instructions and system calls')
    options = parser.parse_args()
    size = options.size * side_by_side.MIB
    with side_by_side.work_folder() as folder, contextlib.ExitStack() as serving:
        sliced.lay_out(folder, size, store='st')
        for name in ('none', 'empty'):
            os.mkdir(os.path.join(folder, name))
        port = None
        if servers.nginx_program() is None:
            print('nginx isn\'t installed, so it isn\'t measured')
        else:
            # nginx's worker may be another user.
            os.chmod(folder, 0o755)
            port = serving.enter_context(servers.nginx(folder, os.path.join(folder, 'nginx')))
        both = os.path.abspath(options.earlier), program.DESYNC
        measured = jobs(folder, port)
        printing = ['cat', '-s', 'st', 'image.caibx']
        if all(takes(command, printing, folder) for command in both):
            measured.append(('cat', printing, lambda: None))
        pairs = [[side_by_side.Row(what, words, prepare, command=command) for command in both]
                 for what, words, prepare in measured]
        print(f'an image of {size} bytes, {-(-size // sliced.CHUNK)} chunks; {options.runs} runs')
        if options.count:
            earlier.print_counts(pairs, folder)
            return
        earlier.alternate(pairs, folder, options.runs)
        print(f'the load average is {os.getloadavg()[0]:.1f}')
        earlier.print_pairs(pairs, AT_MOST)
        rows = in_groups(folder)
        side_by_side.measure(rows, folder, options.runs)
        side_by_side.print_table(rows, size)


if __name__ == '__main__':
    main()
