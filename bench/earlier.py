#!/usr/bin/env python3
"""`desync extract -n 1` beside an earlier build of the program, whose path is given.

    bench/earlier.py PROGRAM

The jobs are those of bench/extract.py and bench/seeds.py. Both programs do each job in every round, one right after
the other, and each goes first in every second round. The least time of the processors is compared, since other work
of the machine adds to it less than to the clock's, whose medians stand beside it. With --count valgrind counts the
instructions of one run of each, which no other work changes, and strace its system calls. Both programs are to be
compiled in the same way. Needs ten times the image's size under the temporary folder.
"""

import os
import re
import shutil
import subprocess
import sys

# First, since tests/, which side_by_side looks into, has modules of this name and the next.
import seeds
import extract
import program
import side_by_side

AT_MOST = 1.03


def lay_out(folder, size):
    """The image, its store, a full cache, an empty store and an older version as seed. Answers the index."""
    index = extract.write_image(folder, size)
    seeds.write_seed(folder, index)
    shutil.copytree(os.path.join(folder, 'store'), os.path.join(folder, 'warm'))
    os.mkdir(os.path.join(folder, 'empty'))
    return index


def jobs(folder, index):
    """What each job is, its words, and what is done before it."""
    image, output, cold = (os.path.join(folder, name) for name in ('image', 'output', 'cold'))
    clear = side_by_side.remover(output)

    def right():
        shutil.copyfile(image, output)

    def age():
        right()
        extract.age(output, index)

    def cool_down():
        clear()
        if os.path.exists(cold):
            os.rename(cold, f'{cold}-{len(os.listdir(folder))}')
        os.mkdir(cold)

    return [('output absent', ['-k', '-s', 'store'], clear), ('output absent, without -k', ['-s', 'store'], clear),
            ('output right already', ['-k', '-s', 'store'], right), ('output 94 % right', ['-k', '-s', 'store'], age),
            ('from a cache, store empty', ['-k', '-s', 'empty', '-c', 'warm'], clear),
            ('cache empty', ['-k', '-s', 'store', '-c', 'cold'], cool_down),
            ('seed with 94 %', ['-k', '-s', 'store', '--seed', 'older.caibx'], clear)]


def instructions(row, folder):
    """How many instructions a run of a row has, the system's apart."""
    row.prepare()
    words = ['valgrind', '--tool=cachegrind', '--cache-sim=no', '--cachegrind-out-file=/dev/null', row.command]
    ended = subprocess.run([*words, *row.words], cwd=folder, stdin=subprocess.DEVNULL, stdout=subprocess.DEVNULL,
                           stderr=subprocess.PIPE, text=True)
    found = re.search(r'^==\d+== I +refs: +([\d,]+)$', ended.stderr, re.MULTILINE)
    if ended.returncode != 0 or found is None:
        sys.exit(f'{row.what}: valgrind says {ended.stderr}')
    return int(found[1].replace(',', ''))


def system_calls(row, folder):
    """How many system calls a run of a row makes."""
    row.prepare()
    report = os.path.join(folder, 'strace')
    subprocess.run(['strace', '-f', '-o', report, row.command, *row.words], cwd=folder, check=True,
                   stdin=subprocess.DEVNULL, stdout=subprocess.DEVNULL)
    with open(report, encoding='utf-8', errors='replace') as file:
        return sum('(' in line for line in file)


def print_counts(pairs, folder):
    print(f'{"":28} {"instructions":>26} {"ratio":>7} {"system calls":>14}')
    for pair in pairs:
        (was, least), (old, new) = ([count(row, folder) for row in pair] for count in (instructions, system_calls))
        print(f'{pair[0].what:28} {was:13}{least:13} {least / was:7.4f} {old:7}{new:7}')


def alternate(pairs, folder, runs):
    """Runs each pair in every round, and its second row first in every second round."""
    for number in range(runs):
        for pair in pairs:
            side_by_side.measure(pair[::-1] if number % 2 else pair, folder, 1)


def print_pairs(pairs, at_most):
    print(f'{"seconds":28} {"processor":>16} {"ratio":>7} {"at most":>8} {"clock":>16} {"ratio":>7}')
    for earlier, now in pairs:
        (was, least), (old, new) = map(min, (earlier.processor, now.processor)), (earlier.median(), now.median())
        print(f'{now.what:28} {was:8.3f}{least:8.3f} {least / was:7.3f} {at_most:8.2f} {old:8.3f}{new:8.3f} '
              f'{new / old:7.3f}')


def main():
    parser = side_by_side.options(__doc__, 256)
    parser.add_argument('earlier', help='the earlier build of the program')
    parser.add_argument('--count', action='store_true', help='count instructions and system calls')
    options = parser.parse_args()
    size = options.size * side_by_side.MIB
    with side_by_side.work_folder() as folder:
        index = lay_out(folder, size)
        pairs = [[side_by_side.Row(what, ['extract', '-n', '1', *words, 'image.caibx', 'output'], prepare,
                                   command=command) for command in (os.path.abspath(options.earlier), program.DESYNC)]
                 for what, words, prepare in jobs(folder, index)]
        if options.count:
            print(f'an image of {size} bytes, {len(index.entries)} chunks')
            print_counts(pairs, folder)
            return
        alternate(pairs, folder, options.runs)
        print(f'an image of {size} bytes, {len(index.entries)} chunks; {options.runs} runs; the load average is '
              f'{os.getloadavg()[0]:.1f}')
        print_pairs(pairs, AT_MOST)


if __name__ == '__main__':
    main()
