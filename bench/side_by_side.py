"""Runs of the program beside `openssl dgst -sha512-256`: medians, ratios, and the table that is printed.

Times are seconds of wall clock, sizes are bytes, memory is KiB. Each round runs every row once, so that a
change in the machine's pace meets all rows alike.
"""

import argparse
import contextlib
import os
import re
import shutil
import statistics
import subprocess
import sys
import tempfile
import time

sys.path.insert(0, os.path.join(os.path.dirname(os.path.abspath(__file__)), '..', 'tests'))
import program

MIB = 1 << 20
PAIRS = 20000


def arguments(about, size):
    """The options that every bench has; the size is in MiB."""
    return options(about, size).parse_args()


def options(about, size):
    """A parser of these options, to which more may be added."""
    parser = argparse.ArgumentParser(description=about)
    parser.add_argument('--size', type=int, default=size, help=f'MiB of the image (default {size})')
    parser.add_argument('--runs', type=int, default=3, help='rounds, of which medians are taken (default 3)')
    return parser


def work_folder():
    if not program.is_built():
        sys.exit(f'{program.DESYNC} isn\'t there: run ./build first')
    if shutil.which('openssl') is None:
        sys.exit('openssl isn\'t there, and all ratios are to it')
    return tempfile.TemporaryDirectory(prefix='desync-bench-')


def free_bytes():
    with open('/proc/meminfo', encoding='ascii') as file:
        return next(1024 * int(line.split()[1]) for line in file if line.startswith('MemFree:'))


def fill_memory(folder):
    """Reads a sparse file as long as the free memory, so that the system caches its bytes and later uses their pages
    for what the runs write, as on a machine that has been up for a while. A virtual machine may have to get a page that
    it hasn't used yet from its host, which can take longer than what is measured."""
    path = os.path.join(folder, 'sparse')
    with open(path, 'wb') as file:
        file.truncate(free_bytes())
    with open(path, 'rb') as file:
        while file.read(MIB):
            pass


class Row:
    """One command that is measured: its words, what is done right before and right after each run, and on which
    processors it runs (none named: on all)."""

    def __init__(self, what, words, prepare=lambda: None, after=lambda: None, at_most=None,
                 command=program.DESYNC, wanted=0, processors=()):
        self.what = what
        self.words = words
        self.prepare = prepare
        self.after = after
        self.at_most = at_most
        self.command = command
        self.wanted = wanted
        self.processors = processors
        self.seconds = []
        self.processor = []
        self.peak = 0

    def run(self, folder):
        self.prepare()
        os.sync()
        ended, seconds, peak = program.run_measured(self.words, folder, self.command, self.processors)
        self.after()
        if ended.status != self.wanted:
            sys.exit(f'{self.what}: status {ended.status}')
        self.seconds.append(seconds)
        self.processor.append(ended.processor)
        self.peak = max(self.peak, peak)

    def median(self):
        return statistics.median(self.seconds)


def openssl(image):
    return Row('openssl dgst -sha512-256', ['dgst', '-sha512-256', image], command=shutil.which('openssl'))


def remover(path):
    """Returns a function that removes a file, if it is there."""
    def remove():
        with contextlib.suppress(FileNotFoundError):
            os.remove(path)
    return remove


def casync_rows(folder, image, output, prepare, seeds):
    """A row for `casync extract` of the image with each of the seeds (None: no seed), from a store that is made
    first."""
    casync = shutil.which('casync')
    if casync is None:
        print('casync isn\'t there, so it isn\'t measured')
        return []
    words = ['make', '--store=theirs.castr', '--digest=sha512-256', 'theirs.caibx', image]
    subprocess.run([casync, *words], cwd=folder, check=True, stdout=subprocess.DEVNULL)
    rows = []
    for what, seed in seeds:
        named = [] if seed is None else [f'--seed={seed}']
        words = ['extract', '--store=theirs.castr', '--digest=sha512-256', *named, 'theirs.caibx', output]
        rows.append(Row(f'casync extract, {what}', words, prepare, command=casync))
    return rows


def measure(rows, folder, runs):
    for _ in range(runs):
        for row in rows:
            row.run(folder)


def print_table(rows, size):
    """A line for each row; the first row is the one that ratios are to."""
    base = rows[0].median()
    print(f'{"":44} {"seconds":>8} {"MB/s":>8} {"ratio":>7} {"at most":>8} {"peak KiB":>9}')
    for row in rows:
        print_line(row.what, row.median(), size, base, row.at_most, row.peak)
    return base


def print_line(what, seconds, size, base, at_most=None, peak=''):
    wanted = '' if at_most is None else f'{at_most:.2f}'
    print(f'{what:44} {seconds:8.3f} {size / seconds / 1e6:8.1f} {seconds / base:7.2f} {wanted:>8} {peak:>9}')


def print_openings(row, folder, path):
    """How often one run of a row opens a file, and which share of its time that is at the most."""
    opened = count_openings(row, folder)
    if opened is None:
        print(f'{row.what}: openings not counted, since strace isn\'t there')
        return
    pair = pair_seconds(path)
    share = 100 * opened * pair / row.median()
    print(f'{row.what}: {opened} openings in a run (strace -c), {pair * 1e6:.2f} microseconds for a pair of open '
          f'and close\n    (mean of {PAIRS} from Python, whose own calls are in it): at most {share:.1f} % of the time')


def count_openings(row, folder):
    tool = shutil.which('strace')
    if tool is None:
        return None
    row.prepare()
    report = os.path.join(folder, 'strace')
    words = [tool, '-f', '-c', '-e', 'trace=open,openat', '-o', report, row.command, *row.words]
    subprocess.run(words, cwd=folder, stdin=subprocess.DEVNULL, stdout=subprocess.DEVNULL,
                   stderr=subprocess.DEVNULL)
    line = re.compile(r'^\s*[\d.]+\s+[\d.]+\s+\d+\s+(\d+)(?:\s+\d+)?\s+open(?:at)?$', re.MULTILINE)
    with open(report, encoding='utf-8') as file:
        return sum(int(calls) for calls in line.findall(file.read()))


def pair_seconds(path):
    begun = time.monotonic()
    for _ in range(PAIRS):
        os.close(os.open(path, os.O_RDWR))
    return (time.monotonic() - begun) / PAIRS
