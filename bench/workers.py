#!/usr/bin/env python3
"""`desync extract -k -n N` of an image of random bytes in chunks of 16 to 256 KiB, beside one worker.

Five jobs: the output is absent; it is absent and an older version with 94 % of the chunks is the seed; it is right
already; it is absent and a cache has all chunks; it is absent and nginx serves the store, where it is installed. Each
runs with one worker, with two on two processors and with four on four, one after the other in each round. The limit is
as many openssl digests of the image at once as there are workers, over that many times one digest. casync's extraction
is measured beside the first job, where it is installed. Needs five times the image's size under the temporary folder.
"""

import contextlib
import filecmp
import os
import sys

# First, since tests/, which side_by_side looks into, has modules of this name and the next.
import seeds
import extract
import servers
import side_by_side

# Numbers of workers, each on as many processors.
CREWS = (1, 2, 4)
# The wanted ratios to one worker: with two, and with four.
ABSENT, SEEDED, RIGHT, CACHED, SERVED = (0.6, 0.4), (0.6, 0.4), (0.55, 0.33), (None, 0.4), (0.7, 0.45)


def crews():
    """The numbers of workers that this machine has processors for, with these processors (one worker: all)."""
    here = sorted(os.sched_getaffinity(0))
    return [(count, here[:count] if count > 1 else ()) for count in CREWS if count <= len(here)]


def job(what, words, prepare, wanted, command=('extract', '-k')):
    """A row for each number of workers."""
    rows = []
    for (count, processors), at_most in zip(crews(), (None, *wanted)):
        rows.append(side_by_side.Row(f'-n {count}, {what}', [*command, '-n', str(count), *words], prepare,
                                     at_most=at_most, processors=processors))
    return rows


def digests(image):
    """A row for as many digests of the image at once as there are workers."""
    rows = []
    for count, processors in crews():
        line = ' & '.join([f'openssl dgst -sha512-256 {image} > /dev/null'] * count) + ' & wait'
        rows.append(side_by_side.Row(f'{count} digests at once', ['-c', line], command='/bin/sh',
                                     processors=processors))
    return rows


def print_limits(rows, size):
    """What one digest takes, and each of several at once beside it."""
    print('digests of the image by openssl')
    one = rows[0].median()
    for (count, _), row in zip(crews(), rows):
        side_by_side.print_line(row.what, row.median() / count, size, one, peak=row.peak)


def main():
    options = side_by_side.arguments(__doc__, 512)
    size = options.size * side_by_side.MIB
    with side_by_side.work_folder() as folder, contextlib.ExitStack() as serving:
        index = extract.write_image(folder, size)
        seeds.write_seed(folder, index)
        # nginx's worker may be another user.
        os.chmod(folder, 0o755)
        image, output = os.path.join(folder, 'image'), os.path.join(folder, 'output')
        clear = side_by_side.remover(output)
        listed = ['image.caibx', 'output']
        jobs = [job('output absent', ['-s', 'store', *listed], clear, ABSENT),
                job('seed with 94 %', ['-s', 'store', '--seed', 'older.caibx', *listed], clear, SEEDED),
                job('output right already', ['-s', 'store', *listed], lambda: None, RIGHT),
                job('all chunks in the cache', ['-s', 'empty', '-c', 'store', *listed], clear, CACHED)]
        os.mkdir(os.path.join(folder, 'empty'))
        if servers.nginx_program() is None:
            print('nginx isn\'t installed, so it isn\'t measured')
        else:
            port = serving.enter_context(servers.nginx(folder, os.path.join(folder, 'nginx'), workers=4))
            jobs.append(job('from nginx', ['-s', f'http://localhost:{port}/store', *listed], clear, SERVED))
        limits = digests(image)
        theirs = side_by_side.casync_rows(folder, image, output, clear, [('output absent', None)])
        side_by_side.measure([row for rows in (limits, *jobs, theirs) for row in rows], folder, options.runs)
        if not filecmp.cmp(image, output, shallow=False):
            sys.exit('the output is not the image')

        print(f'an image of {size} bytes, {len(index.entries)} chunks; medians of {options.runs} runs on '
              f'{len(os.sched_getaffinity(0))} processors')
        print_limits(limits, size)
        for rows in jobs:
            side_by_side.print_table(rows, size)
        for row in theirs:
            side_by_side.print_line(row.what, row.median(), size, jobs[0][0].median(), peak=row.peak)


if __name__ == '__main__':
    main()
