#!/usr/bin/env python3
"""`desync extract` from three stores of which only the last has the chunks, beside the same from that one alone; and
`desync cache -n N` into an empty cache, from that store and from nginx that serves it, where it is installed, with two
and four workers beside one.

The image is of random bytes, cut every 64 KiB; the output is absent before each run. Needs four times the image's size
under the temporary folder, and once more for each cache that is filled: six a round.
"""

import contextlib
import os
import tempfile

# First, since tests/, which side_by_side looks into, has a module of this name.
import workers
import servers
import side_by_side
import sliced


# The wanted ratios of a filled cache to one worker, from a folder and from nginx: with two, and with four.
FROM_FOLDER, FROM_NGINX = (0.75, 0.55), (0.75, 0.5)


def emptied(path):
    """Returns a function that moves the folder aside and makes an empty one in its place. Nothing is removed before all
    is done: files may be created far slower right after others were removed."""
    def empty():
        if os.path.isdir(path):
            os.rename(path, tempfile.mkdtemp(dir=os.path.dirname(path)))
        os.mkdir(path)
    return empty


def cache_jobs(folder, serving):
    """A job for each place that the chunks come from."""
    listed = ['-c', 'near', 'image.caibx']
    anew = emptied(os.path.join(folder, 'near'))
    jobs = [workers.job('cache from a folder', ['-s', 'last', *listed], anew, FROM_FOLDER, ['cache'])]
    if servers.nginx_program() is None:
        print('nginx isn\'t installed, so it isn\'t measured')
        return jobs
    # nginx's worker may be another user.
    os.chmod(folder, 0o755)
    port = serving.enter_context(servers.nginx(folder, os.path.join(folder, 'nginx'), workers=4))
    url = f'http://localhost:{port}/last'
    return [*jobs, workers.job('cache from nginx', ['-s', url, *listed], anew, FROM_NGINX, ['cache'])]


def main():
    options = side_by_side.arguments(__doc__, 256)
    size = options.size * side_by_side.MIB
    with side_by_side.work_folder() as folder, contextlib.ExitStack() as serving:
        sliced.lay_out(folder, size, store='last')
        for store in ('first', 'second'):
            os.mkdir(os.path.join(folder, store))
        clear = side_by_side.remover(os.path.join(folder, 'out'))

        def extract(what, stores, at_most=None):
            words = [word for store in stores for word in ('-s', store)]
            return side_by_side.Row(what, ['extract', '-k', *words, 'image.caibx', 'out'], clear, at_most=at_most)

        rows = [extract('one store', ['last']), extract('three stores', ['first', 'second', 'last'], 1.2)]
        jobs = cache_jobs(folder, serving)
        side_by_side.measure([*rows, *(row for job in jobs for row in job)], folder, options.runs)
        print(f'an image of {size} bytes, {-(-size // sliced.CHUNK)} chunks; medians of {options.runs} runs')
        side_by_side.print_table(rows, size)
        for job in jobs:
            side_by_side.print_table(job, size)


if __name__ == '__main__':
    main()
