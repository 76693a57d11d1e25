#!/usr/bin/env python3
"""`desync make` of images of random bytes, of text and of zeros on one processor, beside openssl's digest and beside
`casync make`; and with several workers, of random bytes and of a file system image, beside one worker.

On one processor the cutting is timed alone too, by a program over the library's `Cutter` that `rt` builds first
(minutes; without `rt` that row is left out). The file system image is ext4 by `mke2fs`, of at most 1 GiB, with copies
of the files under a folder. All runs are timed into an empty store and into one that has all chunks. casync runs where
it is installed. A store that is to be empty is a new folder each time, and nothing is removed before all is done: a
file system may take far longer to create files right after it has removed others. Beside several workers `cp -r` of the
same files alone is timed. Free memory is filled first, so that no run has to get pages that were never used. Needs the
image's size under the temporary folder for each run into an empty store, and four times more for each image.
"""

import os
import random
import shutil
import subprocess
import sys
import tempfile

import side_by_side
import cutter
import formats
import over_crates

IMAGE, INDEX, PIECE = 'image', 'image.caibx', 65536
WORDS = [''.join(random.Random(number).choices('etaoinshrdlu', k=2 + number % 9)) for number in range(4000)]
BLOCK = 4096
GREATEST_FILE_SYSTEM = 1024
# The parts of the bench: those on one processor with their images, and those with several workers.
ALONE, BESIDE = ('random', 'text', 'zeros'), ('workers', 'files')
# Numbers of workers, of processors, and the wanted ratio to one worker.
CREWS = ((2, 2, 0.65), (4, 2, 0.65), (4, 4, 0.4))
MOST_WORKERS = 32
WANTED_PACE = 6
# What a store that is empty may take more than one that has all chunks.
MOST_FOR_FILES = 1.15


def write_random(path, size):
    chance = random.Random(256)
    with open(path, 'wb') as image:
        for at in range(0, size, side_by_side.MIB):
            image.write(chance.randbytes(min(side_by_side.MIB, size - at)))


def write_text(path, size):
    chance = random.Random(257)
    with open(path, 'wb') as image:
        while image.tell() < size:
            line = ' '.join(chance.choices(WORDS, k=50000)).encode()
            image.write(line[:size - image.tell()])


def write_zeros(path, size):
    with open(path, 'wb') as image:
        for at in range(0, size, side_by_side.MIB):
            image.write(bytes(min(side_by_side.MIB, size - at)))


def file_system_tool():
    return shutil.which('mke2fs') or shutil.which('mke2fs', path='/usr/sbin:/sbin')


def file_system_of(source):
    """Returns a function that writes an image of at most a size, with as many files of the folder as fit."""
    def write(path, size):
        size = min(size, GREATEST_FILE_SYSTEM * side_by_side.MIB)
        tree = f'{path}-files'
        # One MiB and 3/16 of the rest are left for the journal, the inode tables and all that isn't a file.
        count, taken = copy_files(source, tree, max(0, size - side_by_side.MIB) * 13 // 16)
        if count == 0:
            sys.exit(f'{source} has no file that finds room')
        needed = -(-taken * 16 // 13 // side_by_side.MIB) + 1
        subprocess.run([file_system_tool(), '-q', '-F', '-t', 'ext4', '-N', str(count + 64), '-d', tree, path,
                        f'{needed}m'], check=True, stdin=subprocess.DEVNULL, stdout=subprocess.DEVNULL)
    return write


def copy_files(source, tree, limit):
    """Copies the files of the folder, in the order of their names, except those that no longer fit. Answers how many
    files and folders were made, and how many bytes they take in whole blocks."""
    count, taken = 0, 0
    for folder, folders, names in os.walk(source):
        folders.sort()
        copy = os.path.join(tree, os.path.relpath(folder, source))
        for name in sorted(names):
            path = os.path.join(folder, name)
            if os.path.islink(path) or not os.path.isfile(path) or not os.access(path, os.R_OK):
                continue
            room = -(-os.path.getsize(path) // BLOCK) * BLOCK + (0 if os.path.isdir(copy) else BLOCK)
            if taken + room <= limit:
                os.makedirs(copy, exist_ok=True)
                shutil.copyfile(path, os.path.join(copy, name))
                count, taken = count + 2, taken + room
    return count, taken


def check(folder, store, size):
    """Reads index and store back by the formats: each chunk is the image's slice. Answers the index."""
    with open(os.path.join(folder, INDEX), 'rb') as file:
        index = formats.read_index(file.read())
    if index.length() != size:
        sys.exit(f'the index is of {index.length()} bytes')
    with open(os.path.join(folder, IMAGE), 'rb') as image:
        for start, end, name in index.slices():
            piece = image.read(end - start)
            if formats.digest_of(piece) != name or formats.answer_of(store, name, len(piece)) != piece:
                sys.exit(f'the chunk from {start} to {end} is wrong in {store}')
    return index


def same_index(folder):
    """Returns a function that compares the index which a run has left with that of the first run."""
    first = []

    def compare():
        with open(os.path.join(folder, INDEX), 'rb') as file:
            first.append(file.read())
        if first[-1] != first[0]:
            sys.exit('a run has left another index')
        del first[1:]
    return compare


def anew(folder, store):
    """Returns a function that moves a store aside and makes an empty one in its place."""
    def prepare():
        if os.path.isdir(store):
            os.rename(store, tempfile.mkdtemp(dir=folder))
        os.mkdir(store)
    return prepare


def ours(workers):
    """Returns a function from a store to the words of a make with so many workers."""
    return lambda store: ['make', '-n', str(workers), '-s', store, INDEX, IMAGE]


def theirs(store):
    return ['make', f'--store={store}', '--digest=sha512-256', 'theirs.caibx', IMAGE]


def casync():
    found = shutil.which('casync')
    if found is None:
        print('casync isn\'t there, so it isn\'t measured')
    return found


def into_empty(folder, what, name, words, **more):
    """A run into a store of this name that is empty each time."""
    store = os.path.join(folder, f'{name} empty')
    return side_by_side.Row(what, words(store), anew(folder, store), **more)


def over_full(folder, what, name, words, **more):
    """A run into a store of this name that has all chunks. It is filled here where it isn't there yet."""
    store = os.path.join(folder, f'{name} full')
    row = side_by_side.Row(what, words(store), **more)
    if not os.path.isdir(store):
        os.mkdir(store)
        side_by_side.Row('the first run', row.words, command=row.command).run(folder)
    return row


def pair(folder, name, words, at_most=(None, None), **more):
    """A run into an empty store, and one into a store that has all chunks."""
    return [into_empty(folder, f'{name}, store empty', name, words, at_most=at_most[0], **more),
            over_full(folder, f'{name}, store has all chunks', name, words, at_most=at_most[1], **more)]


def measure_alone(kind, folder, runs, built):
    """Makes on one processor, beside openssl."""
    size = os.path.getsize(os.path.join(folder, IMAGE))
    rows = [side_by_side.openssl(os.path.join(folder, IMAGE))]
    if built is not None:
        words = cutter.words(os.path.join(folder, IMAGE), PIECE, formats.DEFAULT_SIZES)
        rows.append(side_by_side.Row('cutting alone', words, at_most=0.9, command=built))
    own = pair(folder, 'make', ours(1), (4.6, 4.1))
    program = casync()
    others = [] if program is None else pair(folder, 'casync make', theirs, command=program)
    rows += own + others
    for row in rows:
        row.processors = [max(os.sched_getaffinity(0))]
    side_by_side.measure(rows, folder, runs)
    for which in ('empty', 'full'):
        index = check(folder, os.path.join(folder, f'make {which}'), size)
    print(f'{kind}: {size} bytes, {len(index.entries)} chunks; medians of {runs} runs on one processor')
    side_by_side.print_table(rows, size)
    for row, other in zip(own, others):
        print(f'{row.what}: {other.median() / row.median():.2f} times the pace of casync')
    if kind == 'random bytes':
        for row in own:
            side_by_side.print_openings(row, folder, os.path.join(folder, IMAGE))


def crews():
    """Numbers of workers with their processors (none named: all) and the wanted ratio to the first, which is one."""
    here = sorted(os.sched_getaffinity(0))
    print(f'processors: {len(here)}')
    there = [(1, (), None)]
    for workers, count, at_most in CREWS:
        if count <= len(here):
            there.append((workers, here[:count], at_most))
        else:
            print(f'{workers} workers on {count} processors aren\'t measured, since there aren\'t so many')
    return there


def crew_rows(folder, there, same):
    """The crews' runs into an empty store, each with stores of its own, and those over one that has all chunks."""
    empty, full = [], []
    for workers, processors, at_most in there:
        what = f'make -n {workers}' + (f', {len(processors)} processors' if processors else '')
        more = {'after': same, 'at_most': at_most, 'processors': processors}
        empty.append(into_empty(folder, what, what, ours(workers), **more))
        full.append(over_full(folder, what, 'make', ours(workers), **more))
    full.append(over_full(folder, f'make -n {MOST_WORKERS}', 'make', ours(MOST_WORKERS), after=same))
    empty.append(files_alone(folder))
    return empty, full


def files_alone(folder):
    """The files of the store that has all chunks, copied into a folder that is empty each time."""
    full = os.path.join(folder, 'make full', '.')
    return into_empty(folder, 'cp -r of the files alone', 'cp', lambda store: ['-r', full, store],
                      command=shutil.which('cp'))


def measure_beside(kind, folder, runs):
    """Makes with several workers, beside one worker."""
    size = os.path.getsize(os.path.join(folder, IMAGE))
    there = crews()
    empty, full = crew_rows(folder, there, same_index(folder))
    program = casync()
    others = []
    if program is not None:
        others = [place(folder, 'casync make', 'casync make', theirs, command=program)
                  for place in (into_empty, over_full)]
    side_by_side.measure(empty + full + others, folder, runs)
    for row in empty[:len(there)]:
        check(folder, os.path.join(folder, f'{row.what} empty'), size)
    index = check(folder, os.path.join(folder, 'make full'), size)
    print(f'{kind}: {size} bytes, {len(index.entries)} chunks; medians of {runs} runs')
    for what, rows, other in zip(('store empty', 'store has all chunks'), (empty, full), others or (None, None)):
        print(what)
        side_by_side.print_table(rows + [other] * (other is not None), size)
        if other is not None:
            fastest = rows[len(there) - 1]
            print(f'{fastest.what}: {other.median() / fastest.median():.2f} times the pace of casync; '
                  f'wanted with four at least {WANTED_PACE}')
    last = len(there) - 1
    print(f'{empty[last].what}: {empty[last].median() / full[last].median():.2f} of the time over a full store, wanted '
          f'{MOST_FOR_FILES} where files are created fast')


def build_cutter(folder):
    try:
        return cutter.build(folder)
    except over_crates.NotBuilt as why:
        print(f'cutting alone isn\'t measured: {why}')
        return None


def main():
    parser = side_by_side.options(__doc__, 512)
    parts = [*ALONE, *BESIDE]
    parser.add_argument('--only', nargs='+', choices=parts, default=parts, metavar='PART',
                        help=f'what is measured, of {", ".join(ALONE)} (on one processor), {" and ".join(BESIDE)} '
                        '(with several workers); all if not given')
    parser.add_argument('--files', default='/usr/lib', metavar='FOLDER',
                        help='whose files the file system image has (default /usr/lib)')
    options = parser.parse_args()
    images = {'random': ('random bytes', write_random), 'text': ('text', write_text), 'zeros': ('zeros', write_zeros),
              'workers': ('random bytes', write_random),
              'files': (f'a file system image with files of {options.files}', file_system_of(options.files))}
    with side_by_side.work_folder() as top, tempfile.TemporaryDirectory(prefix='desync-cutter-') as copy:
        built = build_cutter(copy) if set(options.only) & set(ALONE) else None
        side_by_side.fill_memory(top)
        for part in dict.fromkeys(options.only):
            if part == 'files' and file_system_tool() is None:
                print('NOT MEASURED: a file system image, since mke2fs isn\'t there')
                continue
            kind, write = images[part]
            folder = os.path.join(top, part)
            os.mkdir(folder)
            write(os.path.join(folder, IMAGE), options.size * side_by_side.MIB)
            if part in ALONE:
                measure_alone(kind, folder, options.runs, built)
            else:
                measure_beside(kind, folder, options.runs)


if __name__ == '__main__':
    main()
