#!/usr/bin/env python3
"""`desync make -s FOLDER INDEX IMAGE` over real files, compared with tests/formats.py; and make, then extract.

DESYNC names the program to run, if it is another one.
"""

import json
import os
import random
import shutil
import signal
import subprocess
import sys
import time

import formats
import program
from checks import (Cases, Skip, expect, expect_ended, expect_equal, expect_untouched, file_bytes, files_of,
                    needs_program, put_file, remove, snapshot)
from formats import ABC_INDEX

STORE, INDEX, IMAGE, OUT = 'st', 'a.caibx', 'img', 'o'
WORDS = ['make', '-s', STORE, INDEX, IMAGE]
OLD_INDEX = b'an index of before, of whatever form'
SMALL_DISK = '--on-a-small-disk'


# Layouts and runs

def lay_out(folder, image, index=None, store=True):
    if image is not None:
        put_file(os.path.join(folder, IMAGE), image)
    if index is not None:
        put_file(os.path.join(folder, INDEX), index)
    if store:
        os.makedirs(os.path.join(folder, STORE), exist_ok=True)


def run_make(folder, words=(STORE, INDEX, IMAGE), text='', run=program.run):
    expect_ended(run(['make', '-s', *words], folder), text)


def makes(folder, words=(STORE, INDEX, IMAGE)):
    """Runs make, and compares index, store and all else with the independent cutting. Answers the index."""
    store, index_path, image_path = words
    image = file_bytes(os.path.join(folder, image_path))
    index = formats.index_of(image)
    before = snapshot(folder)
    run_make(folder, words)
    expect_equal(file_bytes(os.path.join(folder, index_path)), formats.spell_index(index), 'the index')
    expect_stored(folder, store, index, image)
    expect_untouched(before, snapshot(folder), but=written(before, folder, store, index, image) | {index_path})
    return index


def expect_stored(folder, store, index, image):
    for start, end, name in index.slices():
        held = file_bytes(formats.chunk_path(os.path.join(folder, store), name))
        expect_equal(held, image[start:end], f'the chunk {name.hex()}')


def expect_chunks(store):
    """Each file of the store but temporaries has the digest that its name says."""
    for path, held in files_of(store).items():
        if not os.path.basename(path).startswith(formats.TEMPORARY):
            expect_equal(formats.digest_of(held).hex(), os.path.basename(path), 'the name of a chunk that was left')


def written(before, folder, store, index, image):
    """The paths that a make may change in a store: chunks that weren't there rightly, and their folders."""
    paths = set()
    for start, end, name in index.slices():
        path = os.path.normpath(os.path.relpath(formats.chunk_path(os.path.join(folder, store), name), folder))
        held = before.get(path)
        if held is None or held[5] != image[start:end]:
            paths.add(path)
            paths.add(os.path.join(os.path.dirname(path), formats.TEMPORARY + name.hex()))
        if os.path.dirname(path) not in before:
            paths.add(os.path.dirname(path))
    return paths


def expect_no_temporary(folder):
    for path in snapshot(folder):
        expect(formats.TEMPORARY not in path and '.tmp-desync' not in path, f'{path!r} is left behind')


def refused(folder, text, words=(STORE, INDEX, IMAGE), run=program.run):
    """Runs make, which must end with this text and touch nothing but chunks of the image in the store."""
    before = snapshot(folder)
    run_make(folder, words, text, run)
    image = image_of(folder)
    after = snapshot(folder)
    expect_untouched(before, after, but=written(before, folder, STORE, formats.index_of(image), image))
    expect_right_names(folder, before, after)


def image_of(folder):
    """The image's bytes, or none where it can't be read."""
    try:
        return file_bytes(os.path.join(folder, IMAGE)) or b''
    except (IsADirectoryError, PermissionError):
        return b''


def expect_right_names(folder, before, after):
    """Each file that came into the store is a chunk of its name."""
    for path in set(after) - set(before):
        full = os.path.join(folder, path)
        if os.path.isfile(full):
            expect_equal(os.path.basename(path), formats.digest_of(file_bytes(full)).hex(), f'the name of {path!r}')


def extracts(folder, image, words=(STORE, INDEX, OUT)):
    expect_ended(program.run(['extract', '-k', '-s', *words], folder), what='extract')
    expect_equal(file_bytes(os.path.join(folder, words[2])), image, 'what extract gives')


# Cases

def images(cases):
    with cases.case('an empty image') as folder:
        lay_out(folder, b'')
        makes(folder)
        expect_equal(len(file_bytes(os.path.join(folder, INDEX))), 104, 'the index\'s length')
        expect_equal(os.listdir(os.path.join(folder, STORE)), [], 'the store')
        extracts(folder, b'')
    with cases.case('three bytes') as folder:
        lay_out(folder, b'abc')
        makes(folder)
        expect_equal(file_bytes(os.path.join(folder, INDEX)), ABC_INDEX, 'the index')
        extracts(folder, b'abc')
    with cases.case('600,000 zeros') as folder:
        lay_out(folder, bytes(600000))
        index = makes(folder)
        expect_equal([end for end, _ in index.entries], [262144, 524288, 600000], 'the ends')
        expect_equal(len(index.names()), 2, 'the number of chunks')
        extracts(folder, bytes(600000))
    for length in (1, 47, 48, 49, 16383, 16384, 16385, 262143, 262144, 262145, 300000):
        with cases.case(f'{length} bytes') as folder:
            image = random.Random(length).randbytes(length)
            lay_out(folder, image)
            makes(folder)
            extracts(folder, image)
    with cases.case('each chunk ends at the least size') as folder:
        image = least_chunks(6)
        lay_out(folder, image)
        index = makes(folder)
        expect_equal([end for end, _ in index.entries], [16384 * n for n in range(1, 7)], 'the ends')
        extracts(folder, image)


def least_chunks(count):
    """An image of chunks of the least size: each ends with a window that cuts, the first that is tested."""
    least, average, _ = formats.DEFAULT_SIZES
    divisor = formats.discriminator(average)
    data = random.Random(48).randbytes(1 << 20)
    end = formats.first_end(data, 0, formats.DEFAULT_SIZES)
    window = data[end - formats.WINDOW:end]
    expect_equal(formats.window_hash(window) % divisor, divisor - 1, 'the hash of the window by its divisor')
    return b''.join(random.Random(number).randbytes(least - formats.WINDOW) + window for number in range(count))


def changed_in_the_middle(cases):
    with cases.case('3 MB of random bytes, then the same with its middle changed') as folder:
        image = random.Random(3).randbytes(3000000)
        lay_out(folder, image)
        first = makes(folder)
        extracts(folder, image)
        changed = image[:1500000] + b'inserted' + image[1500100:]
        change_image(folder, first, changed, at_most=4)


def change_image(folder, first, changed, at_most):
    """Makes a changed image's second index in the same store: only what is new to it is written."""
    put_file(os.path.join(folder, IMAGE), changed)
    before = snapshot(folder)
    second = makes(folder, (STORE, 'b.caibx', IMAGE))
    came = {os.path.basename(path) for path in set(snapshot(folder)) - set(before)
            if os.path.isfile(os.path.join(folder, path)) and path != 'b.caibx'}
    expect_equal(came, {name.hex() for name in second.names() - first.names()}, 'the new chunks')
    expect(0 < len(came) <= at_most, f'{len(came)} chunks are new, not 1 to {at_most}')
    extracts(folder, changed, (STORE, 'b.caibx', 'p'))


def changed_while_it_runs(cases):
    """The last byte of an image changes once its index is made, while its chunks are being stored."""
    with cases.case('the image changes between its two readings') as folder:
        image = random.Random(8).randbytes(24 << 20)
        lay_out(folder, image, OLD_INDEX)
        process = program.start(['make', '-s', STORE, '-n', '1', INDEX, IMAGE], folder)
        # Cutting reads each byte, and keeps those of the chunk that it names. Storing reads it again.
        wait_until_read(process, len(image) + (1 << 20))
        with open(os.path.join(folder, IMAGE), 'r+b') as file:
            file.seek(-1, os.SEEK_END)
            file.write(bytes([image[-1] ^ 255]))
        ended = program.ended(process)
        # The last byte belongs to the last chunk, before which all are stored.
        entry = sum(len(files) for _, _, files in os.walk(os.path.join(folder, STORE)))
        expect_ended(ended, f'the image changed at entry {entry}')
        expect_equal(file_bytes(os.path.join(folder, INDEX)), OLD_INDEX, 'INDEX')
        expect_right_names(folder, {IMAGE, INDEX}, snapshot(folder))


def wait_until_read(process, size):
    """Waits until a program has read so many bytes."""
    until = time.monotonic() + program.TIME_LIMIT
    while time.monotonic() < until:
        try:
            with open(f'/proc/{process.pid}/io', encoding='utf-8') as file:
                counts = dict(line.split(': ') for line in file)
        except OSError as why:
            process.kill()
            process.communicate()
            raise Skip(f'what a program has read can\'t be seen here: {why}') from why
        if int(counts['rchar']) >= size:
            return
        time.sleep(0.001)


def file_system_image(cases):
    with cases.case('a file system image by mke2fs') as folder:
        tool = shutil.which('mke2fs') or shutil.which('mke2fs', path='/usr/sbin:/sbin')
        if tool is None:
            raise Skip('mke2fs isn\'t there')
        lay_out(folder, None)
        path = os.path.join(folder, IMAGE)
        subprocess.run([tool, '-q', '-F', '-t', 'ext4', '-d', os.path.join(program.TOP, 'tests'), path, '4m'],
                       check=True, stdin=subprocess.DEVNULL, stdout=subprocess.DEVNULL)
        image = file_bytes(path)
        first = makes(folder)
        extracts(folder, image)
        middle = len(image) // 2
        change_image(folder, first, image[:middle] + b'changed' + image[middle + 7:], at_most=4)


def chunks_there(cases):
    image = random.Random(7).randbytes(400000)
    index = formats.index_of(image)
    name = index.entries[1][1]
    right = image[index.entries[0][0]:index.entries[1][0]]
    with cases.case('chunks that are there and right aren\'t written again') as folder:
        lay_out(folder, image)
        makes(folder)
        before = snapshot(folder)
        makes(folder)
        expect_untouched(before, snapshot(folder), but=[INDEX])
    damages = {
        'of other bytes': right[:1000] + b'?' + right[1001:], 'one byte short': right[:-1],
        'one byte long': right + b'\0', 'empty': b'', 'far too long': right * 9, 'another chunk': image[:16384],
    }
    for what, data in damages.items():
        with cases.case(f'a chunk that is {what} is put right') as folder:
            lay_out(folder, image)
            formats.write_chunk(os.path.join(folder, STORE), name, data)
            makes(folder)
            expect_no_temporary(folder)
            extracts(folder, image)
    with cases.case('a temporary that a crash left') as folder:
        lay_out(folder, image)
        path = formats.chunk_path(os.path.join(folder, STORE), name)
        put_file(os.path.join(os.path.dirname(path), formats.TEMPORARY + name.hex()), right[:100])
        makes(folder)
        expect_no_temporary(folder)
    with cases.case('other files in the store stay') as folder:
        lay_out(folder, image)
        digits = name.hex()
        for path in ('notes.txt', f'{digits[:4]}/{digits}.cacnk', f'{digits[:4]}/.tmp-cacnkx', 'ffff/other'):
            put_file(os.path.join(folder, STORE, path), b'a stranger')
        makes(folder)
        extracts(folder, image)
    with cases.case('a chunk file is a folder') as folder:
        lay_out(folder, image, OLD_INDEX)
        os.makedirs(formats.chunk_path(os.path.join(folder, STORE), name))
        refused(folder, 'store 0 failed')
        expect_no_temporary(folder)
    with cases.case('a chunk\'s folder is a file') as folder:
        lay_out(folder, image, OLD_INDEX)
        put_file(os.path.dirname(formats.chunk_path(os.path.join(folder, STORE), name)), b'file')
        refused(folder, 'store 0 failed')
        expect_no_temporary(folder)


def two_at_once(cases):
    shared = random.Random(11).randbytes(700000)
    for turn in range(6):
        with cases.case(f'two makes at once into one store, turn {turn}') as folder:
            own = [b'', b''] if turn % 2 else [random.Random(20 + n).randbytes(100000) for n in (0, 1)]
            lay_out(folder, None)
            for number in (0, 1):
                put_file(os.path.join(folder, f'img{number}'), shared + own[number])
            started = [program.start(['make', '-s', STORE, f'{n}.caibx', f'img{n}'], folder) for n in (0, 1)]
            for number, process in enumerate(started):
                expect_ended(program.ended(process), what=f'make {number}')
            names = set()
            for number in (0, 1):
                image = file_bytes(os.path.join(folder, f'img{number}'))
                index = formats.index_of(image)
                names |= index.names()
                expect_equal(file_bytes(os.path.join(folder, f'{number}.caibx')), formats.spell_index(index),
                             f'index {number}')
                expect_stored(folder, STORE, index, image)
                extracts(folder, image, (STORE, f'{number}.caibx', f'out{number}'))
            files = {name for _, _, files in os.walk(os.path.join(folder, STORE)) for name in files}
            expect_equal(files, {name.hex() for name in names}, 'the files of the store')


def interrupted(cases):
    """A make that is stopped while it stores and is overtaken by another one, and a make that is killed there."""
    image = least_chunks(100)
    index = formats.index_of(image)
    for turn in range(8):
        with cases.case(f'a make that is stopped while another stores the same chunks, turn {turn}') as folder:
            lay_out(folder, image)
            slow = start_storing(WORDS, folder, STORE, turn)
            slow.send_signal(signal.SIGSTOP)
            quick = program.run(['make', '-s', STORE, 'b.caibx', IMAGE], folder)
            slow.send_signal(signal.SIGCONT)
            expect_ended(program.ended(slow), what='the slow make')
            expect_ended(quick, what='the quick make')
            for name in (INDEX, 'b.caibx'):
                expect_equal(file_bytes(os.path.join(folder, name)), formats.spell_index(index), name)
            expect_stored(folder, STORE, index, image)
            expect_no_temporary(folder)
    for turn in range(8):
        with cases.case(f'a make that is killed while it stores, turn {turn}') as folder:
            lay_out(folder, image, OLD_INDEX)
            killed = start_storing(WORDS, folder, STORE, turn)
            killed.kill()
            program.ended(killed)
            expect(file_bytes(os.path.join(folder, INDEX)) in (OLD_INDEX, formats.spell_index(index)),
                   'INDEX is neither as before nor the image\'s')
            expect_chunks(os.path.join(folder, STORE))
            run_make(folder)
            expect_equal(file_bytes(os.path.join(folder, INDEX)), formats.spell_index(index), 'the index')
            expect_stored(folder, STORE, index, image)


def start_storing(words, folder, store, turn=0):
    """Starts the program and waits until something stands in the store, and by the turn a little longer."""
    process = program.start(words, folder)
    while process.poll() is None and not os.listdir(os.path.join(folder, store)):
        time.sleep(0.0002)
    time.sleep(turn * 0.0007)
    return process


def odd_places(cases):
    image = random.Random(13).randbytes(100000)
    with cases.case('INDEX is IMAGE: the image is in the store, and its index in its place') as folder:
        lay_out(folder, image)
        index = formats.index_of(image)
        run_make(folder, (STORE, IMAGE, IMAGE))
        expect_equal(file_bytes(os.path.join(folder, IMAGE)), formats.spell_index(index), 'the index')
        expect_stored(folder, STORE, index, image)
        extracts(folder, image, (STORE, IMAGE, OUT))
    with cases.case('INDEX stands in the store\'s folder') as folder:
        lay_out(folder, image)
        makes(folder, (STORE, f'{STORE}/{INDEX}', IMAGE))
        extracts(folder, image, (STORE, f'{STORE}/{INDEX}', OUT))
    with cases.case('the store is the folder of INDEX and IMAGE') as folder:
        lay_out(folder, image, OLD_INDEX)
        makes(folder, ('.', INDEX, IMAGE))
        extracts(folder, image, ('.', INDEX, OUT))
    with cases.case('an INDEX that is there is replaced') as folder:
        lay_out(folder, image, OLD_INDEX * 1000)
        makes(folder)
        expect_no_temporary(folder)
    with cases.case('an older INDEX.tmp-desync') as folder:
        lay_out(folder, b'abc')
        put_file(os.path.join(folder, INDEX + '.tmp-desync'), b'a temporary of a crash, longer than an index' * 9)
        run_make(folder)
        expect_equal(file_bytes(os.path.join(folder, INDEX)), ABC_INDEX, 'the index')
    with cases.case('absolute names') as folder:
        lay_out(folder, image)
        run_make(folder, [os.path.join(folder, name) for name in (STORE, INDEX, IMAGE)])
        extracts(folder, image)


def bad_input(cases):
    image = random.Random(17).randbytes(50000)
    for index in (None, OLD_INDEX):
        state = 'none' if index is None else 'an INDEX'
        with cases.case(f'IMAGE is absent, {state} before') as folder:
            lay_out(folder, None, index)
            refused(folder, f'{IMAGE}: no such file')
        with cases.case(f'IMAGE is a folder, {state} before') as folder:
            lay_out(folder, None, index)
            os.mkdir(os.path.join(folder, IMAGE))
            refused(folder, 'the image failed')
        with cases.case(f'the store is absent, {state} before') as folder:
            lay_out(folder, image, index, store=False)
            refused(folder, f'{STORE}: no such folder')
        with cases.case(f'the store is a file, {state} before') as folder:
            lay_out(folder, image, index, store=False)
            put_file(os.path.join(folder, STORE), b'file')
            refused(folder, f'{STORE}: no such folder')
    with cases.case('INDEX is in a folder that isn\'t there') as folder:
        lay_out(folder, image)
        refused(folder, 'no/a.caibx: failed', (STORE, 'no/a.caibx', IMAGE))
    with cases.case('INDEX is a folder') as folder:
        lay_out(folder, image)
        put_file(os.path.join(folder, INDEX, 'file'), b'file')
        refused(folder, f'{INDEX}: failed')
        expect_no_temporary(folder)
    with cases.case('INDEX is an empty folder') as folder:
        lay_out(folder, image)
        os.mkdir(os.path.join(folder, INDEX))
        refused(folder, f'{INDEX}: failed')
        expect_no_temporary(folder)
    no_rights(cases, image)


def no_rights(cases, image):
    """Root is bound by no permissions, so the program then runs as the user `nobody`."""
    def closed(folder, mode, path, text):
        for name in ('.', STORE, IMAGE):
            os.chmod(os.path.join(folder, name), 0o777)
        os.chmod(os.path.join(folder, path), mode)
        refused(folder, text, run=program.run_without_rights)

    with cases.case('nobody may do all') as folder:
        lay_out(folder, image)
        for name in ('.', STORE, IMAGE):
            os.chmod(os.path.join(folder, name), 0o777)
        run_make(folder, run=program.run_without_rights)
        expect_stored(folder, STORE, formats.index_of(image), image)
    with cases.case('IMAGE may not be read') as folder:
        lay_out(folder, image, OLD_INDEX)
        closed(folder, 0, IMAGE, 'the image failed')
    with cases.case('the store may not be written') as folder:
        lay_out(folder, image, OLD_INDEX)
        closed(folder, 0o555, STORE, 'store 0 failed')
    with cases.case('the store may not be read') as folder:
        lay_out(folder, image, OLD_INDEX)
        closed(folder, 0, STORE, 'store 0 failed')
    with cases.case('INDEX\'s folder may not be written') as folder:
        lay_out(folder, image, OLD_INDEX)
        closed(folder, 0o555, '.', f'{INDEX}: failed')


def no_commands(cases):
    never = [
        (['make'], 'word 1: MissingOption'), (['make', '-s', STORE, INDEX], 'word 4: Operands'),
        (['make', '-s', STORE, INDEX, IMAGE, 'more'], 'word 5: Operands'),
        (['make', '-s', '', INDEX, IMAGE], 'word 2: Empty'), (['make', '-s', STORE, '', IMAGE], 'word 3: Empty'),
        (['make', '-s', STORE, INDEX, ''], 'word 4: Empty'), (['make', INDEX, IMAGE], 'word 3: MissingOption'),
        (['make', '-s', STORE, '-a', IMAGE], 'word 3: UnknownOption'),
        (['make', '-s', STORE, INDEX, '-i'], 'word 4: UnknownOption'),
        (['make', '-k', '-s', STORE, INDEX, IMAGE], 'word 1: UnknownOption'),
        (['make', '-s', STORE, '-s', STORE, INDEX, IMAGE], 'word 3: TooMany'),
        (['make', '-s', 'https://localhost/', INDEX, IMAGE], 'word 2: BadLocation'),
    ]
    for words, text in never:
        with cases.case(f'the words {words}') as folder:
            lay_out(folder, b'abc', OLD_INDEX)
            before = snapshot(folder)
            expect_ended(program.run(words, folder), text)
            expect_untouched(before, snapshot(folder))


# A full disk

def full_disk(cases):
    """Runs `small_disk` over a tmpfs of 1 MiB that only a child of this script sees."""
    disk = os.path.join(cases.top, 'disk')
    os.mkdir(disk)
    script = ('mount --make-rprivate / && mount -t tmpfs -o size=1m,mode=755 tmpfs "$1" || exit 1; '
              'exec "$2" "$3" "$4" "$1"')
    words = ['unshare', '-m', 'sh', '-c', script, 'sh', disk, sys.executable, os.path.abspath(__file__), SMALL_DISK]
    try:
        ended = subprocess.run(words, stdin=subprocess.DEVNULL, stdout=subprocess.PIPE, stderr=subprocess.PIPE)
    except FileNotFoundError:
        cases.skip('a full disk', 'unshare isn\'t there')
        return
    try:
        count = json.loads(ended.stdout.splitlines()[-1])
    except (IndexError, ValueError):
        cases.skip('a full disk', f'no tmpfs can be mounted here: {ended.stderr.decode().strip()}')
        return
    sys.stdout.write(''.join(line.decode() + '\n' for line in ended.stdout.splitlines()[:-1]))
    cases.passed += count['passed']
    cases.failed += count['failed']
    cases.skipped += count['skipped']


def fill(disk, but=0):
    """Fills the disk, leaving so many bytes."""
    spare = os.path.join(disk, 'spare')
    if but:
        put_file(spare, b'x' * but)
    with open(os.path.join(disk, 'filler'), 'ab', buffering=0) as file:
        for piece in (b'x' * 4096, b'x'):
            try:
                while True:
                    file.write(piece)
            except OSError:
                pass
    if but:
        os.remove(spare)


def clear(disk):
    for name in os.listdir(disk):
        path = os.path.join(disk, name)
        shutil.rmtree(path) if os.path.isdir(path) else os.remove(path)


def small_disk(disk):
    """The cases over a small disk; prints them as counted lines, and last the count."""
    cases = Cases('small disk')
    # 120 chunks: the index is longer than a page of 4096 bytes, so that a part of it can be written.
    image = least_chunks(120)
    for what, but in (('full', 0), ('full but for 4096 bytes', 4096)):
        for old in (None, OLD_INDEX, OLD_INDEX * 100):
            state = f'{len(old or b"")} bytes of INDEX before'
            with cases.case(f'the disk of INDEX is {what}, {state}') as folder:
                clear(disk)
                lay_out(folder, image)
                index_path = os.path.join(disk, INDEX)
                if old is not None:
                    put_file(index_path, old)
                fill(disk, but)
                before = snapshot(disk)
                run_make(folder, (STORE, index_path, IMAGE), f'{index_path}: failed')
                expect_equal(file_bytes(index_path), old, 'INDEX')
                expect_untouched({**before, '.': None}, {**snapshot(disk), '.': None})
                expect_stored(folder, STORE, formats.index_of(image), image)
    for what, but in (('full', 0), ('full but for 300,000 bytes', 300000)):
        with cases.case(f'the disk of the store is {what}') as folder:
            clear(disk)
            lay_out(folder, image, OLD_INDEX)
            fill(disk, but)
            before = snapshot(disk)
            run_make(folder, (disk, INDEX, IMAGE), 'store 0 failed')
            expect_equal(file_bytes(os.path.join(folder, INDEX)), OLD_INDEX, 'INDEX')
            after = snapshot(disk)
            expect_right_names(disk, before, after)
            expect_no_temporary(disk)
            expect_equal(after['filler'], before['filler'], 'another file')
            os.remove(os.path.join(disk, 'filler'))
    clear(disk)
    remove(cases.top)
    print(json.dumps({'passed': cases.passed, 'failed': cases.failed, 'skipped': cases.skipped}))
    return 0


def main():
    if sys.argv[1:2] == [SMALL_DISK]:
        return small_disk(sys.argv[2])
    needs_program('make')
    cases = Cases('make')
    for group in (images, changed_in_the_middle, changed_while_it_runs, file_system_image, chunks_there, two_at_once,
                  interrupted, odd_places, bad_input, no_commands, full_disk):
        group(cases)
    return cases.end()


if __name__ == '__main__':
    sys.exit(main())
