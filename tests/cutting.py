#!/usr/bin/env python3
"""Where images are cut: by `desync make`, by the library in pieces of many sizes, by tests/formats.py and by casync.

    tests/cutting.py             the program, over real files, other sizes of chunks and an image of 4 GiB
    tests/cutting.py --pieces    the library too, in a program that `rt` builds first, which takes minutes

DESYNC names the program to run, if it is another one. Where casync is installed its cuts and ids are compared too.
"""

import os
import shutil
import subprocess
import sys
import tarfile
import tempfile

import cutter
import formats
import over_crates
import program
from checks import Cases, Skip, expect, expect_ended, expect_equal, file_bytes, needs_program, put_file

STORE, INDEX, IMAGE = 'st', 'a.caibx', 'img'
KIB, MIB, GIB = 1 << 10, 1 << 20, 1 << 30
PIECES = (1, 47, 48, 49, 65535, 65537, 16 * MIB)
REAL = 12 * MIB
SMALL_SIZES = ((48, 48, 48), (48, 63, 100), (64, 128, 512), (128, 128, 512), (64, 128, 64 * MIB))
SIZES = ((16, 64, 256), (1, 1, 64), (1, 4, 16), (64, 64, 256), (4, 64, 65536), (16, 16, 16))


def real_files():
    """The paths of real files of some size, in the order of their names."""
    top = os.path.dirname(os.__file__)
    for folder, folders, names in os.walk(top):
        folders.sort()
        for name in sorted(names):
            path = os.path.join(folder, name)
            if os.path.isfile(path) and not os.path.islink(path) and os.path.getsize(path) < MIB:
                yield path


def tar_of_real_files(path):
    with tarfile.open(path, 'w') as tar:
        for real in real_files():
            tar.add(real, recursive=False)
            if tar.offset > REAL:
                return


def file_system_of_real_files(path):
    """An image of a file system with real files in it."""
    tool = shutil.which('mke2fs') or shutil.which('mke2fs', path='/sbin:/usr/sbin')
    if tool is None:
        raise Skip('mke2fs isn\'t there')
    folder = path + '.files'
    os.mkdir(folder)
    taken = 0
    for number, real in enumerate(real_files()):
        taken += os.path.getsize(real)
        if taken > REAL // 2:
            break
        shutil.copyfile(real, os.path.join(folder, str(number)))
    subprocess.run([tool, '-q', '-t', 'ext4', '-d', folder, path, f'{REAL // MIB}M'], check=True,
                   stdin=subprocess.DEVNULL, stdout=subprocess.DEVNULL, stderr=subprocess.DEVNULL)
    shutil.rmtree(folder)


def text_of_real_files(path):
    with open(path, 'wb') as image:
        for real in real_files():
            if real.endswith('.py'):
                image.write(file_bytes(real))
            if image.tell() > REAL:
                return


REAL_IMAGES = (('a tar of real files', tar_of_real_files), ('a file system of real files', file_system_of_real_files),
               ('a text of real files', text_of_real_files))


def make(folder, sizes=None):
    """Makes the image's index, and answers it."""
    os.makedirs(os.path.join(folder, STORE), exist_ok=True)
    asked = [] if sizes is None else ['-m', ':'.join(map(str, sizes))]
    expect_ended(program.run(['make', '-s', STORE, *asked, INDEX, IMAGE], folder))
    return formats.read_index(file_bytes(os.path.join(folder, INDEX)))


def by_program(cases):
    for what, write in REAL_IMAGES:
        with cases.case(f'make cuts {what}') as folder:
            path = os.path.join(folder, IMAGE)
            write(path)
            expect_equal(make(folder).entries, formats.index_of(file_bytes(path)).entries, 'the entries')
    for sizes in SIZES:
        with cases.case(f'make cuts by -m {":".join(map(str, sizes))}') as folder:
            image = os.urandom(4 * MIB) + bytes(MIB) + os.urandom(MIB)
            put_file(os.path.join(folder, IMAGE), image)
            wanted = formats.index_of(image, tuple(KIB * size for size in sizes))
            made = make(folder, sizes)
            expect_equal(made.sizes, wanted.sizes, 'the sizes')
            expect_equal(made.entries, wanted.entries, 'the entries')


def a_large_image(cases):
    greatest = formats.DEFAULT_SIZES[2]
    for workers in (1, 4):
        beside = 'index and buffers' if workers == 1 else 'index, buffers and 1 MiB a worker'
        with cases.case(f'make -n {workers} cuts 4 GiB of zeros, in 8 MiB beside {beside}') as folder:
            with open(os.path.join(folder, IMAGE), 'wb') as image:
                image.truncate(4 * GIB)
            os.mkdir(os.path.join(folder, STORE))
            words = ['make', '-s', STORE, '-n', str(workers), INDEX, IMAGE]
            ended, _, peak = program.run_measured(words, folder)
            expect_equal(ended.status, 0, 'the status')
            spelled = file_bytes(os.path.join(folder, INDEX))
            name = formats.digest_of(bytes(greatest))
            wanted = [(end, name) for end in range(greatest, 4 * GIB + 1, greatest)]
            expect_equal(formats.read_index(spelled).entries, wanted, 'the entries')
            # A bare Python starts the program, and its memory is counted where the program's own is less. Each worker
            # has a buffer, 1 MiB, and what it has listed.
            each = (greatest + MIB + len(spelled)) if workers > 1 else 0
            room = max(8 * MIB + len(spelled) + 2 * greatest, 12 * MIB) + workers * each
            expect(KIB * peak <= room, f'the peak memory is {peak} KiB')


def by_casync(cases):
    for sizes in (None, (16, 32, 64), (32, 64, 128), (16, 64, 256)):
        with cases.case(f'casync cuts and names as make does, sizes {sizes or "not asked for"}') as folder:
            if shutil.which('casync') is None:
                raise Skip('casync isn\'t installed')
            path = os.path.join(folder, IMAGE)
            tar_of_real_files(path)
            with open(path, 'ab') as image:
                image.write(os.urandom(4 * MIB))
            asked = [] if sizes is None else ['--chunk-size=' + ':'.join(str(KIB * size) for size in sizes)]
            subprocess.run(['casync', 'make', '--store=theirs', '--digest=sha512-256', *asked, 'b.caibx', IMAGE],
                           cwd=folder, check=True, stdin=subprocess.DEVNULL, stdout=subprocess.DEVNULL)
            theirs = formats.read_index(file_bytes(os.path.join(folder, 'b.caibx')))
            expect_equal(make(folder, sizes).entries, theirs.entries, 'the entries')


def in_pieces(cases):
    with tempfile.TemporaryDirectory(prefix='desync-cutter-') as copy:
        try:
            built = cutter.build(copy)
        except over_crates.NotBuilt as why:
            (cases.fail if shutil.which('rt') else cases.skip)('the library cuts in pieces', why)
            return
        for what, write in REAL_IMAGES:
            with cases.case(f'the library cuts {what} in pieces') as folder:
                path = os.path.join(folder, IMAGE)
                write(path)
                wanted = formats.cut_points(file_bytes(path))
                for piece in PIECES:
                    expect_equal(cutter.ends_of(built, path, piece, formats.DEFAULT_SIZES), wanted,
                                 f'the ends in pieces of {piece}')
        for sizes in SMALL_SIZES:
            with cases.case(f'the library cuts by {sizes} bytes in pieces') as folder:
                path = os.path.join(folder, IMAGE)
                image = os.urandom(60000) + bytes(30000) + os.urandom(10000)
                put_file(path, image)
                wanted = formats.cut_points(image, sizes)
                for piece in PIECES:
                    expect_equal(cutter.ends_of(built, path, piece, sizes), wanted, f'the ends in pieces of {piece}')


def main():
    needs_program('cutting')
    cases = Cases('cutting')
    groups = [by_program, a_large_image, by_casync]
    if sys.argv[1:] == ['--pieces']:
        groups.append(in_pieces)
    for group in groups:
        group(cases)
    return cases.end()


if __name__ == '__main__':
    sys.exit(main())
