#!/usr/bin/env python3
"""Groups of stores, `-s 'a|b'`, and failed calls that are made again, `-e N`: `extract`, `cache` and `info` over
servers that end, fail and are busy, over folders that can't be read, and over full disks.

The servers listen on the loopback interface alone: those of this script, and `desync chunk-server` behind one that
notes each request, which it may end before by the number of its process. With one worker the requests are compared one
by one; with several it is counted how often each chunk was asked for. What a scene by chance comes to is told by a
second reading of docs/COMMANDS.md, which stands here.
"""

import collections
import contextlib
import errno
import itertools
import os
import random
import shutil
import subprocess
import sys
import threading
import time

import at_once
import formats
import program
import servers
import workers
from checks import Cases, Skip, expect, expect_ended, expect_equal, file_bytes, files_of, needs_program, put_file
from http_stores import Image
from servers import reply

CREWS = 1, 2, 8
PIECES = 40
FAILED = 'store 0 failed'


def stored(*stores):
    return [word for store in stores for word in ('-s', store)]


def extract(image, count, retries, *stores, more=(), out='out'):
    given = [] if retries is None else ['-e', str(retries)]
    return image.run('extract', '-n', str(count), *given, *stored(*stores), *more, 'new.caibx', out)


def fill(image, count, retries, *stores, cache='near'):
    return image.run('cache', '-n', str(count), '-e', str(retries), *stored(*stores), '-c', cache, 'new.caibx')


def times(asks, count):
    """Each of the asks so often, one right after the other."""
    return [ask for ask in asks for _ in range(count)]


def image_of(image, has):
    """The image, with zeros in the place of the entries that it doesn't have."""
    return b''.join(piece if has(entry) else bytes(len(piece)) for entry, piece in enumerate(image.pieces))


def expect_bytes(image, wanted, out='out'):
    expect(file_bytes(image.path(out)) == wanted, f'{out} isn\'t what was had')


# Chunk servers that end

def killer(server, at):
    """Ends the process of a server before it gets the request of this number."""
    def before(number):
        if number == at:
            server.process.kill()
            server.process.wait()
    return before


def mirror(image, held, at=None, store='all'):
    """A chunk server behind a front. It ends before the request of this number."""
    server = servers.ChunkServer(image.folder, store=store)
    held.enter_context(contextlib.closing(at_once.started(server)))
    return held.enter_context(servers.Front(server.port, killer(server, at)))


def group(*fronts):
    return '|'.join(front.url() for front in fronts)


def expect_passed_over(image, first, others, count, retries, method='GET'):
    """The first server gave chunks until it ended. Each worker then asked it for one chunk as often as it may, and the
    next one for that chunk and all further ones, each once."""
    asks = image.asks(method=method)
    given = [(method, path) for path in first.given]
    failed = [ask for ask in asks if ask in first.asked and ask not in given]
    expect(1 <= len(failed) <= count, f'{len(failed)} chunks were asked for in vain, by {count} workers')
    expect_equal(sorted(first.asked), sorted(given + times(failed, retries + 1)), 'what the first server was asked')
    expect_equal(sorted(others), sorted(ask for ask in asks if ask not in given), 'what the second server was asked')
    if count == 1:
        at = len(given)
        expect_equal(first.asked, asks[:at] + times(asks[at:at + 1], retries + 1), 'what the first was asked, in order')
        expect_equal(others, asks[at:], 'what the second was asked, in order')


def one_ends(cases, count):
    for retries, at in ((0, 7), (2, 7), (1, 0)):
        told = f'-n {count} -e {retries}, before request {at}'
        with cases.case(f'extract: the first of two servers ends, {told}') as folder, contextlib.ExitStack() as held:
            image = Image(folder, PIECES)
            first, second = mirror(image, held, at), mirror(image, held)
            expect_ended(extract(image, count, retries, group(first, second)))
            image.expect_out()
            expect_passed_over(image, first, second.asked, count, retries)
        with cases.case(f'cache: the first of two servers ends, {told}') as folder, contextlib.ExitStack() as held:
            image = Image(folder, PIECES)
            first, second = mirror(image, held, at), mirror(image, held)
            expect_ended(fill(image, count, retries, group(first, second)))
            image.expect_store('near')
            expect_passed_over(image, first, second.asked, count, retries)
    with cases.case(f'extract: the first of two servers ends, and no -e is given, -n {count}') as folder, \
            contextlib.ExitStack() as held:
        image = Image(folder, PIECES)
        first, second = mirror(image, held, 11), mirror(image, held)
        expect_ended(extract(image, count, None, group(first, second), more=['-k']))
        image.expect_out()
        expect_passed_over(image, first, second.asked, count, 0)
    with cases.case(f'extract: the first of three servers ends, and then the second, -n {count}') as folder, \
            contextlib.ExitStack() as held:
        image = Image(folder, PIECES)
        fronts = [mirror(image, held, 5), mirror(image, held, 9), mirror(image, held)]
        expect_ended(extract(image, count, 1, group(*fronts)))
        image.expect_out()
        asked = collections.Counter(ask for front in fronts for ask in front.asked)
        expect(set(asked) == set(image.asks()), 'another set of chunks was asked for')
        expect(max(asked.values()) <= 5, f'a chunk was asked for {max(asked.values())} times')
        given = collections.Counter(path for front in fronts for path in front.given)
        expect(set(given.values()) == {1}, 'a chunk was given twice')


def both_end(cases, count):
    for retries, ends in ((0, (6, 4)), (2, (6, 4)), (1, (0, 0))):
        told = f'-n {count} -e {retries}, before requests {ends}'
        with cases.case(f'extract: both servers end, {told}') as folder, contextlib.ExitStack() as held:
            image = Image(folder, PIECES)
            fronts = [mirror(image, held, at) for at in ends]
            expect_ended(extract(image, count, retries, group(*fronts), more=['-k']), FAILED)
            given = set(fronts[0].given + fronts[1].given)
            expect_bytes(image, image_of(image, lambda entry: image.asks()[entry][1] in given))
            lost = [ask for ask in image.asks() if ask[1] not in given]
            for front in fronts:
                expect_equal(sorted(ask for ask in front.asked if ask in lost), sorted(times(lost, 2 * retries + 2)),
                             'what was asked in vain, twice by each store')
                most = max(collections.Counter(ask for ask in front.asked if ask not in lost).values(), default=0)
                expect(most <= retries + 1, f'a chunk that was had was asked for {most} times')
            if count == 1:
                expect_one_by_one(image, fronts, ends, retries)
            # What they have given stays, and any other store goes on from there.
            with servers.store(image.path('all')) as third:
                expect_ended(extract(image, 1, 0, group(*fronts, third), more=['-k']))
                expect_equal(sorted(third.asked), sorted(lost), 'what the third was asked')
            image.expect_out()
        with cases.case(f'extract without -k: both servers end, {told}') as folder, contextlib.ExitStack() as held:
            image = Image(folder, PIECES)
            put_file(image.path('out'), b'old')
            fronts = [mirror(image, held, at) for at in ends]
            expect_ended(extract(image, count, retries, group(*fronts)), FAILED)
            expect_equal(file_bytes(image.path('out')), b'old', 'out')
            expect(not os.path.lexists(image.path('out.tmp-desync')), 'the temporary file is there')
        with cases.case(f'cache: both servers end, {told}') as folder, contextlib.ExitStack() as held:
            image = Image(folder, PIECES)
            fronts = [mirror(image, held, at) for at in ends]
            expect_ended(fill(image, count, retries, group(*fronts)), FAILED)
            kept = files_of(image.path('near'))
            rightly = {formats.path_in_store(name): piece for name, piece in zip(image.names, image.pieces)}
            expect(kept.items() <= rightly.items(), f'the cache holds {sorted(kept)}')
            if count == 1:
                image.expect_store('near', sum(ends))
                at = image.asks()[sum(ends)]
                expect_equal(fronts[1].asked, image.asks()[ends[0]:sum(ends)] + [at] * (retries + 1),
                             'what the second was asked')


def expect_one_by_one(image, fronts, ends, retries):
    """With one worker: each chunk that is lacking is asked for in each of the two passes, of the second server, which
    is still the active one, and then of the first."""
    asks, (first, second) = image.asks(), ends
    tried = retries + 1
    vain = times(asks[first + second:], tried) * 2
    wanted = asks[:first] + times(asks[first:first + 1], tried) + vain
    if ends == (0, 0):
        wanted = vain
    expect_equal(fronts[0].asked, wanted, 'what the first was asked, in order')
    expect_equal(fronts[1].asked, asks[first:first + second] + vain, 'what the second was asked, in order')


def nobody_listens(cases, count):
    with cases.case(f'the first of a group of two listens nowhere, -n {count}') as folder, \
            contextlib.ExitStack() as held:
        image = Image(folder, PIECES)
        second = mirror(image, held)
        nowhere = f'http://localhost:{servers.free_port()}'
        expect_ended(extract(image, count, 1, f'{nowhere}|{second.url()}'))
        image.expect_out()
        expect_equal(sorted(second.asked), sorted(image.asks()), 'what the second was asked')
        expect_ended(extract(image, count, 1, f'{nowhere}|{nowhere}/other', f'{nowhere}/third'), FAILED)
        expect_ended(extract(image, count, 1, f'{nowhere}|{nowhere}/other', 'all', out='other'))
        image.expect_out('other')


# Servers that fail, and then don't

def answering(image, status, by_path=False):
    """A server of the store `all` that answers request `number` with `status(number)`, or with the chunk where that is
    200. The requests for each path may have numbers of their own."""
    numbers, lock = collections.defaultdict(itertools.count), threading.Lock()

    def answer(peer, method, path, _body):
        with lock:
            told = status(next(numbers[path if by_path else None]))
        held = servers.file_at(image.path('all'), '', path)
        if told != 200:
            peer.sendall(reply(told))
        elif method == 'HEAD':
            peer.sendall(reply(200, length=len(held)))
        else:
            peer.sendall(reply(200, held))
    return servers.Server(answer, at_once=True)


def each_second_fails(cases, count):
    def status(number):
        return 500 if number % 2 else 200

    with cases.case(f'a server fails each second reply, -n {count} -e 1') as folder:
        image = Image(folder, PIECES)
        with answering(image, status) as server:
            expect_ended(extract(image, count, 1, server.url()))
        image.expect_out()
        # Two tries in each of two passes.
        asked = collections.Counter(server.asked)
        expect(set(asked) == set(image.asks()) and max(asked.values()) <= 4, f'it was asked {asked}')
        if count == 1:
            expect_equal(server.asked, image.asks()[:1] + times(image.asks()[1:], 2), 'what was asked, in order')
    with cases.case(f'a server fails each second reply, -n {count} without -e') as folder:
        image = Image(folder, PIECES)
        with answering(image, status) as server:
            expect_ended(extract(image, count, None, server.url(), more=['-k']), FAILED)
        # A half of the chunks in the first pass, and a half of the others in the second.
        expect_equal(len(server.asked), PIECES + PIECES // 2, 'how often it was asked')
        if count == 1:
            left = list(range(PIECES))[1::2]
            expect_equal(server.asked, image.asks() + [image.asks()[entry] for entry in left], 'what was asked')
            expect_bytes(image, image_of(image, lambda entry: entry not in left[1::2]))
    with cases.case(f'cache from a server that fails the first reply for each chunk, -n {count}') as folder:
        image = Image(folder, PIECES)
        with answering(image, lambda number: 200 if number else 500, by_path=True) as server:
            expect_ended(fill(image, count, 1, server.url()))
        image.expect_store('near')
        expect_equal(sorted(server.asked), sorted(times(image.asks(), 2)), 'what it was asked')
    with cases.case(f'two servers in a group fail each second reply, -n {count}') as folder:
        image = Image(folder, PIECES)
        with answering(image, status) as first, answering(image, status) as second:
            expect_ended(extract(image, count, 1, f'{first.url()}|{second.url()}'))
            if count == 1:
                expect_equal(second.asked, [], 'what the second was asked')
        image.expect_out()


def busy(cases, count):
    for retries in (0, 3):
        with cases.case(f'a server answers 503, and another of its group doesn\'t, -n {count} -e {retries}') as folder:
            image = Image(folder, PIECES)
            with answering(image, lambda number: 503) as first, answering(image, lambda number: 200) as second:
                expect_ended(extract(image, count, retries, f'{first.url()}|{second.url()}'))
            image.expect_out()
            expect_passed_over(image, HasGiven(first), second.asked, count, retries)
        with cases.case(f'a server answers 503, and the next -s doesn\'t, -n {count} -e {retries}') as folder:
            image = Image(folder, PIECES)
            with answering(image, lambda number: 503) as first, answering(image, lambda number: 200) as second:
                expect_ended(extract(image, count, retries, first.url(), second.url()))
            image.expect_out()
            wanted = times(image.asks(), retries + 1)
            expect_equal(sorted(first.asked), sorted(wanted), 'what the first was asked')
            expect_equal(sorted(second.asked), sorted(image.asks()), 'what the second was asked')
    for retries in (0, 5, 16):
        with cases.case(f'a server alone answers 503, -n {count} -e {retries}') as folder:
            image = Image(folder, 10)
            with answering(image, lambda number: 503) as server:
                expect_ended(extract(image, count, retries, server.url(), more=['-k']), FAILED)
            expect_bytes(image, bytes(len(image.bytes)))
            wanted = times(image.asks(), 2 * retries + 2)
            expect_equal(sorted(server.asked), sorted(wanted), 'what was asked')
    with cases.case(f'a server answers 503 ten times, and then no more, -n {count} -e 16') as folder:
        image = Image(folder, PIECES)
        with answering(image, lambda number: 503 if number < 10 else 200) as server:
            expect_ended(extract(image, count, 16, server.url()))
        image.expect_out()
        expect_equal(len(server.asked), PIECES + 10, 'how often it was asked')
    if count == 1:
        with cases.case('a server answers 503 ten times, and then no more, -n 1 -e 3') as folder:
            image = Image(folder, PIECES)
            with answering(image, lambda number: 503 if number < 10 else 200) as server:
                expect_ended(extract(image, 1, 3, server.url()))
            image.expect_out()
            asks = image.asks()
            wanted = times(asks[:2], 4) + times(asks[2:3], 3) + asks[3:] + asks[:2]
            expect_equal(server.asked, wanted, 'what was asked')
        with cases.case('between two tries there is no wait') as folder:
            image = Image(folder, 1)
            with answering(image, lambda number: 503) as server:
                begun = time.monotonic()
                expect_ended(extract(image, 1, 16, server.url()), FAILED)
                seconds = time.monotonic() - begun
            expect_equal(len(server.asked), 34, 'how often it was asked')
            expect(seconds < 5, f'34 requests take {seconds} seconds')


class HasGiven:
    """What a server was asked that has given nothing."""

    def __init__(self, server):
        self.asked = server.asked
        self.given = []


def back_again(cases):
    """The store that answered last is asked first, whichever it is: the first one only where it fails."""
    with cases.case('a server that fails once isn\'t asked first again until the other fails') as folder:
        image = Image(folder, PIECES)
        asks = image.asks()
        with answering(image, lambda number: 500 if number == 4 else 200) as first, \
                answering(image, lambda number: 500 if number == 6 else 200) as second:
            expect_ended(extract(image, 1, 0, f'{first.url()}|{second.url()}'))
        image.expect_out()
        expect_equal(first.asked, asks[:5] + asks[10:], 'what the first was asked')
        expect_equal(second.asked, asks[4:11], 'what the second was asked')
    with cases.case('where all have failed the one that was asked first still is') as folder:
        image = Image(folder, PIECES)
        asks = image.asks()
        # Entry 5 is had from neither: the second, which is asked first by then, fails, and so does the first.
        with answering(image, lambda number: 500 if number in (3, 4) else 200) as first, \
                answering(image, lambda number: 500 if number == 2 else 200) as second:
            expect_ended(extract(image, 1, 0, f'{first.url()}|{second.url()}'))
        image.expect_out()
        expect_equal(first.asked, asks[:4] + asks[5:6], 'what the first was asked')
        expect_equal(second.asked, asks[3:] + asks[5:6], 'what the second was asked')


# Folders

def unreadable(image, store, entry):
    """A folder stands where the chunk's file belongs, so that it can't be read."""
    path = formats.chunk_path(image.path(store), image.names[entry])
    with contextlib.suppress(FileNotFoundError):
        os.remove(path)
    os.makedirs(path)


def folder_and_url(cases, count):
    for retries in (0, 2):
        with cases.case(f'a folder that fails at one chunk, and a URL behind it, -n {count} -e {retries}') as folder, \
                contextlib.ExitStack() as held:
            image = Image(folder, PIECES)
            shutil.copytree(image.path('all'), image.path('far'))
            unreadable(image, 'all', 5)
            front = mirror(image, held, store='far')
            expect_ended(extract(image, count, retries, f'all|{front.url()}'))
            image.expect_out()
            # No two chunks are alike, so the worker with entry 5 has each further one by their number.
            expect_equal(sorted(front.asked), sorted(image.asks()[5::count]), 'what the server was asked')
        with cases.case(f'a URL that ends, and a folder behind it, -n {count} -e {retries}') as folder, \
                contextlib.ExitStack() as held:
            image = Image(folder, PIECES)
            shutil.copytree(image.path('all'), image.path('far'))
            front = mirror(image, held, 9)
            expect_ended(extract(image, count, retries, f'{front.url()}|far'))
            image.expect_out()
            others = [ask for ask in image.asks() if ask[1] not in front.given]
            expect_passed_over(image, front, others, count, retries)
        with cases.case(f'a folder and a URL that fail at one chunk, -n {count} -e {retries}') as folder:
            image = Image(folder, PIECES)
            unreadable(image, 'all', 5)
            def answer(peer, _method, path, _body):
                held = servers.file_at(image.path('all'), '', path)
                peer.sendall(reply(500) if held is None else reply(200, held))
            with servers.Server(answer, at_once=True) as server:
                expect_ended(extract(image, count, retries, f'all|{server.url()}', more=['-k']), FAILED)
            expect_bytes(image, image_of(image, lambda entry: entry != 5))
            expect_equal(server.asked, image.asks()[5:6] * (2 * retries + 2), 'what the server was asked')


# Full disks

@contextlib.contextmanager
def small_disk(folder, size):
    """A file system of its own, of so many bytes, in the folder."""
    os.mkdir(folder)
    words = ['mount', '-t', 'tmpfs', '-o', f'size={size}', 'none', folder]
    if shutil.which('mount') is None:
        raise Skip('mount isn\'t installed')
    mounted = subprocess.run(words, stdin=subprocess.DEVNULL, stdout=subprocess.PIPE, stderr=subprocess.STDOUT)
    if mounted.returncode != 0:
        raise Skip(f'a disk of {size} bytes can\'t be mounted: {mounted.stdout.decode().strip()}')
    try:
        yield folder
    finally:
        subprocess.run(['umount', folder], check=True)


def fill_up(path):
    """Writes a file for which the disk has no more room."""
    with open(path, 'wb', buffering=0) as file, contextlib.suppress(OSError):
        while file.write(bytes(4096)):
            pass


def full_disks(cases, count):
    with cases.case(f'cache: the disk of the first of two folders is full, -n {count}') as folder:
        image = Image(folder, PIECES)
        with small_disk(image.path('disk'), 4 << 20):
            shutil.copytree(image.path('all'), image.path('disk/st'))
            fill_up(image.path('disk/rest'))
            expect_ended(fill(image, count, 1, 'disk/st|all'))
            image.expect_store('near')
            unreadable(image, 'all', 3)
            expect_ended(extract(image, count, 1, 'disk/st|all'))
            image.expect_out()
    with cases.case(f'cache: the disk was too small for the first of two folders, -n {count}') as folder:
        image = Image(folder, PIECES)
        with small_disk(image.path('disk'), 512 << 10):
            whole = copy_while_there_is_room(image, image.path('disk/st'))
            # A chunk that was cut short is damaged, and one that isn't there is missing: both are answers.
            held = file_bytes(formats.chunk_path(image.path('disk/st'), image.names[whole]))
            text = formats.refusal(whole, image.names[whole], 'missing' if held is None else 'damaged', 0)
            expect_ended(fill(image, count, 1, 'disk/st|all'), text)
            image.expect_store('near', whole)
            expect_ended(fill(image, count, 1, 'disk/st', 'all'))
            image.expect_store('near')
    with cases.case(f'cache: the disk of the cache is full, -n {count}') as folder:
        image = Image(folder, PIECES)
        shutil.copytree(image.path('all'), image.path('far'))
        with small_disk(image.path('disk'), 2 << 20):
            os.mkdir(image.path('disk/near'))
            put_file(image.path('disk/rest'), bytes((2 << 20) - 400_000))
            expect_ended(fill(image, count, 1, 'all|far', cache='disk/near'), 'the cache failed')
            kept = files_of(image.path('disk/near'))
            rightly = {formats.path_in_store(name): piece for name, piece in zip(image.names, image.pieces)}
            expect(kept.items() <= rightly.items(), f'the cache holds {sorted(kept)}')
            expect(0 < len(kept) < PIECES, f'the cache holds {len(kept)} chunks')
            os.remove(image.path('disk/rest'))
            expect_ended(fill(image, count, 1, 'all|far', cache='disk/near'), what='the second run')
            image.expect_store('disk/near')


def copy_while_there_is_room(image, store):
    """Copies chunks, in order, to a disk that is too small for them. Answers the number of those that are whole."""
    for entry, (name, piece) in enumerate(zip(image.names, image.pieces)):
        try:
            formats.write_chunk(store, name, piece)
        except OSError as why:
            expect_equal(why.errno, errno.ENOSPC, 'why no more can be copied')
            return entry
    raise AssertionError('the disk had room for all')


# Answers

# What a folder has under the chunk's id.
KINDS = 'right', 'missing', 'damaged', 'failing'


def lay_kind(image, store, kind):
    os.mkdir(image.path(store))
    if kind == 'right':
        formats.write_chunk(image.path(store), image.names[0], image.pieces[0])
    elif kind == 'damaged':
        formats.write_chunk(image.path(store), image.names[0], image.pieces[0][:-1])
    elif kind == 'failing':
        unreadable(image, store, 0)


def told_of(image, sizes, kinds):
    """The text where the folders of groups of these sizes have these: an answer of each group, by the first of its
    folders that doesn't fail."""
    answers, first = [], 0
    for size in sizes:
        part = list(enumerate(kinds))[first:first + size]
        answers.append(next(((kind, number) for number, kind in part if kind != 'failing'), ('failing', first)))
        first += size
    whys = [why for why, _ in answers]
    if 'right' in whys:
        return ''
    if 'failing' in whys:
        return f'store {answers[whys.index("failing")][1]} failed'
    if 'damaged' in whys:
        return formats.refusal(0, image.names[0], 'damaged', answers[whys.index('damaged')][1])
    return formats.refusal(0, image.names[0], 'missing', None)


def answers_and_numbers(cases):
    for sizes in ((2,), (2, 1), (1, 2)):
        count = sum(sizes)
        with cases.case(f'which folder is named, and which answer counts, in groups of {sizes}') as top:
            for number, kinds in enumerate(itertools.product(KINDS, repeat=count)):
                folder = os.path.join(top, str(number))
                os.mkdir(folder)
                image = Image(folder, 1)
                names = iter([f's{store}' for store in range(count)])
                spelled = ['|'.join(itertools.islice(names, size)) for size in sizes]
                for store, kind in enumerate(kinds):
                    lay_kind(image, f's{store}', kind)
                text = told_of(image, sizes, kinds)
                expect_ended(extract(image, 2, number % 3, *spelled), text, what=f'extract from {kinds}')
                expect_ended(fill(image, 2, number % 3, *spelled), text, what=f'cache from {kinds}')
                if not text:
                    image.expect_out()
                    image.expect_store('near')
    with cases.case('stores are numbered over all groups, however many stand before') as folder:
        image = Image(folder, 1)
        for number in range(16):
            lay_kind(image, f's{number}', 'failing' if number > 11 else 'missing')
        spelled = ['|'.join(f's{number}' for number in part) for part in ((0, 1, 2, 3, 4), (5,), range(6, 12),
                                                                           (12, 13, 14), (15,))]
        expect_ended(extract(image, 1, 1, *spelled), 'store 12 failed')
        expect_ended(fill(image, 1, 1, *spelled), 'store 12 failed')
    for count in CREWS:
        for what, lay, why in (('missing', lambda image, path: os.remove(path), 'missing'),
                               ('damaged', lambda image, path: put_file(path, b'x'), 'damaged')):
            with cases.case(f'a {what} chunk isn\'t sought in the next server of the group, -n {count}') as folder, \
                    contextlib.ExitStack() as held:
                image = Image(folder, PIECES)
                shutil.copytree(image.path('all'), image.path('far'))
                lay(image, formats.chunk_path(image.path('all'), image.names[7]))
                first = held.enter_context(servers.store(image.path('all')))
                second = mirror(image, held, store='far')
                expect_ended(extract(image, count, 3, f'{first.url()}|{second.url()}'), image.refusal(why, 7))
                expect_equal(second.asked, [], 'what the second was asked')
                # It isn't asked for again but in the second pass.
                expect_equal(sorted(first.asked), sorted(image.asks() + image.asks()[7:8]), 'what the first was asked')
                expect_ended(extract(image, count, 3, first.url(), second.url()))
                image.expect_out()


# info

def counted(cases):
    with cases.case('info: the first of two servers ends') as folder, contextlib.ExitStack() as held:
        image = Image(folder, PIECES)
        first, second = mirror(image, held, 7), mirror(image, held)
        ended = image.run('info', '-e', '2', '-s', group(first, second), 'new.caibx')
        expect_ended(ended, out=image.figures(PIECES))
        expect_passed_over(image, first, second.asked, 1, 2, 'HEAD')
    with cases.case('info: both servers end') as folder, contextlib.ExitStack() as held:
        image = Image(folder, PIECES)
        first, second = mirror(image, held, 7), mirror(image, held, 5)
        expect_ended(image.run('info', '-e', '2', '-s', group(first, second), 'new.caibx'), FAILED)
        asks = image.asks(method='HEAD')
        expect_equal(first.asked, asks[:7] + times(asks[7:8], 3) + times(asks[12:13], 3), 'what the first was asked')
        expect_equal(second.asked, asks[7:12] + times(asks[12:13], 3), 'what the second was asked')
    with cases.case('info: a server fails each second reply, and is asked again') as folder:
        image = Image(folder, PIECES)
        with answering(image, lambda number: 500 if number % 2 else 200) as server:
            ended = image.run('info', '--error-retry', '1', '-s', server.url(), 'new.caibx')
            expect_ended(ended, out=image.figures(PIECES))
            asks = image.asks(method='HEAD')
            expect_equal(server.asked, asks[:1] + times(asks[1:], 2), 'what was asked')
    with cases.case('info: a group fails, and the next -s has all chunks but one') as folder:
        image = Image(folder, PIECES)
        with answering(image, lambda number: 500) as first, answering(image, lambda number: 503) as second, \
                servers.store(image.path('all')) as third:
            words = ['info', '-e', '1', '-s', f'{first.url()}|{second.url()}', '-s', third.url(), 'new.caibx']
            expect_ended(image.run(*words), out=image.figures(PIECES))
            asks = image.asks(method='HEAD')
            for server in (first, second):
                expect_equal(server.asked, times(asks, 2), 'what was asked of the group')
            expect_equal(third.asked, asks, 'what the third was asked')
            os.remove(formats.chunk_path(image.path('all'), image.names[7]))
            expect_ended(image.run(*words), FAILED)
    with cases.case('info: a group of which one says no isn\'t asked further') as folder:
        image = Image(folder, PIECES)
        with servers.store(image.path('none')) as first, servers.store(image.path('all')) as second:
            ended = image.run('info', '-e', '1', '-s', f'{first.url()}|{second.url()}', 'new.caibx')
            expect_ended(ended, out=image.figures(0))
            expect_equal(second.asked, [], 'what the second was asked')


# Scenes by chance

class Scene:
    """Groups of stores that answer each request by chance, alike in each run; all are of one server, below a prefix
    each."""

    def __init__(self, image, chance):
        self.image = image
        self.sizes = [chance.randint(1, 3) for _ in range(chance.randint(1, 3))]
        self.retries = chance.randint(0, 2)
        self.seed = chance.random()
        # How often each kind of answer comes, for each store.
        ways = (6, 1, 1, 3), (1, 0, 0, 9), (3, 2, 2, 9), (9, 0, 0, 3), (0, 3, 3, 4), (1, 9, 0, 2)
        self.weights = [chance.choice(ways) for _ in range(sum(self.sizes))]

    def kind(self, store, number):
        """What the store answers to its request of this number."""
        chance = random.Random(f'{self.seed} {store} {number}')
        return chance.choices(KINDS, self.weights[store])[0]

    def stores(self, url):
        numbers = iter(range(sum(self.sizes)))
        return ['|'.join(f'{url}/{number}' for number in itertools.islice(numbers, size)) for size in self.sizes]

    def answer(self, seen):
        """Answers requests, and counts those of each store in `seen`."""
        def answer(peer, _method, path, _body):
            store = int(path.split('/')[1])
            kind = self.kind(store, seen[store])
            seen[store] += 1
            held = servers.file_at(self.image.path('all'), f'/{store}', path)
            peer.sendall({'right': reply(200, held), 'missing': reply(404), 'damaged': reply(200, held[:-1]),
                          'failing': reply(500)}[kind])
        return answer

    def read(self, passes):
        """A second reading: what is asked, which entries are had, and what the first refusal of the last pass is. An
        entry that isn't had is asked for in each of two passes; with one, the first refusal ends the run."""
        asked, seen = [], [0] * sum(self.sizes)
        active = [0] * len(self.sizes)
        had, refused = set(), None
        for _ in range(passes):
            refused = None
            for entry in range(len(self.image.names)):
                if entry in had or passes == 1 and refused:
                    continue
                why = self.obtain(entry, active, seen, asked)
                if why is None:
                    had.add(entry)
                elif refused is None:
                    refused = (entry, *why)
        return asked, had, refused

    def obtain(self, entry, active, seen, asked):
        """None where a group gives the chunk, else why not, and the store that is named."""
        whys = []
        for number, size in enumerate(self.sizes):
            first = sum(self.sizes[:number])
            kind, store = self.ask_group(entry, first, size, active[number], seen, asked)
            if kind == 'right':
                active[number] = store
                return None
            if kind != 'failing':
                active[number] = store
            whys.append((kind, first + store))
        for kind in ('failing', 'damaged'):
            for why in whys:
                if why[0] == kind:
                    return why
        return 'missing', 0

    def ask_group(self, entry, first, size, active, seen, asked):
        for step in range(size):
            store = (active + step) % size
            for _ in range(self.retries + 1):
                kind = self.kind(first + store, seen[first + store])
                seen[first + store] += 1
                asked.append((first + store, entry))
                if kind != 'failing':
                    return kind, store
        return 'failing', 0

    def text(self, refused):
        if refused is None:
            return ''
        entry, why, store = refused
        return f'store {store} failed' if why == 'failing' else formats.refusal(entry, self.image.names[entry], why,
                                                                                 store)


def run_scene(scene, words, passes):
    """Runs the words over the scene's stores, and compares how they end and what they ask. Answers the run, the entries
    that are had, and the text."""
    with servers.Server(scene.answer([0] * sum(scene.sizes))) as server:
        given = ['-e', str(scene.retries), *stored(*scene.stores(server.url()))]
        ended = program.run([*words, *given], scene.image.folder)
    asked, had, refused = scene.read(passes)
    text = scene.text(refused)
    expect_equal(ended.err.decode(), f'desync: {text}\n' if text else '', f'standard error of {words[0]}')
    expect_equal(ended.status, 1 if text else 0, f'the status of {words[0]}')
    entries = {path: entry for entry, (_, path) in enumerate(scene.image.asks())}
    got = []
    for _, path in server.asked:
        store, rest = path[1:].split('/', 1)
        got.append((int(store), entries['/' + rest]))
    expect_equal(got, asked, f'what {words[0]} asked, as (store, entry)')
    return ended, had, text


def scenes(cases):
    told = collections.Counter()
    for number in range(80):
        with cases.case(f'scene {number} of servers that answer by chance') as folder:
            chance = random.Random(f'groups {number}')
            image = Image(folder, chance.randint(1, 12))
            scene = Scene(image, chance)
            ended, had, text = run_scene(scene, ['extract', '-n', '1', '-k', 'new.caibx', 'out'], 2)
            expect_bytes(image, image_of(image, lambda entry, had=had: entry in had))
            told[text[:5], 'damaged' in text] += 1
            ended, had, text = run_scene(scene, ['cat', 'new.caibx'], 1)
            expect(ended.out == b''.join(image.pieces[:len(had)]), 'cat prints others')
            ended, had, text = run_scene(scene, ['cache', '-n', '1', '-c', 'near', 'new.caibx'], 1)
            image.expect_store('near', len(had))
    with cases.case('the scenes had each outcome'):
        for kind in (('', False), ('store', False), ('chunk', False), ('chunk', True)):
            expect(told[kind] > 2, f'{kind} came {told[kind]} times')


# Words

def parts(count):
    return '|'.join(f's{number}' for number in range(count))


def words(cases):
    takes = {'extract': ['a.caibx', 'o'], 'cache': ['-c', 'near', 'a.caibx'], 'info': ['a.caibx'], 'cat': ['a.caibx']}
    for command, rest in takes.items():
        def expect_refused(text, *given, command=command, rest=rest):
            with cases.case(f'the words {command} {" ".join(given)[:60]}') as folder:
                expect_ended(program.run([command, *given, *rest], folder), text)
                expect_equal(os.listdir(folder), [], 'the folder')
        taken = {'cache': 's0: no such folder'}.get(command, 'a.caibx: no such file')
        expect_refused(taken, '-s', 's0|y')
        expect_refused(taken, '-s', 's0', '-e', '0')
        expect_refused(taken, '-s', 's0', '-e', '16')
        expect_refused(taken, '--error-retry', '7', '-s', 's0|http://h/x|http://h')
        expect_refused(taken, '-s', parts(16))
        expect_refused(taken, *stored(*['s0|y'] * 8))
        for value in ('17', '-1', '01', '', '+1', 'x', '1 ', '4294967296', '99999999999999999999'):
            expect_refused('word 4: BadNumber', '-s', 'x', '-e', value)
        expect_refused('word 5: TooMany', '-s', 'x', '-e', '1', '-e', '1')
        for value in ('x|', '|x', '|', 'x||y', '', '|http://h'):
            expect_refused('word 2: Empty', '-s', value)
        for value in ('x|https://h', 'http://h/?q|x', 'x|http://u@h/|y', '://|x'):
            expect_refused('word 2: BadLocation', '-s', value)
        expect_refused('word 2: TooMany', '-s', parts(17))
        expect_refused('word 2: TooMany', '-s', parts(40))
        expect_refused('word 6: TooMany', *stored(parts(8), parts(8), parts(1)))
        expect_refused('word 4: TooMany', *stored(parts(8), parts(9)))
        # The number of parts is judged first.
        expect_refused('word 2: TooMany', '-s', parts(16) + '|')
        expect_refused('word 4: TooMany', '-s', 'x|y', '-s', '|' * 14)
        expect_refused('word 2: Empty', '-s', '|' * 15)
    listen = ['-l', 'localhost:8080']
    for command, rest in {'make': ['a.caibx', 'b'], 'chop': ['a.caibx', 'b'], 'verify': [], 'index-server': listen,
                          'prune': ['-y', 'a.caibx']}.items():
        with cases.case(f'{command} takes no group') as folder:
            for value in ('x|y', 'x|', '|', 'http://h/|'):
                expect_ended(program.run([command, '-s', value, *rest], folder), 'word 2: BadLocation')
            expect_ended(program.run([command, '-s', 'x', '-e', '1', *rest], folder), 'word 3: UnknownOption')


# The examples of "abc" in folders

def examples(cases, shim):
    """The index of "abc", and the folders `x` and `y`, which hold the chunk, lack it or can't be read."""
    abc = formats.digest_of(b'abc')

    def lay(folder, **kinds):
        put_file(os.path.join(folder, 'a.caibx'), formats.ABC_INDEX)
        for store, kind in kinds.items():
            os.mkdir(os.path.join(folder, store))
            path = formats.chunk_path(os.path.join(folder, store), abc)
            if kind == 'holds':
                put_file(path, b'abc')
            elif kind == 'fails':
                os.makedirs(path)

    missing = formats.refusal(0, abc, 'missing', 0)
    for count in CREWS:
        for given, kinds, text in ((['-s', 'x|y'], ('fails', 'holds'), ''), (['-s', 'x|y'], ('fails', 'fails'), FAILED),
                                   (['-s', 'x|y'], ('lacks', 'holds'), missing),
                                   (['-s', 'x', '-s', 'y'], ('lacks', 'holds'), ''),
                                   (['-s', 'x|'], ('holds', 'holds'), 'word 5: Empty')):
            with cases.case(f'{given} where x {kinds[0]} and y {kinds[1]}, -n {count}') as folder:
                lay(folder, x=kinds[0], y=kinds[1])
                ended = program.run(['extract', '-k', '-n', str(count), *given, 'a.caibx', 'o'], folder)
                expect_ended(ended, text)
                wanted = b'abc' if text == '' else None if 'Empty' in text else bytes(3)
                expect_equal(file_bytes(os.path.join(folder, 'o')), wanted, 'o')
        for given in (['-e', '1'], []):
            with cases.case(f'x holds "abc" and fails its first call, {given}, -n {count}') as folder:
                words = ['extract', '-k', '-n', str(count), *given, '-s', 'x', 'a.caibx', 'o']
                fails_first(folder, words, shim(), lay)


def fails_first(folder, given, shim, lay):
    """Runs the words where the first opening of the chunk's file in `x` fails."""
    for at in range(200):
        place = os.path.join(folder, str(at))
        os.mkdir(place)
        lay(place, x='holds')
        told = os.path.join(place, 'told')
        ended = program.run(given, place, shim.environment('open', at, errno.EIO, False, told))
        paths = (file_bytes(told) or b'').decode().splitlines()
        expect(paths, 'no call about the chunk has failed')
        if formats.path_in_store(formats.digest_of(b'abc')) in paths[0]:
            expect_ended(ended)
            expect_equal(file_bytes(os.path.join(place, 'o')), b'abc', 'o')
            return
    raise AssertionError('the chunk isn\'t opened')


def main():
    needs_program('groups')
    cases = Cases('groups')
    for count in CREWS:
        for part in (one_ends, both_end, nobody_listens, each_second_fails, busy, folder_and_url, full_disks):
            part(cases, count)
    for part in (back_again, answers_and_numbers, counted, scenes, words):
        part(cases)
    examples(cases, workers.compiled(cases.top))
    return cases.end()


if __name__ == '__main__':
    sys.exit(main())
