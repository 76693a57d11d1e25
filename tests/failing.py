#!/usr/bin/env python3
"""Commands over real files and connections of which one call fails, or which get no memory.

    tests/failing.py          each call of a run fails once, the errors in turn
    tests/failing.py --all    each call fails with each error, and `make` and `extract` are tried in ten times as many
                              address spaces

tests/failing_calls.c is compiled with `cc` and stands before the C library, so a call that the program makes is refused
before the system sees it. The first call fails in one run, the second in the next, until a run has no failure. A run is
done, or ends with the line of the file that the call was about; no other file is lost, and a second run ends as if
nothing had happened. A call that a signal interrupts is made again. A run that gets no memory is done or says so; with
several workers `make` and `extract` are done where they are with one.
"""

import contextlib
import errno
import os
import random
import resource
import shutil
import signal
import subprocess
import sys
import time

import formats
import program
import servers
from checks import Cases, Skip, expect, expect_ended, expect_equal, file_bytes, files_of, needs_program, put_file
from replies import Wanted, path_of, put, request, to_the_end
from servers import ChunkServer, IndexServer

SOURCE = os.path.join(program.TOP, 'tests', 'failing_calls.c')
# The errors of each call, in turn. With 0 the call does nothing and answers 0: a file ends early, or takes nothing.
HARD = {
    'open': (errno.EIO, errno.EMFILE, errno.ENOSPC), 'stat': (errno.EIO, errno.EACCES), 'list': (errno.EIO,),
    'pread': (errno.EIO, 0), 'pwrite': (errno.ENOSPC, errno.EIO, 0), 'write': (errno.ENOSPC, errno.EIO, errno.EPIPE, 0),
    'rename': (errno.ENOSPC, errno.EIO), 'truncate': (errno.ENOSPC, errno.EIO), 'mkdir': (errno.ENOSPC, errno.EIO),
    'unlink': (errno.EIO,), 'mode': (errno.EIO,), 'socket': (errno.EMFILE,), 'connect': (errno.ECONNRESET, errno.EIO),
    'poll': (errno.ENOMEM,),
    'send': (errno.ECONNRESET, errno.EIO, 0), 'recv': (errno.ECONNRESET, errno.EIO),
}
# The calls that a signal may interrupt; one that connects doesn't wait.
INTERRUPTED = ('open', 'pread', 'pwrite', 'write', 'truncate', 'poll', 'send', 'recv')
NETWORK = ('socket', 'connect', 'poll', 'send', 'recv')
# No run makes this many calls of one kind.
MOST = 2_000
NO_MEMORY = b'desync: no memory\n'


class Shim:
    """The library that makes calls fail, compiled."""

    def __init__(self, folder):
        self.path = os.path.join(folder, 'failing_calls.so')
        words = ['cc', '-O1', '-shared', '-fPIC', '-o', self.path, SOURCE, '-ldl']
        if shutil.which('cc') is None:
            raise Skip('cc isn\'t installed')
        built = subprocess.run(words, stdout=subprocess.PIPE, stderr=subprocess.STDOUT)
        if built.returncode != 0:
            raise Skip(f'cc can\'t compile {SOURCE}: {built.stdout.decode()}')
        told = os.path.join(folder, 'told')
        program.run(['list-chunks', 'a.caibx'], folder, self.environment('stat', 0, errno.EIO, False, told))
        if not file_bytes(told):
            raise Skip('the program makes no call of the C library that is seen here')

    def environment(self, call, at, error, more, told, **only):
        """What the shim is told; `only` may name the `byte` or the `thread` of the calls that count."""
        given = {'LD_PRELOAD': self.path, 'FAIL_CALL': call, 'FAIL_AT': str(at), 'FAIL_ERROR': str(error),
                 'FAIL_TOLD': told, **({'FAIL_MORE': '1'} if more else {})}
        return {**os.environ, **given, **{f'FAIL_{name.upper()}': str(number) for name, number in only.items()}}

    def run(self, scene, call, at, error, more=False):
        """How a run ended, and the paths that its failed calls were about."""
        told = os.path.join(scene.top, 'told')
        with contextlib.suppress(FileNotFoundError):
            os.remove(told)
        ended = program.run(scene.words, scene.folder, self.environment(call, at, error, more, told))
        lines = (file_bytes(told) or b'').decode().splitlines()
        return ended, [os.path.relpath(os.path.join(scene.folder, path), scene.folder) for path in lines]


# Layouts

CHANCE = random.Random(37)
PIECES = [CHANCE.randbytes(size) for size in (300, 1, 700)]
IMAGE = [*PIECES, PIECES[0]]
OLD = PIECES[0] + b'x' * 500
CUT = CHANCE.randbytes(9_000)


def lay_out(folder):
    """An index of four entries, two of which are alike; stores, caches and seeds that have a part of the chunks."""
    def path(name):
        return os.path.join(folder, name)

    index = formats.index_of_pieces(IMAGE)
    formats.write_index(path('a.caibx'), index)
    formats.write_chunks(path('st'), index, b''.join(IMAGE))
    put_file(path('image'), b''.join(IMAGE))
    put_file(path('cut'), CUT)
    put_file(path('o'), OLD)
    put_file(path('new.caibx'), b'an older index')
    formats.write_index(path('s.caibx'), formats.index_of_pieces(PIECES))
    put_file(path('s'), b'x' + b''.join(PIECES)[1:])
    os.mkdir(path('to'))
    formats.write_chunk(path('to'), formats.digest_of(PIECES[1]), b'wrong')
    formats.write_chunk(path('near'), formats.digest_of(PIECES[2]), b'wrong')
    for name, held in ((b'one', b'one'), (b'two', b'other'), (b'three', b'')):
        formats.write_chunk(path('full'), formats.digest_of(name), held)
    formats.write_chunk(path('full'), formats.digest_of(PIECES[0]), PIECES[0])
    put_file(path('full/notes.txt'), b'notes')
    put_file(path('full/.tmp-cacnkx'), b'left')


def is_right_chunk(path, data):
    return path.count(os.sep) == 2 and os.path.basename(path) == formats.digest_of(data).hex()


class Scene:
    """A command in a folder. `changes` says which files of the folder it may change, as a function of the path and the
    bytes that are new there, or None where the file has gone."""

    def __init__(self, top, words, changes, done_but=()):
        self.top = top
        self.words = words
        self.changes = changes
        self.done_but = done_but
        self.folder = os.path.join(top, 'at')
        self.anew()
        self.before = files_of(self.folder)
        ended = program.run(words, self.folder)
        expect_equal((ended.status, ended.err), (0, b''), 'how the command ends')
        self.out = ended.out
        self.after = files_of(self.folder)

    def anew(self):
        shutil.rmtree(self.folder, ignore_errors=True)
        os.mkdir(self.folder)
        lay_out(self.folder)

    def judge(self, call, ended, paths):
        """What the run has left is what one failed call excuses, and a second run is done."""
        self.judge_end(ended, paths)
        now = files_of(self.folder)
        if ended.status == 0:
            for path in {*now, *self.after}:
                if path not in self.excused(paths) and now.get(path) != self.after.get(path):
                    expect(False, f'the run is done, and {path} is another')
        self.judge_left(call)

    def judge_left(self, call):
        """The files are as before, but for what the command may change; and a second run is done."""
        now = files_of(self.folder)
        for path in {*now, *self.before}:
            data = now.get(path)
            if data == self.before.get(path):
                continue
            if call == 'unlink' and os.path.basename(path).startswith('.tmp-') or path.endswith('.tmp-desync'):
                expect(call == 'unlink', f'{path} is left')
                continue
            expect(self.changes(path, data), f'{path} is changed')
        again = program.run(self.words, self.folder)
        expect_equal((again.status, again.err), (0, b''), 'how the second run ends')
        now = files_of(self.folder)
        for path in {*now, *self.after}:
            temporary = os.path.basename(path).startswith('.tmp-') and call == 'unlink'
            expect(temporary or now.get(path) == self.after.get(path), f'{path} is another after the second run')

    def judge_whole(self, ended):
        """The run is done, as if nothing had failed."""
        expect_equal((ended.status, ended.err, ended.out), (0, b'', self.out), 'how it ends')
        expect(files_of(self.folder) == self.after, 'the files are others')

    def judge_memory(self, ended):
        """The run is done or tells that there is no memory, and a second run is done."""
        if ended.status == 0:
            self.judge('memory', ended, [next(iter(self.done_but), 'memory')])
        else:
            expect_equal(ended.status, 1, 'the status')
            expect(ended.err in (b'', NO_MEMORY), f'the error line is {ended.err}')
            if ended.err == b'':
                expect(files_of(self.folder) == self.before, 'the files are others, and nothing is told')
            self.judge_left('memory')

    def excused(self, paths):
        """What may differ after a run that is done: files in a cache that has failed."""
        if any(path.split(os.sep)[0] in self.done_but for path in paths):
            return [path for path in {**self.before, **self.after} if path.split(os.sep)[0] in self.done_but]
        return []

    def judge_end(self, ended, paths):
        err = ended.err.decode()
        if ended.status == 0:
            expect_equal(err, '', 'standard error')
            expect_equal(ended.out, self.out, 'standard output')
            return
        expect_equal(ended.status, 1, f'the status ({err!r})')
        if any('pipe:' in path for path in paths) and err == '':
            return
        wanted = [f'desync: {text}\n' for path in paths for text in self.texts(path)]
        expect(err in wanted, f'the error line is {err!r}, and none of {wanted}')

    def texts(self, path):
        """The lines that say that a call on the path has failed."""
        first, *rest = path.split(os.sep)
        if 'pipe:' in path:
            return ['the output failed']
        if path in ('socket', 'thread'):
            return ['store 0 failed']
        if path.startswith('..'):
            return [f'{word}: failed' for word in self.words] + ['store 0 failed', 'the image failed']
        if first in ('st', 'to', 'full'):
            return ['store 0 failed'] if rest else ['store 0 failed', f'{first}: failed']
        if first == 'near':
            return ['the cache failed'] if rest else ['the cache failed', 'near: failed']
        if first in ('image', 'cut'):
            return ['the image failed']
        if first in ('o', 'o.tmp-desync'):
            return ['the target failed', 'o: failed']
        if first == '.tmp-desync':
            return ['new.caibx: failed']
        return [f'{first}: failed']


def in_place(path, data):
    """OUT has the image's length, and each entry is right or what the base has; or it is as it was."""
    if path != 'o' or data is None:
        return False
    start, base = 0, formats.resized(OLD, len(b''.join(IMAGE)))
    for piece in IMAGE:
        end = start + len(piece)
        if data[start:end] not in (piece, base[start:end]):
            return False
        start = end
    return len(data) == start


def replaced(path, data):
    return path == 'o' and data == b''.join(IMAGE)


def fills(folder):
    return lambda path, data: path.split(os.sep)[0] == folder and data is not None and is_right_chunk(path, data)


VICTIMS = [os.path.join('full', formats.path_in_store(formats.digest_of(name))) for name in (b'one', b'two', b'three')]
DAMAGED = VICTIMS[1:]


def made(path, data):
    index = formats.spell_index(formats.index_of(CUT, (1024, 2048, 4096)))
    return path == 'new.caibx' and data == index or fills('to')(path, data)


def no_change(path, data):
    return False


EXTRACT = ['extract', '-s', 'st', 'a.caibx', 'o']
SCENES = {
    'extract': (EXTRACT, replaced),
    'extract -k': ([*EXTRACT, '-k'], in_place),
    'extract -c': ([*EXTRACT, '-c', 'near'], lambda path, data: replaced(path, data) or fills('near')(path, data)),
    'extract -k --seed': ([*EXTRACT, '-k', '--seed', 's.caibx'], in_place),
    'make -n 1': (['make', '-n', '1', '-m', '1:2:4', '-s', 'to', 'new.caibx', 'cut'], made),
    'make -n 3': (['make', '-n', '3', '-m', '1:2:4', '-s', 'to', 'new.caibx', 'cut'], made),
    'chop': (['chop', '-s', 'to', 'a.caibx', 'image'], fills('to')),
    'cache': (['cache', '-s', 'st', '-c', 'near', 'a.caibx'], fills('near')),
    'prune': (['prune', '-y', '-s', 'full', 'a.caibx'],
              lambda path, data: data is None and path in [*VICTIMS, 'full/.tmp-cacnkx']),
    'list-chunks': (['list-chunks', 'a.caibx'], no_change),
    'info': (['info', '-s', 'st', 'a.caibx'], no_change),
    'cat': (['cat', '-s', 'st', '-o', '5', 'a.caibx'], no_change),
    'verify-index': (['verify-index', 'a.caibx', 'image'], no_change),
    'demo': (['demo', '-n', '3', '7', '300000'], no_change),
    'help': (['prune', '--help'], no_change),
    'verify -r': (['verify', '-r', '-s', 'full'], lambda path, data: data is None and path in DAMAGED),
}


def scene_of(folder, what, words=None):
    default, changes = SCENES[what]
    return Scene(folder, words or default, changes, ['near'] if what == 'extract -c' else [])


# One failing call

def errors_of(call, at, each):
    hard = HARD[call]
    return hard if each else [hard[at % len(hard)]]


def one_call_fails(cases, shim, each, what, call):
    with cases.case(f'{what}: each {call} fails once') as folder:
        fail_each(shim, scene_of(folder, what), call, each)


def fail_each(shim, scene, call, each):
    """One call fails a run, the next in the next run, until a run meets no failure."""
    for at in range(MOST):
        for error in [*errors_of(call, at, each), *[errno.EINTR] * (call in INTERRUPTED)]:
            scene.anew()
            ended, paths = shim.run(scene, call, at, error)
            try:
                if error == errno.EINTR or not paths:
                    scene.judge_whole(ended)
                else:
                    scene.judge(call, ended, paths)
            except AssertionError as why:
                name = errno.errorcode.get(error, 'no error')
                raise AssertionError(f'{call} {at}, of {paths}, with {name}: {why}') from why
            if not paths:
                return
    raise AssertionError(f'each of {MOST} runs has failed')


def disk_is_full(cases, shim, what):
    """From one call on nothing more is written, and then there is room again."""
    for call in ('pwrite', 'mkdir', 'truncate', 'rename'):
        with cases.case(f'{what}: each {call} from one on finds no room') as folder:
            scene = scene_of(folder, what)
            for at in range(MOST):
                scene.anew()
                ended, paths = shim.run(scene, call, at, errno.ENOSPC, more=True)
                scene.judge(call, ended, paths)
                if not paths:
                    break


MANY_WORKERS = {
    'make -n 3': ['make', '-n', '10', '-m', '1:2:4', '-s', 'to', 'new.caibx', 'cut'],
    'extract': ['extract', '-n', '10', '-s', 'st', 'a.caibx', 'o'],
    'extract -k': ['extract', '-k', '-n', '10', '-s', 'st', 'a.caibx', 'o'],
    'demo': ['demo', '-n', '10', '7', '300000'],
}


def no_threads(cases, shim, what):
    """Where no thread, or only some can be started the work is done all the same. Else each further worker has one."""
    for more in (False, True):
        with cases.case(f'{what}: a thread can\'t be started{", nor later ones" * more}') as folder:
            scene = scene_of(folder, what, MANY_WORKERS[what])
            for at in range(MOST):
                scene.anew()
                ended, paths = shim.run(scene, 'thread', at, errno.EAGAIN, more)
                scene.judge_whole(ended)
                if not paths:
                    break
            expect(9 <= at, f'{at} threads are started for ten workers')


# Servers

class FromServer(Scene):
    """A command that reads from, or writes to `desync chunk-server` over the store `served`."""

    def __init__(self, top, words, changes):
        self.served = os.path.join(top, 'served')
        super().__init__(top, words, changes)
        self.held = files_of(self.served)

    def anew(self):
        super().anew()
        for name in os.listdir(self.served):
            shutil.rmtree(os.path.join(self.served, name))
        if self.words[0] not in ('chop', 'make'):
            formats.write_chunks(self.served, formats.index_of_pieces(PIECES), b''.join(PIECES))

    def judge(self, call, ended, paths):
        super().judge(call, ended, paths)
        expect(files_of(self.served) == self.held, 'the server holds other files after the second run')


ASKING = {
    'extract': (['extract', 'a.caibx', 'o', '-s'], replaced),
    'extract -k': (['extract', '-k', 'a.caibx', 'o', '-s'], in_place),
    'cache': (['cache', '-c', 'near', 'a.caibx', '-s'], fills('near')),
    'make': (['make', '-n', '3', '-m', '1:2:4', 'new.caibx', 'cut', '-s'], made),
    'chop': (['chop', 'a.caibx', 'image', '-s'], no_change),
}


def server_is_asked(cases, shim, each, what, call):
    words, changes = ASKING[what]
    with cases.case(f'{what} with a server: each {call} fails once') as folder:
        os.mkdir(os.path.join(folder, 'served'))
        with ChunkServer(folder, '-w', store='served') as server:
            scene = FromServer(folder, [*words, server.url()], changes)
            fail_each(shim, scene, call, each)


ASKING_AGAIN = {
    'cache': (['cache', '-e', '1', '-c', 'near', 'a.caibx', '-s'], fills('near')),
    'cat': (['cat', '-e', '1', '-o', '5', 'a.caibx', '-s'], no_change),
    'info': (['info', '-e', '1', 'a.caibx', '-s'], no_change),
}


def server_is_asked_again(cases, shim, each, what, call):
    """These end at the first chunk that isn't had. With `-e 1` one failed call is no reason to."""
    words, changes = ASKING_AGAIN[what]
    with cases.case(f'{what} -e 1 with a server: each {call} fails once, and nothing is lost') as folder:
        os.mkdir(os.path.join(folder, 'served'))
        with ChunkServer(folder, store='served') as server:
            scene = FromServer(folder, [*words, server.url()], changes)
            for at in range(MOST):
                for error in errors_of(call, at, each):
                    scene.anew()
                    ended, paths = shim.run(scene, call, at, error)
                    scene.judge_whole(ended)
                if not paths:
                    break
            expect(at > 0, f'no {call} has failed')


ABC = b'abc'


class Service:
    """A server over the folder `st`, which holds one file, and what it is asked, with the replies. `is_right` says of a
    path and its bytes whether they may stand there."""

    def __init__(self, kind, held, asked, is_right):
        self.kind = kind
        self.held = held
        self.asked = asked
        self.is_right = is_right
        self.whole = b''.join(wanted.bytes for _, wanted in asked)

    def lay_out(self, folder):
        store = os.path.join(folder, 'st')
        shutil.rmtree(store, ignore_errors=True)
        path, data = self.held
        put_file(os.path.join(store, path), data)

    def talk(self, server):
        """What the server says to the requests, however the connection ends."""
        got = b''
        with contextlib.suppress(OSError), server.connect() as peer:
            for sent, _ in self.asked:
                peer.sendall(sent)
                got += peer.recv(65536)
            peer.shutdown(1)
            got += to_the_end(peer)
        return got

    def could_say(self, got):
        """Whether these bytes are a front of the replies, each of which may be 500 instead, too."""
        fronts = {b''}
        for _, wanted in self.asked:
            fronts = {front + said for front in fronts for said in (wanted.bytes, Wanted(500).bytes)}
        return any(front.startswith(got) for front in fronts)

    def judge_store(self, folder, what):
        for path, data in files_of(os.path.join(folder, 'st')).items():
            expect(self.is_right(path, data), f'{what}: the store has {path}')


def is_chunk(path, data):
    return os.path.basename(path) == formats.digest_of(data).hex()


NEW_INDEX = formats.spell_index(formats.index_of_pieces([b'new', ABC]))


def is_index(path, data):
    return (path, data) in [('a.caibx', formats.ABC_INDEX), ('new.caibx', NEW_INDEX)]


CHUNKS = Service(
    ChunkServer, (formats.path_in_store(formats.digest_of(ABC)), ABC),
    [(put(path_of(b'new'), b'new'), Wanted(200)), (request('GET', path_of(ABC)), Wanted(200, ABC)),
     (request('HEAD', path_of(ABC)), Wanted(200, length=3)), (request('GET', path_of(b'none')), Wanted(404))],
    is_chunk)
INDEXES = Service(
    IndexServer, ('a.caibx', formats.ABC_INDEX),
    [(put('/new.caibx', NEW_INDEX), Wanted(200)), (request('GET', '/a.caibx'), Wanted(200, formats.ABC_INDEX)),
     (request('HEAD', '/a.caibx'), Wanted(200, length=len(formats.ABC_INDEX))),
     (request('GET', '/none.caibx'), Wanted(404))],
    is_index)
# Each service with its further words.
SERVICES = [(CHUNKS, ['-n', '1']), (CHUNKS, ['-n', '8']), (INDEXES, [])]

SERVING = ('recv', 'send', 'pread', 'pwrite', 'open', 'stat', 'mkdir', 'rename', 'thread')


def server_fails(cases, shim, service, words, call):
    what = ' '.join([service.kind.command, *words])
    with cases.case(f'{what}: each {call} fails once, and the next peer is served') as folder:
        # The first look is at the folder itself, before it is served.
        for at in range(1 if call == 'stat' else 0, 12):
            if not served(folder, shim, service, words, call, at):
                break


def served(folder, shim, service, words, call, at):
    """Whether the call has failed. However that is, the next peer is served, and what stands in the store is right."""
    told = os.path.join(folder, 'told')
    service.lay_out(folder)
    put_file(told, b'')
    error = errno.EAGAIN if call == 'thread' else HARD[call][at % len(HARD[call])]
    environment = shim.environment(call, at, error, False, told)
    with service.kind(folder, '-w', *words, environment=environment) as server:
        got = service.talk(server)
        expect(service.could_say(got), f'{call} {at}: the replies are {got}')
        while call != 'thread' and file_bytes(told) and got != service.whole:
            got = service.talk(server)
            expect_equal(got, service.whole, f'{call} {at}: the next replies')
    service.judge_store(folder, f'{call} {at}')
    return file_bytes(told)


def server_without_memory(cases, shim, service, words, turn):
    """A server that gets no memory once answers rightly as far as it does; it ends and says why, or serves on."""
    what = ' '.join([service.kind.command, *words])
    with cases.case(f'{what}: memory is refused each time once, turn {turn} of {TURNS}') as folder:
        for at in range(turn, MOST, TURNS):
            if not served_without_memory(folder, shim, service, words, at):
                break


def served_without_memory(folder, shim, service, words, at):
    told, port = os.path.join(folder, 'told'), servers.free_port()
    service.lay_out(folder)
    put_file(told, b'')
    server = service.kind(folder, '-w', *words, port=port)
    process = program.start(server.words, folder, shim.environment('memory', at, errno.ENOMEM, False, told))
    try:
        got = first_said(service, server, process)
        expect(service.whole.startswith(got), f'{at}: the replies are {got}')
        for _ in range(2):
            service.talk(server)
    finally:
        has_ended = process.poll() is not None
        process.terminate()
        ended = program.ended(process)
    if has_ended:
        expect_equal(ended.status, 1, f'{at}: the status')
        expect(ended.err in (b'', NO_MEMORY), f'{at}: the error line is {ended.err}')
    service.judge_store(folder, at)
    return file_bytes(told)


def first_said(service, server, process):
    """What is said to the first peer; nothing, if the process has ended before."""
    for _ in range(20 * servers.SECONDS):
        got = service.talk(server)
        if got or process.poll() is not None:
            return got
        time.sleep(0.01)
    return b''


def accepting_fails(cases, shim):
    for error in (errno.EINTR, errno.ECONNABORTED, errno.ECONNRESET, errno.EMFILE, errno.ENFILE, errno.ENOBUFS,
                  errno.ENOMEM):
        with cases.case(f'chunk-server goes on where accepting fails with {errno.errorcode[error]}') as top:
            os.mkdir(os.path.join(top, 'st'))
            environment = shim.environment('accept', 0, error, False, os.path.join(top, 'told'))
            with ChunkServer(top, environment=environment) as server:
                got = CHUNKS.talk(server)
                expect(got.startswith(b'HTTP/1.1 405'), f'the reply is {got}')
            expect(file_bytes(os.path.join(top, 'told')), 'no call has failed')
    for workers in ('1', '8'):
        with cases.case(f'chunk-server -n {workers} ends where no connection can be taken') as top:
            os.mkdir(os.path.join(top, 'st'))
            told = os.path.join(top, 'told')
            words = ['chunk-server', '-s', 'st', '-n', workers, '-l', f'127.0.0.1:{servers.free_port()}']
            ended = program.run(words, top, shim.environment('accept', 0, errno.EINVAL, False, told))
            expect_ended(ended, 'the listener failed')


# Real signals

def stopped_and_continued(process, seconds=0.02):
    """Stops the process and lets it go on, again and again, until it has ended."""
    while process.poll() is None:
        for number in (signal.SIGSTOP, signal.SIGCONT):
            with contextlib.suppress(ProcessLookupError):
                process.send_signal(number)
            time.sleep(seconds)
    return program.ended(process)


def is_stopped(cases):
    """The system ends a call that waits at a socket with EINTR where the process is stopped and goes on."""
    def drip(peer, *_):
        sent = servers.reply(200, ABC)
        for at in range(0, len(sent), 2):
            peer.sendall(sent[at:at + 2])
            time.sleep(0.03)
    for what, words in (('extract', ['extract', '-s', None, 'b.caibx', 'p']),
                        ('cache', ['cache', '-c', '.', '-s', None, 'b.caibx'])):
        with cases.case(f'{what} is stopped and goes on while a reply comes slowly') as folder:
            formats.write_index(os.path.join(folder, 'b.caibx'), formats.index_of_pieces([ABC]))
            with servers.Server(drip) as server:
                words = [word or server.url() for word in words]
                expect_ended(stopped_and_continued(program.start(words, folder)))
                expect_equal(len(server.asked), 1, 'how often the server was asked')
    for workers in ('1', '8'):
        with cases.case(f'chunk-server -n {workers} is stopped and goes on while a request comes slowly') as folder:
            formats.write_chunk(os.path.join(folder, 'st'), formats.digest_of(ABC), ABC)
            with ChunkServer(folder, '-w', '-n', workers) as server:
                for sent, wanted in CHUNKS.asked:
                    expect_equal(said_while_stopped(server, sent), wanted.bytes, 'the reply')


def said_while_stopped(server, sent):
    with server.connect() as peer:
        for at in range(0, len(sent), len(sent) // 8):
            for number in (signal.SIGSTOP, signal.SIGCONT):
                server.process.send_signal(number)
                time.sleep(0.01)
            peer.sendall(sent[at:at + len(sent) // 8])
        peer.shutdown(1)
        return to_the_end(peer)


# Want of memory

def refused_memory(cases, shim, what, more):
    """Each time that memory is taken it is refused once; and from every third time on."""
    with cases.case(f'{what}: memory is refused {"from a time on" if more else "each time once"}') as folder:
        scene = scene_of(folder, what)
        for at in range(0, MOST, 3 if more else 1):
            scene.anew()
            ended, paths = shim.run(scene, 'memory', at, errno.ENOMEM, more)
            try:
                scene.judge_memory(ended)
            except AssertionError as why:
                raise AssertionError(f'{at}: {why}') from why
            if not paths:
                break


def least_space(folder):
    """The least address space, in MiB, in which the program can print its version."""
    for space in range(1, 200):
        if run_in(space << 20, ['--version'], folder).status == 0:
            return space
    raise Skip('the program doesn\'t start in 200 MiB of address space')


def run_in(space, words, folder):
    """Runs the program with a bound on its address space, in bytes."""
    def lower():
        resource.setrlimit(resource.RLIMIT_AS, (space, space))
    return program.run(words, folder, lower=lower)


IN_LITTLE_SPACE = {
    'make -n 1': None, 'make -n 3': ['make', '-n', '10', *SCENES['make -n 3'][0][3:]], 'extract': None,
    'extract -k': None, 'chop': None, 'cache': None, 'prune': None,
}


def little_space(cases, what):
    with cases.case(f'{what} in little address space') as folder:
        scene = scene_of(folder, what, IN_LITTLE_SPACE[what])
        least = least_space(folder)
        for space in range(least, least + 24):
            scene.anew()
            ended = run_in(space << 20, scene.words, scene.folder)
            try:
                scene.judge_memory(ended)
            except AssertionError as why:
                raise AssertionError(f'in {space} MiB: {why}') from why


# From how many KiB of address space on the commands are done with any number of workers, and up to how many they are
# tried. A thread takes 8 MiB of it, so there is room for no thread, for one, and so on.
AMPLE = 5_000
MOST_SPACE = 100_000


class SmallRuns:
    """A command over an image, with some number of workers, in little address space. What is there afterwards is
    compared."""

    def __init__(self, folder, what):
        self.folder = folder
        self.what = what
        self.image = random.Random(5).randbytes(2 << 20)
        seed = self.image[:1 << 20]
        index = formats.index_of(self.image)
        put_file(os.path.join(folder, 'image'), self.image)
        put_file(os.path.join(folder, 's'), seed)
        formats.write_index(os.path.join(folder, 's.caibx'), formats.index_of(seed))
        formats.write_index(os.path.join(folder, 'a.caibx'), index)
        formats.write_chunks(os.path.join(folder, 'st'), index, self.image)
        chunks = files_of(os.path.join(folder, 'st'))
        self.words, self.wanted = {
            'make': (['-s', 'to/st', 'to/a.caibx', 'image'], ['a.caibx']),
            'extract': (['-s', 'st', '--seed', 's.caibx', 'a.caibx', 'to/o'], ['o']),
            'chop': (['-s', 'to/st', 'a.caibx', 'image'], []),
        }[what]
        self.wanted = {name: {'a.caibx': formats.spell_index(index), 'o': self.image}[name] for name in self.wanted}
        if what != 'extract':
            self.wanted |= {os.path.join('st', path): data for path, data in chunks.items()}

    def run(self, count, space):
        shutil.rmtree(os.path.join(self.folder, 'to'), ignore_errors=True)
        os.makedirs(os.path.join(self.folder, 'to', 'st'))
        return run_in(space << 10, [self.what, '-n', str(count), *self.words], self.folder)

    def is_done(self, count, space):
        ended = self.run(count, space)
        expect_equal((ended.status, ended.err), (0, b''), f'how -n {count} ends in {space} KiB')
        expect(files_of(os.path.join(self.folder, 'to')) == self.wanted, f'-n {count} leaves others in {space} KiB')


def workers_in_little_space(cases, each, what, own, turn):
    """Where one worker is done, several are in as much address space, and `own` KiB that they may lack; and from 5 MB
    on each run ends as with ample memory."""
    step = 25 if each else 250
    with cases.case(f'{what} with 1 to 32 workers in little address space, turn {turn} of {TURNS}') as folder:
        runs = SmallRuns(folder, what)
        least = next((space for space in range(1_000, AMPLE, 250) if runs.run(1, space).status == 0), AMPLE)
        for space in range(min(least + own, AMPLE) + turn * step, MOST_SPACE, TURNS * step):
            for count in (1, 2, 10, 32):
                runs.is_done(count, space)


# In so many processes what takes long goes on side by side.
TURNS = 4


def parts(shim, each):
    """What goes on side by side; those that take longest come first. Without the shim, those that need none."""
    small = [(workers_in_little_space, each, what, own, turn)
             for what, own in (('make', 512), ('extract', 0), ('chop', 512)) for turn in range(TURNS)]
    small += [(little_space, what) for what in IN_LITTLE_SPACE] + [(is_stopped,)]
    if shim is None:
        return small
    of_files = [call for call in HARD if call not in NETWORK]
    return [
        *((server_without_memory, shim, *service, turn) for service in SERVICES for turn in range(TURNS)),
        *((refused_memory, shim, what, more) for what in SCENES for more in (False, True)),
        *((server_is_asked, shim, each, what, call) for what in ASKING for call in NETWORK),
        *((server_is_asked_again, shim, each, what, call) for what in ASKING_AGAIN for call in NETWORK),
        *((server_fails, shim, *service, call) for service in SERVICES for call in SERVING),
        *small,
        *((one_call_fails, shim, each, what, call) for what in SCENES for call in of_files),
        *((disk_is_full, shim, what) for what in ('extract', 'extract -k', 'extract -c', 'make -n 1', 'chop', 'cache')),
        *((no_threads, shim, what) for what in MANY_WORKERS),
        (accepting_fails, shim),
    ]


def main():
    needs_program('failing')
    cases = Cases('failing')
    try:
        shim = Shim(cases.top)
    except Skip as why:
        cases.skip('all cases but those of little address space and of signals', why)
        shim = None
    cases.side_by_side(parts(shim, sys.argv[1:] == ['--all']))
    return cases.end()


if __name__ == '__main__':
    sys.exit(main())
