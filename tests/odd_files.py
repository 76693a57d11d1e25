#!/usr/bin/env python3
"""Stores and outputs in which stands what is no plain file: links, pipes, devices, folders and odd names.

Links are followed, and what is neither a file nor a folder is a failure, or is left alone where a folder is listed.
What is replaced or removed is the link and not what it leads to.
"""

import contextlib
import os
import socket
import stat
import sys
import tempfile

import formats
import program
import servers
from checks import (Cases, Skip, expect, expect_ended, expect_equal, expect_untouched, file_bytes, files_of,
                    needs_program, put_file, snapshot)
from formats import ABC_INDEX, EMPTY_INDEX
from replies import ABC, PATH, Wanted, put, refused, request, said_to
from servers import ChunkServer, IndexServer

CHUNK = 'st' + PATH
DIGITS = os.path.basename(PATH)
TEMPORARY = os.path.join(os.path.dirname(CHUNK), formats.TEMPORARY + DIGITS)
FAILED = 'store 0 failed'
MISSING = formats.refusal(0, formats.digest_of(ABC), 'missing')
DAMAGED = formats.refusal(0, formats.digest_of(ABC), 'damaged', 0)


class Place:
    """A folder with the index and the image of "abc", an index that lists nothing, and the empty store `st`."""

    def __init__(self, folder):
        self.folder = folder
        put_file(self.path('a.caibx'), ABC_INDEX)
        put_file(self.path('none.caibx'), EMPTY_INDEX)
        put_file(self.path('img'), ABC)
        put_file(self.path('precious'), b'precious')
        os.makedirs(os.path.dirname(self.path(CHUNK)))

    def path(self, name):
        return os.path.join(self.folder, name)

    def bytes(self, name):
        return file_bytes(self.path(name))

    def link(self, to, name):
        os.makedirs(os.path.dirname(self.path(name)), exist_ok=True)
        os.symlink(to, self.path(name))

    def ends(self, words, text='', out=''):
        expect_ended(program.run(words.split(), self.folder), text, out, words)

    def leaves(self, words, text='', out='', but=()):
        """The command ends so, and changes nothing but these. A temporary file of `extract` may come and go."""
        before = snapshot(self.folder)
        self.ends(words, text, out)
        expect_untouched(before, snapshot(self.folder), [*but, *['.'] * words.startswith('extract')])


# What stands at a chunk's path

def bind(path):
    """A socket of the file system at the path, which is too long for its address."""
    folder = os.open(os.path.dirname(path), os.O_RDONLY)
    with contextlib.closing(socket.socket(socket.AF_UNIX)) as unix:
        unix.bind(f'/proc/self/fd/{folder}/{os.path.basename(path)}')
    os.close(folder)


def make_folder_with_file(path):
    put_file(os.path.join(path, 'file'), b'')


def make_device(path):
    """What /dev/zero is, at the path."""
    os.mknod(path, stat.S_IFCHR | 0o666, os.makedev(1, 5))


def can_make_devices():
    with tempfile.TemporaryDirectory(prefix='desync-tests-') as folder, contextlib.suppress(PermissionError):
        make_device(os.path.join(folder, 'device'))
        return True
    return False


# What extract, info and chop say, and verify.
AT_A_CHUNK = {
    'a pipe': (os.mkfifo, FAILED, FAILED, FAILED, ''),
    'a socket': (bind, FAILED, FAILED, FAILED, ''),
    'a folder': (os.mkdir, FAILED, FAILED, FAILED, ''),
    'a folder with a file': (make_folder_with_file, FAILED, FAILED, FAILED, ''),
    'a link to a device': (lambda path: os.symlink('/dev/zero', path), FAILED, FAILED, FAILED, ''),
    'a link to a folder': (lambda path: os.symlink('..', path), FAILED, FAILED, FAILED, ''),
    'a link to itself': (lambda path: os.symlink(DIGITS, path), FAILED, FAILED, FAILED, FAILED),
    'a link to nothing': (lambda path: os.symlink('nothing', path), MISSING, 0, '', ''),
    'a link to the chunk': (lambda path: os.symlink('../../img', path), '', 1, '', ''),
    'a link to other bytes': (lambda path: os.symlink('../../precious', path), DAMAGED, 1, '', 'damaged'),
}


def at_a_chunk(cases):
    for what, (make, extract, info, chop, verify) in AT_A_CHUNK.items():
        with cases.case(f'at the path of a chunk stands {what}') as folder:
            place = Place(folder)
            make(place.path(CHUNK))
            figures = '' if info == FAILED else formats.figures(formats.read_index(ABC_INDEX), info)
            place.leaves('info -s st a.caibx', FAILED if info == FAILED else '', figures)
            place.leaves('extract -s st a.caibx o', extract, but=['o'] * (extract == ''))
            is_damaged = verify == 'damaged'
            place.leaves('verify -s st', 'damaged chunks left: 1' if is_damaged else verify,
                         f'damaged {DIGITS}\n' if is_damaged else '')
            if chop == '':
                place.leaves('chop -s st a.caibx img', but=[CHUNK])
                expect_equal(place.bytes(CHUNK), ABC, 'the chunk')
                expect_equal(place.bytes('precious'), b'precious', 'what a link had led to')
            else:
                place.leaves('chop -s st a.caibx img', chop)
        with cases.case(f'at the path of a chunk stands {what}, and its server is asked') as folder:
            place = Place(folder)
            make(place.path(CHUNK))
            before = snapshot(folder)
            wanted = {'': Wanted(200, ABC), MISSING: Wanted(404), DAMAGED: Wanted(404)}.get(extract, Wanted(500))
            with ChunkServer(folder) as server:
                expect_equal(said_to(server, request('GET', PATH)), wanted.bytes, 'the reply')
            expect_untouched(before, snapshot(folder))


# What `index-server` replies to GET and to PUT where this stands at the path of an index.
AT_AN_INDEX = {
    'a pipe': (os.mkfifo, 500, 200),
    'a socket': (bind, 500, 200),
    'a folder': (os.mkdir, 500, 500),
    'a folder with a file': (make_folder_with_file, 500, 500),
    'a link to a device': (lambda path: os.symlink('/dev/zero', path), 500, 200),
    'a link to a folder': (lambda path: os.symlink('..', path), 500, 200),
    'a link to itself': (lambda path: os.symlink('x.caibx', path), 500, 200),
    'a link to nothing': (lambda path: os.symlink('nothing', path), 404, 200),
    'a link to an index': (lambda path: os.symlink('../a.caibx', path), 200, 200),
    'a link to other bytes': (lambda path: os.symlink('../precious', path), 404, 200),
}


def at_an_index(cases):
    """A PUT takes the place of a link, and not of what it leads to; a folder alone stays."""
    for what, (make, got, taken) in AT_AN_INDEX.items():
        with cases.case(f'at the path of an index stands {what}') as folder:
            place = Place(folder)
            make(place.path('st/x.caibx'))
            before = snapshot(folder)
            with IndexServer(folder, '-w') as server:
                wanted = Wanted(200, ABC_INDEX) if got == 200 else Wanted(got)
                expect_equal(said_to(server, request('GET', '/x.caibx')), wanted.bytes, 'the reply')
                expect_equal(said_to(server, put('/x.caibx', b'no index')), Wanted(400).bytes, 'the reply')
                expect_untouched(before, snapshot(folder))
                expect_equal(said_to(server, put('/x.caibx', EMPTY_INDEX)), Wanted(taken).bytes, 'the reply to a PUT')
            expect_untouched(before, snapshot(folder), ['st', 'st/x.caibx'] if taken == 200 else ['st'])
            if taken == 200:
                expect_equal(place.bytes('st/x.caibx'), EMPTY_INDEX, 'the index')
                expect(not os.path.islink(place.path('st/x.caibx')), 'the link is left')


# What stands in the place of a chunk's folder, and what extract says.
AT_A_FOLDER = {
    'a file': (lambda path: put_file(path, b'file'), MISSING),
    'a pipe': (os.mkfifo, MISSING),
    'a socket': (bind, MISSING),
    'a link to a file': (lambda path: os.symlink('../precious', path), MISSING),
    'a link to nothing': (lambda path: os.symlink('nothing', path), MISSING),
    'a link to a device': (lambda path: os.symlink('/dev/zero', path), MISSING),
    'a link to itself': (lambda path: os.symlink('5304', path), FAILED),
}


def at_a_folder(cases):
    """Nothing stands below what is no folder, and nothing is put there: it stays, and the put fails."""
    for what, (make, extract) in AT_A_FOLDER.items():
        with cases.case(f'at the path of a chunk\'s folder stands {what}') as folder:
            place = Place(folder)
            os.rmdir(place.path('st/5304'))
            make(place.path('st/5304'))
            is_missing = extract == MISSING
            figures = formats.figures(formats.read_index(ABC_INDEX), 0) if is_missing else ''
            place.leaves('extract -s st a.caibx o', extract)
            place.leaves('info -s st a.caibx', '' if is_missing else FAILED, figures)
            place.leaves('chop -s st a.caibx img', FAILED)
            place.leaves('make -s st b.caibx img', FAILED)
            for words in ('verify -r -s st', 'prune -y -s st none.caibx'):
                place.leaves(words, '' if is_missing else FAILED)
            before = snapshot(folder)
            with ChunkServer(folder, '-w') as server:
                got = said_to(server, request('GET', PATH) + request('HEAD', PATH) + put(PATH, ABC))
                wanted = Wanted(404 if is_missing else 500).bytes * 2 + Wanted(500).bytes
                expect_equal(got, wanted, 'the replies')
            expect_untouched(before, snapshot(folder))


def removed(cases):
    """Removing takes the link, and not what it leads to; what is no file stays."""
    for what in AT_A_CHUNK:
        make, verify = AT_A_CHUNK[what][0], AT_A_CHUNK[what][-1]
        with cases.case(f'verify -r and prune where at the path of a chunk stands {what}') as folder:
            place = Place(folder)
            make(place.path(CHUNK))
            if verify == 'damaged':
                place.leaves('verify -r -s st', out=f'removed {DIGITS}\n', but=[CHUNK])
                expect(not os.path.lexists(place.path(CHUNK)), 'the link is left')
                make(place.path(CHUNK))
            is_file = os.path.isfile(place.path(CHUNK))
            place.leaves('prune -y -s st none.caibx', FAILED if verify == FAILED else '', but=[CHUNK] * is_file)
            expect_equal(os.path.lexists(place.path(CHUNK)), not is_file, 'whether it is left')
            expect_equal(place.bytes('precious'), b'precious', 'what a link led to')
    with cases.case('a cache takes the place of what is no file, but of a folder') as folder:
        place = Place(folder)
        formats.write_chunk(place.path('all'), formats.digest_of(ABC), ABC)
        for what, (make, *_) in AT_A_CHUNK.items():
            if not what.startswith('a folder'):
                make(place.path(CHUNK))
                place.ends('cache -s all -c st a.caibx')
                expect(what == 'a link to the chunk' or not os.path.islink(place.path(CHUNK)), f'{what} is left')
                expect_equal(place.bytes(CHUNK), ABC, f'the chunk in the place of {what}')
                os.remove(place.path(CHUNK))
        os.mkdir(place.path(CHUNK))
        place.ends('cache -s all -c st a.caibx', 'the cache failed')


def has_no_size():
    return os.path.isfile('/proc/version') and os.path.getsize('/proc/version') == 0


def no_size(cases):
    """A file that has bytes, of which the system says that it has none."""
    with cases.case('IMAGE, INDEX or a chunk is a file in /proc') as folder:
        if not has_no_size():
            raise Skip('there is no /proc/version of size 0')
        place = Place(folder)
        place.link('/proc/version', 'version')
        for words in ('make -s st b.caibx version', 'verify-index none.caibx version', 'chop -s st none.caibx version'):
            place.leaves(words, 'the image failed')
        place.leaves('list-chunks version', 'version: failed')
        place.link('/proc/version', CHUNK)
        for words in ('extract -s st a.caibx o', 'chop -s st a.caibx img', 'verify -s st'):
            place.leaves(words, FAILED)


# Links to folders

def folder_links(cases):
    with cases.case('a store, a cache and a server\'s store are links') as folder:
        place = Place(folder)
        os.mkdir(place.path('near'))
        for name in ('st', 'near'):
            place.link(name, f'{name}-link')
        place.ends('chop -s st-link a.caibx img')
        place.ends('extract -s st-link -c near-link a.caibx o')
        expect_equal(place.bytes('near' + PATH), ABC, 'the chunk in the cache')
        place.ends('verify -s near-link')
        with ChunkServer(folder, store='st-link') as server:
            expect_equal(said_to(server, request('GET', PATH)), Wanted(200, ABC).bytes, 'the reply')
        place.ends('prune -y -s st-link none.caibx')
        expect(os.path.islink(place.path('st-link')), 'the link has gone')
        expect_equal(files_of(place.path('st')), {}, 'what the store has')
    for what, to, why in (('nothing', 'nowhere', 'no such folder'), ('a file', 'img', 'no such folder'),
                          ('itself', 'link', 'failed'), ('a device', '/dev/null', 'failed')):
        with cases.case(f'a store is a link to {what}') as folder:
            place = Place(folder)
            place.link(to, 'link')
            for words in ('make -s link b.caibx img', 'extract -s link a.caibx o', 'chop -s link a.caibx img',
                          'cache -s st -c link a.caibx', 'info -s link a.caibx', 'verify -r -s link',
                          'prune -y -s link none.caibx', f'chunk-server -s link -l 127.0.0.1:{servers.free_port()}'):
                place.leaves(words, f'link: {why}')
    with cases.case('a folder in a store is a link: its chunks are the store\'s, and other files stay') as top:
        place = Place(top)
        os.rmdir(place.path('st/5304'))
        place.link('../else', 'st/5304')
        for name, data in ((DIGITS, ABC), (formats.TEMPORARY + 'x', b'left'), ('notes', b'notes'),
                           (os.path.join('inner', formats.TEMPORARY), b'too deep')):
            put_file(place.path(os.path.join('else', name)), data)
        place.leaves('extract -s st a.caibx o', but=['o'])
        place.leaves('prune -y -s st none.caibx', but=[f'else/{DIGITS}', f'else/{formats.TEMPORARY}x'])
        expect_equal(sorted(os.listdir(place.path('else'))), ['inner', 'notes'], 'what is left')
        place.ends('chop -s st a.caibx img')
        expect_equal(place.bytes(f'else/{DIGITS}'), ABC, 'the chunk that is stored')


# Temporary names

PLANTED = {'a link to a file': lambda place, name: os.symlink(place.path('precious'), place.path(name)),
           'a link to nothing': lambda place, name: os.symlink('nothing', place.path(name)),
           'a link to a device': lambda place, name: os.symlink('/dev/null', place.path(name)),
           'a link to itself': lambda place, name: os.symlink(os.path.basename(name), place.path(name)),
           'a file': lambda place, name: put_file(place.path(name), b'left'),
           'a pipe': lambda place, name: os.mkfifo(place.path(name)),
           'a folder': lambda place, name: os.mkdir(place.path(name))}


def planted(cases):
    for what, plant in PLANTED.items():
        with cases.case(f'under the temporary name of a chunk stands {what}') as folder:
            place = Place(folder)
            for words in ('chop -s st a.caibx img', 'make -s st b.caibx img'):
                plant(place, TEMPORARY)
                place.ends(words)
                expect_equal(place.bytes(CHUNK), ABC, 'the chunk')
                expect_equal(place.bytes('precious'), b'precious', 'the other file')
                expect(not os.path.lexists(place.path('st/5304/nothing')), 'what the link led to has come')
                expect_equal(os.path.lexists(place.path(TEMPORARY)), what == 'a folder', 'whether it is left')
                if what == 'a folder':
                    break
                os.remove(place.path(CHUNK))
        with cases.case(f'under the temporary name of INDEX stands {what}') as folder:
            place = Place(folder)
            plant(place, '.tmp-desync')
            before = snapshot(folder)
            place.ends('make -s st b.caibx img')
            expect_equal(place.bytes('b.caibx'), ABC_INDEX, 'INDEX')
            expect_untouched(before, snapshot(folder), ['b.caibx', 'st'])
        with cases.case(f'under the temporary name of OUT stands {what}') as folder:
            place = Place(folder)
            place.ends('chop -s st a.caibx img')
            put_file(place.path('o'), b'old')
            plant(place, 'o.tmp-desync')
            done = what in ('a link to a file', 'a link to nothing', 'a file')
            place.leaves('extract -s st a.caibx o', '' if done else 'the target failed', but=['o', 'o.tmp-desync'])
            expect_equal(place.bytes('o'), ABC if done else b'old', 'OUT')
            expect_equal(os.path.lexists(place.path('o.tmp-desync')), what == 'a folder', 'whether it is left')


# Names that are listed, and paths that are asked for

def listed_names(cases):
    with cases.case('names that are no chunk\'s stay, and are no one\'s fault') as folder:
        place = Place(folder)
        names = ['x' * 255, '5304/' + 'x' * 255, 'a\nb', '5304/..a', '...', '-r', ' ', PATH[1:].upper(),
                 '5304/' + DIGITS.upper(), '5305/' + DIGITS, DIGITS, '5304/5304' + PATH, f'5304/{DIGITS}.cacnk',
                 f'5304/{DIGITS[:-1]}', f'5304/{DIGITS}0', '5304/x' + formats.TEMPORARY, 'µ…日本']
        for name in names:
            put_file(place.path('st/' + name), b'other')
        os.mkdir(place.path('st/' + formats.TEMPORARY))
        place.leaves('verify -r -s st')
        place.leaves('prune -y -s st none.caibx')
        place.leaves('extract -s st a.caibx o', MISSING)
    for where in ('st/\udcff', 'st/5304/\udcff\udcfe', 'st/\udcff/file'):
        with cases.case(f'a name in a store isn\'t UTF-8: {where!a}') as folder:
            place = Place(folder)
            place.ends('chop -s st a.caibx img')
            put_file(place.path(where), b'')
            place.leaves('verify -s st', FAILED)
            place.leaves('prune -y -s st none.caibx', FAILED)
            place.leaves('extract -s st a.caibx o', but=['o'])


# Ids whose bytes are a path, where an id were taken for text.
IDS = [b'/' * 32, b'.' * 32, b'../' * 10 + b'..', b'../precious'.ljust(32, b'\0'), bytes(32), b'\xff' * 32]


def listed_ids(cases):
    """An index lists ids, and never names: each is asked for by its digits, below the store."""
    for name in IDS:
        with cases.case(f'an index lists the id {name!r}') as folder:
            place = Place(folder)
            os.mkdir(place.path('near'))
            formats.write_index(place.path('i.caibx'), formats.Index([(8, name)]))
            missing = formats.refusal(0, name, 'missing')
            place.leaves('extract -s st i.caibx o', missing)
            place.leaves('extract -s st -c near i.caibx o', missing)
            place.leaves('cache -s st -c near i.caibx', missing)
            place.leaves('list-chunks i.caibx', out=name.hex() + '\n')
            formats.write_chunk(place.path('st'), name, b'precious')
            place.leaves('extract -s st i.caibx o', formats.refusal(0, name, 'damaged', 0))
            place.leaves('prune -y -s st i.caibx')
            place.leaves('prune -y -s st a.caibx', but=[os.path.join('st', formats.path_in_store(name))])
            expect_equal(files_of(place.path('st')), {}, 'what the store has')
            with servers.Server(lambda peer, *_: peer.sendall(servers.reply(404))) as server:
                place.ends(f'extract -s {server.url("/s")} i.caibx o', missing)
                path = '/s/' + formats.path_in_store(name)
                expect_equal({asked for _, asked in server.asked}, {path}, 'what was asked for')


def asked_paths(cases):
    with cases.case('no path that is asked for or put leads out of the store') as folder:
        place = Place(folder)
        put_file(place.path(DIGITS), ABC)
        place.link('..', 'st/up')
        place.link('../' + DIGITS, 'st/' + DIGITS)
        before = snapshot(folder)
        with ChunkServer(folder, '-w') as server:
            for target in ('/../' + DIGITS, f'/up/{DIGITS}', f'/5304/../../{DIGITS}', f'/5304/../{DIGITS}',
                           f'/....{PATH[5:]}', f'/%35%33%30%34/{DIGITS}', f'/5304/{"a" * 255}', '/' + 'a' * 255,
                           f'//{DIGITS}', f'/./5304/{DIGITS}', f'{PATH}/../{DIGITS}', f'/\\..\\{DIGITS}',
                           f'/5304/{DIGITS[:-3]}%00', f'/٥٣٠٤/{DIGITS}'):
                for sent in (request('GET', target), request('HEAD', target), put(target, ABC)):
                    expect_equal(said_to(server, sent), Wanted(404).bytes, f'the reply to {sent}')
            for target in (f'/5304/\0{DIGITS}', f'{PATH}\0', f'/5304\0/{DIGITS}', f'/5304/\x7f'):
                for sent in (request('GET', target), put(target, ABC)):
                    expect_equal(said_to(server, sent), refused(400).bytes, f'the reply to {sent}')
        expect_untouched(before, snapshot(folder))
    with cases.case('no path of an index that is asked for or put leads out of the folder') as folder:
        place = Place(folder)
        place.link('..', 'st/up')
        put_file(place.path('st/.hidden.caibx'), ABC_INDEX)
        before = snapshot(folder)
        with IndexServer(folder, '-w') as server:
            for target in ('/../a.caibx', '/up/a.caibx', '/..%2fa.caibx', '/%2e%2e/a.caibx', '//a.caibx',
                           '/./../a.caibx', '/.hidden.caibx', '/\\..\\a.caibx', f'/{"a" * 249}.caibx',
                           f'/{"a" * 123}.caibx', place.path('a.caibx'), '/a.caibx%00', '/А.caibx', '/..', '/...caibx'):
                for sent in (request('GET', target), request('HEAD', target), put(target, EMPTY_INDEX)):
                    expect_equal(said_to(server, sent), Wanted(404).bytes, f'the reply to {sent}')
            for target in ('/../a.caibx\0', '/a\0.caibx', '/a.caibx\x7f'):
                for sent in (request('GET', target), put(target, EMPTY_INDEX)):
                    expect_equal(said_to(server, sent), refused(400).bytes, f'the reply to {sent}')
        expect_untouched(before, snapshot(folder))
    with cases.case('the path of a location doesn\'t lead above the server\'s') as folder:
        place = Place(folder)
        for path in ('/a/../../b', '/a/%2e%2e/b', '/a/.%2E/./b', '/b/'):
            with servers.Server(lambda peer, *_: peer.sendall(servers.reply(404))) as server:
                place.ends(f'extract -s {server.url(path)} a.caibx o', MISSING)
                expect_equal({asked for _, asked in server.asked}, {'/b' + PATH}, f'what was asked for by {path}')


def main():
    needs_program('odd_files')
    cases = Cases('odd_files')
    if can_make_devices():
        AT_A_CHUNK['a device'] = make_device, FAILED, FAILED, FAILED, ''
        AT_AN_INDEX['a device'] = make_device, 500, 200
    else:
        cases.skip('a device at the path of a chunk, or of an index', 'no device can be made here')
    if has_no_size():
        AT_AN_INDEX['a link to a file in /proc'] = lambda path: os.symlink('/proc/version', path), 500, 200
    for group in (at_a_chunk, at_an_index, at_a_folder, removed, no_size, folder_links, planted, listed_names,
                  listed_ids, asked_paths):
        group(cases)
    return cases.end()


if __name__ == '__main__':
    sys.exit(main())
