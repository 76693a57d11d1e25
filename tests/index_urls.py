#!/usr/bin/env python3
"""INDEX operands that are URLs: what commands ask for, what they take, and how each wrong reply ends.

The servers listen on the loopback interface alone: nginx, which serves a folder with indexes and chunks side by side,
`desync index-server`, and those of this script, which answer as no server should.
"""

import gzip
import os
import sys

import formats
import program
import servers
from checks import (Cases, expect, expect_ended, expect_equal, expect_untouched, needs_program, put_file, snapshot)
from http_stores import Image, files, nginx
from servers import in_chunks, reply, to_the_end

# The greatest size of an index file.
FILE_LIMIT = 167_772_264


def spelled(image):
    return formats.spell_index(image.index)


def served(image):
    """A folder `pub` with the index `disk.caibx` and its chunks."""
    formats.write_chunks(image.path('pub'), image.index, image.bytes)
    formats.write_index(image.path(os.path.join('pub', 'disk.caibx')), image.index)


def one_file(path, answer):
    """A server of one file: the reply to a GET of its path is `answer`, and that to any other path 404."""
    def by_path(peer, _, asked, __):
        peer.sendall(answer if asked == path else reply(404))
    return servers.Server(by_path)


# Each command

def run_all(image, index, stores):
    """Every command that reads an INDEX, with its URL, and `stores` as the options of stores."""
    expect_ended(image.run('list-chunks', index), out=formats.listed(image.index))
    printed = image.run('cat', *stores, index)
    expect(printed.status == 0 and printed.out == image.bytes, f'cat ended with {printed.err!r}')
    expect_ended(image.run('info', index), out=formats.figures(image.index))
    expect_ended(image.run('info', *stores, index), out=image.figures(20))
    expect_ended(image.run('verify-index', index, 'image'))
    expect_ended(image.run('extract', *stores, index, 'out'))
    image.expect_out()
    put_file(image.path('kept'), image.bytes[:50_000])
    expect_ended(image.run('extract', '-k', *stores, index, 'kept'))
    image.expect_out('kept')
    expect_ended(image.run('cache', *stores, '-c', 'near', index, 'new.caibx', index))
    image.expect_store('near')
    expect_ended(image.run('chop', '-s', 'none', index, 'image'))
    image.expect_store('none')
    other = b'no index lists this'
    formats.write_chunk(image.path('none'), formats.digest_of(other), other)
    expect_ended(image.run('prune', '-s', 'none', '-y', index, 'new.caibx'))
    image.expect_store('none')


def commands(cases):
    with cases.case('every command, over nginx with indexes and chunks side by side') as folder:
        image = Image(folder)
        served(image)
        with nginx(image) as port:
            top = f'http://localhost:{port}/pub'
            run_all(image, f'{top}/disk.caibx', ['-s', top])
            expect_ended(image.run('list-chunks', f'{top}/other.caibx'), f'{top}/other.caibx: no such file')
            expect_ended(image.run('list-chunks', top), f'{top}: failed')
    with cases.case('every command, over index-server, and chunk-server beside it') as folder:
        image = Image(folder)
        served(image)
        with servers.IndexServer(folder, store='pub') as indexes, servers.ChunkServer(folder, store='pub') as chunks:
            run_all(image, indexes.url('/disk.caibx'), ['-s', chunks.url()])
            other = indexes.url('/other.caibx')
            expect_ended(image.run('list-chunks', other), f'{other}: no such file')
    with cases.case('an index from a URL, and chunks from a folder') as folder:
        image = Image(folder)
        with one_file('/a/b%20c.caibx', reply(200, spelled(image))) as server:
            run_all(image, server.url('/a/b%20c.caibx'), ['-s', 'all'])
            expect_equal(set(server.asked), {('GET', '/a/b%20c.caibx')}, 'what was asked')


# What is asked

def asked(cases):
    with cases.case('each INDEX is asked for once, in order') as folder:
        image = Image(folder)
        with one_file('/x', reply(200, spelled(image))) as server:
            url = server.url('/x')
            expect_ended(image.run('list-chunks', url), out=formats.listed(image.index))
            expect_equal(server.asked, [('GET', '/x')], 'what was asked')
            wanted = (f'GET /x HTTP/1.1\r\nHost: localhost:{server.port}\r\nAccept-Encoding: identity\r\n'
                      'Connection: close')
            expect_equal(server.heads[0].decode(), wanted, 'the ask')
            expect_ended(image.run('prune', '-s', 'all', '-y', url, 'new.caibx', server.url('/y')),
                         f'{server.url("/y")}: no such file')
            expect_equal(server.asked[1:], [('GET', '/x'), ('GET', '/y')], 'what was asked by prune')
            image.expect_store('all')
    with cases.case('stores are asked on connections of their own') as folder:
        image = Image(folder)
        served(image)
        with servers.store(image.path('pub')) as server:
            expect_ended(image.extract(server.url(), more=()))
            expect_ended(image.run('extract', '-n', '1', '-s', server.url(), server.url('/disk.caibx'), 'out'))
            image.expect_out()
            expect_equal(server.asked, image.asks() + [('GET', '/disk.caibx')] + image.asks(), 'what was asked')
    with cases.case('an INDEX that is no URL asks nobody') as folder:
        image = Image(folder)
        os.mkdir(image.path('http:'))
        formats.write_index(image.path('http:/x'), image.index)
        expect_ended(image.run('list-chunks', 'http:/x'), out=formats.listed(image.index))


# What is taken

def replies(cases):
    with cases.case('each form of a body') as folder:
        image = Image(folder)
        right = spelled(image)
        for what, answer in (('a length', reply(200, right, 'Content-Type: text/plain', 'ETag: "1"')),
                             ('chunks', in_chunks(right)), ('the end', to_the_end(right))):
            with one_file('/x', answer) as server:
                expect_ended(image.run('list-chunks', server.url('/x')), out=formats.listed(image.index), what=what)


def refused(cases):
    """A reply that isn't taken: the program tells the URL as it was typed, and changes nothing."""
    def wrongs(image):
        right = spelled(image)
        longer = reply(200, length=FILE_LIMIT + 1)
        return (('status 404', reply(404), 'no such file'),
                ('status 500', reply(500), 'failed'),
                ('status 204', reply(204), 'failed'),
                ('status 301', reply(301, b'', 'Location: /y'), 'failed'),
                ('no reply', b'', 'failed'),
                ('no reply of HTTP', b'hello\r\n\r\n', 'failed'),
                ('a body with a byte less than was told', reply(200, right)[:-1], 'failed'),
                ('a body in chunks without its end', in_chunks(right)[:-5], 'failed'),
                ('another transfer coding', reply(200, right, 'Transfer-Encoding: gzip'), 'failed'),
                ('compressed content', reply(200, gzip.compress(right), 'Content-Encoding: gzip'), None),
                ('a body longer than any index', longer, 'failed'),
                ('an index that lacks its last byte', reply(200, right[:-1]),
                 f'bad index: truncated at byte {len(right) - 1}'),
                ('an index that ends with the connection, too early', to_the_end(right[:100]),
                 'bad index: truncated at byte 100'),
                ('an index and a byte more', reply(200, right + b'\0'), None),
                ('no index', reply(200, b'<html>' * 100), None))

    def text_of(answer):
        body = answer.split(b'\r\n\r\n', 1)[1]
        _, text = formats.read_text(body, '')
        return text.removeprefix(': ')

    with cases.case('replies that are no index') as folder:
        image = Image(folder)
        before = files(folder)
        for what, answer, why in wrongs(image):
            with one_file('/x', answer) as server:
                # As typed: the host in capitals, and a port that is told.
                url = f'http://LOCALHOST:{server.port}/x'
                text = f'{url}: {why or text_of(answer)}'
                for words in (['list-chunks', url], ['info', url], ['verify-index', url, 'image'],
                              ['chop', '-s', 'none', url, 'image'], ['prune', '-s', 'all', '-y', url],
                              ['cache', '-s', 'all', '-c', 'near', url], ['extract', '-s', 'all', url, 'out'],
                              ['cat', '-s', 'all', url]):
                    expect_ended(image.run(*words), text, what=f'{words[0]} where there is {what}')
                expect_equal(len(server.asked), 8, f'the number of asks where there is {what}')
        expect_equal(files(folder), before, 'what stands in the folder')
    with cases.case('a server that is down') as folder:
        image = Image(folder)
        url = f'http://localhost:{servers.free_port()}/x'
        before = snapshot(folder)
        expect_ended(image.run('list-chunks', url), f'{url}: failed')
        expect_ended(image.run('extract', '-s', 'all', url, 'out'), f'{url}: failed')
        expect_untouched(before, snapshot(folder))
    with cases.case('a second INDEX that is refused leaves what the first has filled') as folder:
        image = Image(folder)
        with one_file('/x', reply(200, spelled(image))) as server:
            expect_ended(image.run('cache', '-s', 'all', '-c', 'near', server.url('/x'), server.url('/y')),
                         f'{server.url("/y")}: no such file')
            image.expect_store('near')
    with cases.case('the longest index that may be, and a byte more') as folder:
        image = Image(folder)
        longest = formats.long_index(formats.ITEM_LIMIT)
        expect_equal(len(longest), FILE_LIMIT, 'the length of the longest index')
        for what, answer in (('a length', reply(200, longest)), ('the end', to_the_end(longest))):
            with one_file('/x', answer) as server:
                ended = image.run('info', server.url('/x'))
                expect_ended(ended, out=ended.out.decode(), what=what)
                expect(f'"total":{formats.ITEM_LIMIT},' in ended.out.decode(), f'info printed {ended.out!r}')
        with one_file('/x', to_the_end(longest + b'\0')) as server:
            expect_ended(image.run('info', server.url('/x')), f'{server.url("/x")}: failed')


def main():
    needs_program('index_urls')
    cases = Cases('index_urls')
    for part in (commands, asked, replies, refused):
        part(cases)
    return cases.end()


if __name__ == '__main__':
    sys.exit(main())
