#!/usr/bin/env python3
"""The guide: the commands of docs/GUIDE.md, as they are typed, in one folder, and what they print.

Its servers are started as it says, but at free ports, and nginx over the same folder. Blocks whose tools aren't
installed are skipped. What the guide says of chunks is held against tests/formats.py, which cuts the same images by
itself.
"""

import contextlib
import http.client
import os
import re
import shutil
import socket
import ssl
import subprocess
import sys
import textwrap

import formats
import program
import replies
import servers
from checks import Cases, expect, expect_equal, needs_program

GUIDE = os.path.join(program.TOP, 'docs', 'GUIDE.md')
IMAGES = {'v1.img': 'seq 60000', 'v2.img': "seq 60000 | sed 's/^30000$/thirty thousand/'"}
OURS, STATIC, NGINX, SERVED = 'localhost:8080', 'localhost:8000', 'images.example.com', '/srv/images'
INDEXES, SITE = 'localhost:8081', 'localhost:8082'
BEHIND, NETWORK = '127.0.0.1:8080', '192.0.2.0/24'
LOCATION = re.compile(r'^    location .*?^    }\n', re.DOTALL | re.MULTILINE)


def steps(block):
    """The commands of a block, each with what it prints."""
    found = []
    for line in block.splitlines():
        if line.startswith('$ '):
            found.append((line[2:], []))
        else:
            found[-1][1].append(line)
    return [(command, ''.join(line + '\n' for line in lines)) for command, lines in found]


class Reader:
    """Does what the guide's blocks say, one after the other, in a folder. Servers run until the end of `held`."""

    def __init__(self, cases, folder, held):
        self.cases = cases
        self.folder = folder
        self.held = held
        self.typed = 0
        # Where the guide's servers are in truth, and the last block `server` of nginx.
        self.hosts = {}
        self.server = None
        self.ours = held.enter_context(contextlib.ExitStack())
        self.nginx = held.enter_context(contextlib.ExitStack())

    def do(self, kind, block):
        if kind == 'sh' and block.startswith('desync chunk-server') and ' -c ' in block:
            self.serve_site(block)
        elif kind == 'sh' and block.startswith('desync chunk-server'):
            self.serve_chunks(block)
        elif kind == 'sh' and block.startswith('desync index-server'):
            self.serve_indexes(block)
        elif kind == 'sh' and block.startswith('python3 -m http.server'):
            self.serve_files(block)
        elif kind == 'nginx':
            self.serve_by_nginx(block)
        elif kind == 'console':
            self.type(block)

    def serve_chunks(self, block):
        """Runs `chunk-server` in the place of the one before it."""
        store, more = re.fullmatch(r'desync chunk-server -s (\S+) -l localhost:8080(.*)\n', block).groups()
        self.ours.close()
        server = servers.ChunkServer(self.folder, *more.split(), store=store, host='localhost', address='localhost')
        self.ours.enter_context(server)
        self.hosts[OURS] = self.hosts[BEHIND] = f'localhost:{server.port}'

    def serve_site(self, block):
        """Runs `chunk-server -c` before the server of the guide."""
        words = r'desync chunk-server -s http://localhost:8080/ -c (\S+) -l localhost:8082\n'
        cache = re.fullmatch(words, block)[1]
        server = servers.ChunkServer(self.folder, '-c', cache, store=f'http://{self.hosts[OURS]}/', host='localhost',
                                     address='localhost')
        self.held.enter_context(server)
        self.hosts[SITE] = f'localhost:{server.port}'

    def serve_indexes(self, block):
        folder, more = re.fullmatch(r'desync index-server -s (\S+) -l localhost:8081(.*)\n', block).groups()
        server = servers.IndexServer(self.folder, *more.split(), store=folder, host='localhost', address='localhost')
        self.held.enter_context(server)
        self.hosts[INDEXES] = f'localhost:{server.port}'

    def serve_files(self, block):
        folder = re.search(r'--directory (\S+) 8000\n', block)[1]
        port = self.held.enter_context(servers.static(os.path.join(self.folder, folder)))
        self.hosts[STATIC] = f'localhost:{port}'

    def serve_by_nginx(self, block):
        """Runs nginx with a block `server`, or with the last one and a block `location` in the place of its own."""
        if block.startswith('location'):
            block, count = LOCATION.subn(lambda _: textwrap.indent(block, '    '), self.server)
            expect_equal(count, 1, 'the number of places in the block of nginx')
        self.server = block
        if servers.nginx_program() is None:
            return
        port = servers.free_port()
        expect(SERVED in block or BEHIND in block, f'the block of nginx is {block}')
        for word, other in (('listen 80;', f'listen 127.0.0.1:{port};'),
                            ('listen 443 ssl;', f'listen 127.0.0.1:{port} ssl;'), (SERVED, self.folder),
                            (BEHIND, self.hosts[BEHIND])):
            block = block.replace(word, other)
        self.nginx.close()
        if ' ssl;' in block:
            self.over_tls(block, port)
            return
        self.nginx.enter_context(servers.nginx_of(block, port, os.path.join(self.folder, 'nginx')))
        self.hosts[NGINX] = f'localhost:{port}'

    def over_tls(self, block, port):
        """Puts and gets as strangers do, and as those do who may put."""
        if shutil.which('openssl') is None:
            self.cases.skip('the block of nginx that speaks TLS', 'openssl isn\'t installed')
            return
        words = 'openssl req -x509 -newkey rsa:2048 -nodes -subj /CN=images.example.com -keyout key.pem -out cert.pem'
        subprocess.run(words.split(), cwd=self.folder, stderr=subprocess.DEVNULL, check=True)
        largest = bytes(formats.DEFAULT_SIZES[2])
        for allowed, pieces in ((NETWORK, [(b'new', 403)]),
                                ('127.0.0.0/8', [(b'new', 200), (largest, 200), (largest + b'x', 413)])):
            expect(NETWORK in block, 'the network isn\'t there')
            with servers.nginx_of(block.replace(NETWORK, allowed), port, os.path.join(self.folder, 'nginx')):
                for piece, status in pieces:
                    expect_equal(self.said(port, 'PUT', piece, piece)[0], status, f'the status of a PUT by {allowed}')
                    wanted = (200, piece) if status == 200 else (404, b'')
                    expect_equal(self.said(port, 'GET', piece), wanted, 'what is got')
                self.fill(port)
        for piece in (b'new', largest):
            os.remove(formats.chunk_path(os.path.join(self.folder, 'chunks'), formats.digest_of(piece)))

    def trusted(self):
        context = ssl.create_default_context(cafile=os.path.join(self.folder, 'cert.pem'))
        context.check_hostname = False
        return context

    def said(self, port, method, piece, body=None):
        """Status and body of a reply of nginx, over TLS."""
        with contextlib.closing(http.client.HTTPSConnection('127.0.0.1', port, context=self.trusted())) as peer:
            peer.request(method, '/chunks' + replies.path_of(piece), body)
            reply = peer.getresponse()
            return reply.status, reply.read() if reply.status == 200 else b''

    def fill(self, port):
        """More clients of nginx than places of the server stop in a head, and the server still answers at once."""
        context = self.trusted()
        with contextlib.ExitStack() as held:
            for _ in range(260):
                peer = held.enter_context(socket.create_connection(('127.0.0.1', port), servers.SECONDS))
                held.enter_context(context.wrap_socket(peer)).sendall(replies.GET_ABC[:50])
            host, served = self.hosts[BEHIND].split(':')
            with socket.create_connection((host, int(served)), servers.SECONDS) as peer:
                peer.sendall(replies.request('GET', '/', 'Connection: close'))
                expect_equal(replies.to_the_end(peer), replies.Wanted(404, closes=True).bytes, 'the reply beside them')

    def type(self, block):
        for tool, word, there in (('casync', 'casync ', shutil.which('casync')),
                                  ('curl', 'curl ', shutil.which('curl')),
                                  ('nginx', NGINX, servers.nginx_program()),
                                  ('openssl', 'openssl ', shutil.which('openssl'))):
            if word in block and not there:
                self.cases.skip(f'the block that begins {steps(block)[0][0]!r}', f'{tool} isn\'t installed')
                return
        path = os.path.dirname(program.DESYNC) + os.pathsep + os.environ['PATH']
        for command, printed in steps(block):
            words = command
            for host, other in self.hosts.items():
                words = words.replace(host, other)
            ended = subprocess.run(['bash', '-c', words], cwd=self.folder, check=False,
                                   env={**os.environ, 'PATH': path, 'LC_ALL': 'C'}, stdin=subprocess.DEVNULL,
                                   stdout=subprocess.PIPE, stderr=subprocess.STDOUT)
            expect_equal(ended.stdout.decode(), printed, f'what `{command}` prints')
            refused = printed.startswith('desync: ') or '\ndesync: ' in printed
            expect_equal(ended.returncode, 1 if refused else 0, f'the status of `{command}`')
            self.typed += 1


def typed(cases, text):
    with cases.case('what the commands print') as folder, contextlib.ExitStack() as held:
        reader = Reader(cases, folder, held)
        for kind, block in re.findall(r'^```(\w+)\n(.*?)^```$', text, re.DOTALL | re.MULTILINE):
            reader.do(kind, block)
        expect(reader.typed > 30, f'the guide has {reader.typed} commands')


def told(cases, text):
    with cases.case('what the guide says of chunks'):
        indexes = []
        for command in IMAGES.values():
            image = subprocess.run(['bash', '-c', command], stdout=subprocess.PIPE, check=True).stdout
            indexes.append(formats.index_of(image))
        names = [{name.hex() for name in index.names()} for index in indexes]
        expect_equal([len(each) for each in names], [7, 7], 'the numbers of chunks')
        expect_equal(len(names[0] | names[1]), 8, 'the number of chunks of both')
        for lost in (names[1] - names[0], names[0] - names[1]):
            expect(all(name in text for name in lost), f'{lost} isn\'t told')
        first = indexes[1].entries[0][1].hex()
        expect(f'chunk {first} of entry 0 is missing' in text, 'the first chunk isn\'t told')
        expect(f'"size":{indexes[1].length()},' in text, 'the size isn\'t told')


def main():
    needs_program('guide')
    cases = Cases('guide')
    with open(GUIDE, encoding='utf-8') as file:
        text = file.read()
    typed(cases, text)
    told(cases, text)
    return cases.end()


if __name__ == '__main__':
    sys.exit(main())
