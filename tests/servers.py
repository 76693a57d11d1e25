"""Servers of chunks on the loopback interface, each of which ends with its `with`.

A chunk's path is a prefix, the first four digits of its id, and all 64. `Server` answers each connection by a function
of the request's bytes; `Front` passes requests on, and notes them; `static` and `nginx` serve a folder as files;
`ChunkServer` and `IndexServer` are ours.
"""

import contextlib
import os
import random
import re
import resource
import shutil
import socket
import subprocess
import sys
import threading
import time
import traceback

import program

HEAD_END = b'\r\n\r\n'
SECONDS = 20
WAIT = 'wait'


class Server:
    """Takes connections one after the other, or all at once, and hands each with its request to
    `answer(peer, method, path, body)`.

    `asked` has the method and path of each request, and `heads` their bytes up to the empty line. Where an answer is
    `WAIT`, the connection stays open to the end. A request that isn't whole, or has more, and an answer that raises
    fail the `with`.
    """

    def __init__(self, answer, host='127.0.0.1', at_once=False):
        self.answer = answer
        self.at_once = at_once
        self.asked = []
        self.heads = []
        self.failures = []
        self.over = threading.Event()
        family = socket.AF_INET6 if ':' in host else socket.AF_INET
        self.listener = socket.create_server((host, 0), family=family)
        self.address = self.listener.getsockname()
        self.port = self.address[1]
        self.thread = threading.Thread(target=self._serve, daemon=True)

    def url(self, prefix=''):
        return f'http://localhost:{self.port}{prefix}'

    def __enter__(self):
        self.thread.start()
        return self

    def __exit__(self, kind, *_):
        self.over.set()
        with contextlib.suppress(OSError):
            socket.create_connection(self.address[:2], 1).close()
        self.thread.join(SECONDS)
        self.listener.close()
        if kind is None and self.failures:
            raise AssertionError(f'the server: {self.failures[0]}')

    def _serve(self):
        while True:
            peer, _ = self.listener.accept()
            if self.over.is_set():
                peer.close()
                return
            if self.at_once:
                threading.Thread(target=self._take, args=(peer,), daemon=True).start()
            else:
                self._take(peer)

    def _take(self, peer):
        with peer:
            peer.settimeout(SECONDS)
            try:
                self._connection(peer)
            except OSError:
                # The program has hung up, as it may.
                pass
            except Exception:
                self.failures.append(traceback.format_exc())

    def _connection(self, peer):
        got = b''
        while HEAD_END not in got:
            piece = peer.recv(65536)
            if not piece:
                self.failures.append(f'a request ends with its head: {got!r}')
                return
            got += piece
        head, body = got.split(HEAD_END, 1)
        length = re.search(rb'\r\nContent-Length: (\d+)', head)
        wanted = int(length[1]) if length else 0
        while len(body) < wanted:
            piece = peer.recv(65536)
            if not piece:
                self.failures.append(f'a body has {len(body)} bytes, and {wanted} were told')
                return
            body += piece
        if len(body) > wanted:
            self.failures.append(f'a request of {wanted} bytes has {len(body)}')
        method, path, _ = head.split(b'\r\n')[0].decode().split(' ')
        self.asked.append((method, path))
        self.heads.append(head)
        if self.answer(peer, method, path, body) == WAIT:
            self.over.wait()


class Front(Server):
    """Stands before another server, at this port: it passes on each GET and HEAD, and hands back what comes. Where the
    other one isn't there or breaks off, so does this one.

    `before` is called with the number of each request, from 0 on, before it is passed on. `given` has the paths of
    whole replies of 200.
    """

    def __init__(self, port, before=lambda number: None):
        super().__init__(self._pass_on, at_once=True)
        self.behind = port
        self.before = before
        self.passed = 0
        self.given = []
        self.lock = threading.Lock()

    def _pass_on(self, peer, method, path, _body):
        with self.lock:
            self.before(self.passed)
            self.passed += 1
        got = b''
        with contextlib.suppress(OSError), socket.create_connection(('127.0.0.1', self.behind), SECONDS) as other:
            other.sendall(f'{method} {path} HTTP/1.1\r\nHost: localhost\r\nConnection: close'.encode() + HEAD_END)
            while piece := other.recv(65536):
                got += piece
        if got.startswith(b'HTTP/1.1 200 ') and is_whole(method, got):
            self.given.append(path)
        peer.sendall(got)


def is_whole(method, got):
    """Whether a reply that tells its length has all of its bytes."""
    head, end, body = got.partition(HEAD_END)
    told = re.search(rb'\r\nContent-Length: (\d+)', head)
    return bool(end and told) and (method == 'HEAD' or len(body) == int(told[1]))


@contextlib.contextmanager
def deaf():
    """A listener that takes no connection: its queue is full, so that the system drops each attempt. Gives its port."""
    with socket.create_server(('127.0.0.1', 0), backlog=0) as listener, contextlib.ExitStack() as full:
        for _ in range(4):
            peer = full.enter_context(socket.socket())
            peer.setblocking(False)
            peer.connect_ex(listener.getsockname())
        yield listener.getsockname()[1]


def reply(status, body=b'', *lines, length=None):
    """The bytes of a reply whose body has a length."""
    head = [f'HTTP/1.1 {status} Reason', f'Content-Length: {len(body) if length is None else length}', *lines]
    return '\r\n'.join(head).encode() + HEAD_END + body


def to_the_end(body, *lines):
    """The bytes of a 200 whose body ends with the connection."""
    return '\r\n'.join(['HTTP/1.1 200 OK', *lines]).encode() + HEAD_END + body


def in_chunks(body, size=1000, extension=b'', trailer=b''):
    """The bytes of a 200 whose body comes in chunks."""
    pieces = [body[at:at + size] for at in range(0, len(body), size)]
    spelled = b''.join(b'%x%s\r\n%s\r\n' % (len(piece), extension, piece) for piece in pieces)
    end = b'0' + extension + b'\r\n' + trailer + b'\r\n'
    return to_the_end(spelled + end, 'Transfer-Encoding: chunked')


def file_at(folder, prefix, path):
    """The bytes of the file that a path below a prefix names, or None."""
    if not path.startswith(prefix + '/'):
        return None
    try:
        with open(os.path.join(folder, path[len(prefix) + 1:]), 'rb') as file:
            return file.read()
    except OSError:
        return None


def store(folder, prefix='', spell=lambda body: reply(200, body), taken=201, host='127.0.0.1'):
    """A server of a folder's chunks, which takes them too, with the status `taken`. `spell` gives the reply to a GET of
    a chunk that is there."""
    def answer(peer, method, path, body):
        held = file_at(folder, prefix, path)
        if method == 'PUT' and path.startswith(prefix + '/'):
            name = os.path.join(folder, path[len(prefix) + 1:])
            os.makedirs(os.path.dirname(name), exist_ok=True)
            with open(name, 'wb') as file:
                file.write(body)
            peer.sendall(reply(taken))
        elif held is None:
            peer.sendall(reply(404, b'' if method == 'HEAD' else b'nothing here'))
        elif method == 'HEAD':
            peer.sendall(reply(200, length=len(held)))
        else:
            peer.sendall(spell(held))
    return Server(answer, host)


@contextlib.contextmanager
def static(folder):
    """`python3 -m http.server` over a folder's files; gives its port."""
    words = [sys.executable, '-u', '-m', 'http.server', '--bind', '127.0.0.1', '--directory', folder, '0']
    process = subprocess.Popen(words, cwd=folder, stdin=subprocess.DEVNULL, stdout=subprocess.PIPE,
                               stderr=subprocess.DEVNULL, text=True)
    try:
        yield int(re.search(r'port (\d+)', process.stdout.readline())[1])
    finally:
        process.terminate()
        process.communicate(timeout=SECONDS)


# No file outside the folder `top`.
NGINX = '''daemon off; {processes} pid {top}/pid; error_log {top}/error;
events {{}}
http {{
    access_log off; sendfile on; tcp_nopush on;
    client_body_temp_path {top}/body; proxy_temp_path {top}/proxy; fastcgi_temp_path {top}/fastcgi;
    uwsgi_temp_path {top}/uwsgi; scgi_temp_path {top}/scgi;
    {server}
}}
'''
SERVER = 'server {{ listen 127.0.0.1:{port}; root {folder}; {lines} }}'
# As docs/GUIDE.md has it.
TAKES_CHUNKS = '''location / {
    client_max_body_size 64m; dav_methods PUT; create_full_put_path on; dav_access group:r all:r;
    limit_except GET { allow 127.0.0.1; deny all; }
}'''


def nginx_program():
    """The path of nginx, or None where it isn't installed; its folder isn't in everybody's PATH."""
    return shutil.which('nginx', path=os.pathsep.join([os.environ.get('PATH', ''), '/usr/sbin', '/usr/local/sbin']))


def free_port():
    """A port that is free, below those that the system gives to connections, which come and go at any time."""
    for _ in range(1_000):
        with contextlib.suppress(OSError), \
                socket.create_server(('127.0.0.1', random.SystemRandom().randint(10_000, 32_000))) as free:
            return free.getsockname()[1]
    raise AssertionError('no port is free')


@contextlib.contextmanager
def nginx(folder, top, lines='', workers=1):
    """nginx over a folder's files; gives its port. It keeps its own files in the folder `top`."""
    port = free_port()
    with nginx_of(SERVER.format(port=port, folder=folder, lines=lines), port, top, workers):
        yield port


def processes_of(workers):
    """The lines by which nginx is one process, or has so many workers, which may read what we may."""
    if workers == 1:
        return 'master_process off;'
    return f'worker_processes {workers};' + (' user root;' if os.geteuid() == 0 else '')


@contextlib.contextmanager
def nginx_of(server, port, top, workers=1):
    """nginx with this block `server`, which listens at the port."""
    os.makedirs(top, exist_ok=True)
    with open(os.path.join(top, 'conf'), 'w', encoding='utf-8') as file:
        file.write(NGINX.format(top=top, server=server, processes=processes_of(workers)))
    with open(os.path.join(top, 'error'), 'ab') as errors:
        process = subprocess.Popen([nginx_program(), '-c', os.path.join(top, 'conf')], stdin=subprocess.DEVNULL,
                                   stdout=errors, stderr=errors)
    try:
        for _ in range(20 * SECONDS):
            if process.poll() is not None or _listens(port):
                break
            time.sleep(0.05)
        if process.poll() is not None:
            with open(os.path.join(top, 'error'), encoding='utf-8') as file:
                raise AssertionError(f'nginx has ended: {file.read()}')
        yield
    finally:
        process.terminate()
        process.wait(SECONDS)


class ChunkServer:
    """`desync chunk-server` over a store in a folder, with more words. It listens at a port of the host `host`, where
    it is reached at `address`, and ends with its `with`: up to then it is to run, and it is to say nothing. It has the
    caller's environment where none is given, and may open so many files at once, if that is said. `lower` is called
    before it begins."""

    command = 'chunk-server'

    def __init__(self, folder, *words, store='st', host='127.0.0.1', address='127.0.0.1', port=None, environment=None,
                 files=None, lower=None):
        self.folder = folder
        self.environment = environment
        self.lower = lower or files and (lambda: resource.setrlimit(resource.RLIMIT_NOFILE, (files, files)))
        self.address = address
        self.port = port or free_port()
        self.words = [self.command, '-s', store, '-l', f'{host}:{self.port}', *words]
        self.process = None

    def url(self, path=''):
        return f'http://localhost:{self.port}{path}'

    def connect(self):
        return socket.create_connection((self.address, self.port), SECONDS)

    def __enter__(self):
        self.process = program.start(self.words, self.folder, self.environment, self.lower)
        for _ in range(20 * SECONDS):
            if self.process.poll() is not None:
                raise AssertionError(f'{self.words} has ended: {program.ended(self.process).err!r}')
            if _listens(self.port, self.address):
                return self
            time.sleep(0.05)
        self.process.kill()
        raise AssertionError(f'{self.words} doesn\'t listen after {SECONDS} seconds')

    def __exit__(self, kind, *_):
        runs = self.process.poll() is None
        self.process.terminate()
        ended = program.ended(self.process)
        if kind is None and (not runs or ended.out or ended.err):
            raise AssertionError(f'{self.words} {"ran" if runs else "had ended"}, and said {ended.out + ended.err!r}')


class IndexServer(ChunkServer):
    """`desync index-server`, in the same way."""

    command = 'index-server'


def _listens(port, address='127.0.0.1'):
    with contextlib.suppress(OSError):
        socket.create_connection((address, port), 1).close()
        return True
    return False
