"""Cases, each in a folder of its own, counted as passed, failed or skipped; and what a folder holds."""

import concurrent.futures
import contextlib
import multiprocessing
import os
import shutil
import stat
import sys
import tempfile
import traceback

import program

# Files up to this many bytes are compared byte by byte, longer ones by size, times and number.
WHOLE = 1 << 20

# How a chunk may be damaged: what its bytes become.
DAMAGES = {
    'another byte': lambda piece: piece[:-1] + bytes([piece[-1] ^ 1]),
    'one byte less': lambda piece: piece[:-1],
    'one byte more': lambda piece: piece + b'\0',
    'no byte': lambda piece: b'',
}


def expect(holds, text):
    if not holds:
        raise AssertionError(text)


def expect_equal(got, wanted, what):
    if got != wanted:
        raise AssertionError(f'{what} is {shown(got)}, and not {shown(wanted)}{first_difference(got, wanted)}')


def first_difference(got, wanted):
    if not isinstance(got, bytes) or not isinstance(wanted, bytes):
        return ''
    both = min(len(got), len(wanted))
    place = next((at for at in range(both) if got[at] != wanted[at]), both)
    return f', from byte {place} on'


def shown(value):
    if isinstance(value, (bytes, bytearray)) and len(value) > 40:
        return f'{bytes(value[:40])!r}.. ({len(value)} bytes)'
    return repr(value)


def expect_ended(ended, text='', out='', what='the run'):
    """The program ended with this text as its error line, or with none where it is done, and printed this."""
    expect_equal(ended.err.decode(), f'desync: {text}\n' if text else '', f'standard error of {what}')
    expect_equal(ended.out.decode(), out, f'standard output of {what}')
    expect_equal(ended.status, 1 if text else 0, f'the status of {what}')


class Skip(Exception):
    """This case can't be tried on this machine: the text says why."""


class Cases:
    """The cases of one script. Call `end` last: it prints the count and gives the exit status."""

    def __init__(self, name):
        self.name = name
        self.passed = self.failed = self.skipped = 0
        self.top = tempfile.mkdtemp(prefix='desync-tests-')
        os.chmod(self.top, 0o755)
        self.number = 0

    @contextlib.contextmanager
    def case(self, what):
        """A case in a fresh folder, which goes afterwards."""
        self.number += 1
        folder = os.path.join(self.top, str(self.number))
        os.mkdir(folder)
        try:
            yield folder
            self.passed += 1
        except (Skip, program.NoUser) as why:
            self.skip(what, why)
        except AssertionError as why:
            self.fail(what, why)
        except Exception:
            self.fail(what, traceback.format_exc())
        finally:
            remove(folder)

    def fail(self, what, why):
        self.failed += 1
        print(f'FAILED {what}: {why}', flush=True)

    def skip(self, what, why):
        self.skipped += 1
        print(f'SKIPPED {what}: {why}', flush=True)

    def side_by_side(self, parts):
        """Runs parts, each a function and its arguments, in processes of their own, as many at once as there are
        processors. Each is called with cases of its own, which are counted here. Answers what they answer, in order."""
        fork = multiprocessing.get_context('fork')
        with concurrent.futures.ProcessPoolExecutor(len(os.sched_getaffinity(0)), fork) as pool:
            ended = [run.result() for run in [pool.submit(_part, self.name, *part) for part in parts]]
        for cases, _ in ended:
            self.passed += cases.passed
            self.failed += cases.failed
            self.skipped += cases.skipped
        return [answer for _, answer in ended]

    def end(self):
        remove(self.top)
        more = f', {self.skipped} skipped' if self.skipped else ''
        print(f'{self.name}: {self.passed} passed, {self.failed} failed{more}', flush=True)
        return 1 if self.failed else 0


def _part(name, part, *given):
    cases = Cases(name)
    try:
        return cases, part(cases, *given)
    finally:
        remove(cases.top)


def needs_program(name):
    """Ends the script as failed where the program isn't built."""
    if not program.is_built():
        print(f'FAILED: {program.DESYNC} isn\'t there: run ./build first')
        print(f'{name}: 0 passed, 1 failed')
        sys.exit(1)


def remove(folder):
    """Removes a folder, after giving back the rights that a case has taken away in it."""
    os.chmod(folder, 0o755)
    for path, folders, _ in os.walk(folder):
        for name in folders:
            inner = os.path.join(path, name)
            if not os.path.islink(inner):
                os.chmod(inner, 0o755)
    shutil.rmtree(folder, ignore_errors=True)


def put_file(path, data):
    os.makedirs(os.path.dirname(path), exist_ok=True)
    with open(path, 'wb') as file:
        file.write(data)


def file_bytes(path):
    """The bytes of a file, or None where none is there."""
    try:
        with open(path, 'rb') as file:
            return file.read()
    except FileNotFoundError:
        return None


# What a folder holds

def files_of(folder):
    """The bytes of each file below a folder, by its path."""
    files = {}
    for path, _, names in os.walk(folder):
        for name in names:
            full = os.path.join(path, name)
            files[os.path.relpath(full, folder)] = file_bytes(full)
    return files


def expect_files(folder, wanted, what):
    """The folder holds just the files of these paths with these bytes."""
    got = files_of(folder)
    expect_equal(sorted(got), sorted(wanted), f'the list of files {what}')
    for path, data in wanted.items():
        expect(got[path] == data, f'{path} has other bytes {what}')


def snapshot(folder):
    """All below a folder: for each path its kind, rights, number, size, times and, up to a length, bytes."""
    seen = {'.': _seen(folder)}
    for path, folders, files in os.walk(folder):
        for name in folders + files:
            full = os.path.join(path, name)
            seen[os.path.relpath(full, folder)] = _seen(full)
    return seen


def _seen(path):
    facts = os.lstat(path)
    data = None
    if stat.S_ISLNK(facts.st_mode):
        data = os.readlink(path)
    elif stat.S_ISREG(facts.st_mode) and facts.st_size <= WHOLE:
        with contextlib.suppress(PermissionError):
            with open(path, 'rb') as file:
                data = file.read()
    size = 0 if stat.S_ISDIR(facts.st_mode) else facts.st_size
    return facts.st_mode, facts.st_ino, size, facts.st_mtime_ns, facts.st_ctime_ns, data


def _kind_and_number(seen, path):
    return seen[path][:2] if path in seen else None


def expect_untouched(before, after, but=()):
    """Nothing changed but the named paths; a folder's times count where none of them came, went or was replaced."""
    but = {os.path.normpath(path) for path in but}
    moved = {path for path in but if _kind_and_number(before, path) != _kind_and_number(after, path)}
    parents = {os.path.dirname(path) or '.' for path in moved}
    for path in sorted(set(before) | set(after)):
        if path in but or any(path.startswith(name + os.sep) for name in but):
            continue
        expect(path in before, f'{path!r} has come')
        expect(path in after, f'{path!r} has gone')
        if path in parents:
            expect_equal(after[path][:3], before[path][:3], f'{path!r} (mode, number, size)')
        else:
            expect_equal(after[path], before[path], f'{path!r} (mode, number, size, times, bytes)')
