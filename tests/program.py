"""The built program, run on real files: its status, what it printed, its time and its peak memory.

The program is bin/desync of this checkout, or the file that the environment variable DESYNC names.
Times are seconds, memory is KiB. Linux alone.
"""

import os
import resource
import shutil
import signal
import subprocess
import sys
import time

TOP = os.path.dirname(os.path.dirname(os.path.abspath(__file__)))
DESYNC = os.path.abspath(os.environ.get('DESYNC', os.path.join(TOP, 'bin', 'desync')))
TIME_LIMIT = 600
NOBODY = 65534
ADDRESS_LIMIT = 16 << 30


class Ended:
    """How a run ended; a status below 0 is the number of a signal. The seconds that it took of the processors, where
    they are measured."""

    def __init__(self, status, out, err, processor=None):
        self.status = status
        self.out = out
        self.err = err
        self.processor = processor


def is_built():
    return os.access(DESYNC, os.X_OK)


def run(words, folder, environment=None, lower=None):
    """Runs the program in a folder, with the caller's environment where none is given. `lower` is called before."""
    return _ended(subprocess.Popen([DESYNC, *words], cwd=folder, env=environment, preexec_fn=lower, **_streams()))


def start(words, folder, environment=None, lower=None):
    """Starts the program in a folder; `ended` waits for it. `lower` is called before."""
    return subprocess.Popen([DESYNC, *words], cwd=folder, env=environment, preexec_fn=lower, **_streams())


def ended(process):
    return _ended(process)


def run_with_file_limit(words, folder, limit):
    """Runs the program where no file may grow past a length: such a write or cut is refused, not fatal."""
    def lower():
        signal.signal(signal.SIGXFSZ, signal.SIG_IGN)
        resource.setrlimit(resource.RLIMIT_FSIZE, (limit, limit))
    return _ended(subprocess.Popen([DESYNC, *words], cwd=folder, preexec_fn=lower,
                                   restore_signals=False, **_streams()))


class NoUser(Exception):
    """Permissions can't be tried here: the text says why."""


def run_without_rights(words, folder, lower=None):
    """Runs the program as a user whom permissions bind: the caller, or nobody where the caller is root. `lower` is
    called before, as that user.

    The user nobody runs a copy of the program, since the checkout may lie where only its owner may read.
    """
    if os.geteuid() != 0:
        return run(words, folder, lower=lower)
    copy = os.path.join(os.path.dirname(folder), 'desync-for-nobody')
    shutil.copy(DESYNC, copy)
    os.chmod(copy, 0o755)
    try:
        process = subprocess.Popen([copy, *words], cwd=folder, user=NOBODY, group=NOBODY,
                                   extra_groups=[], preexec_fn=lower, **_streams())
    except (PermissionError, TypeError) as why:
        raise NoUser(f'the caller is root and nobody can\'t run the program: {why}') from why
    return _ended(process)


# Runs the words after the first two with this much address space and on these processors (none named: on all), and
# prints status, peak memory and the time of the processors, of the program and of the system for it.
MEASURER = """
import os, resource, sys
limit = int(sys.argv[1])
processors = [int(number) for number in sys.argv[2].split()]
number = os.fork()
if number == 0:
    resource.setrlimit(resource.RLIMIT_AS, (limit, limit))
    if processors:
        os.sched_setaffinity(0, processors)
    null = os.open(os.devnull, os.O_RDWR)
    for stream in range(2):
        os.dup2(null, stream)
    os.execvp(sys.argv[3], sys.argv[3:])
_, status, usage = os.wait4(number, 0)
print(os.waitstatus_to_exitcode(status), usage.ru_maxrss, usage.ru_utime + usage.ru_stime)
"""


def run_measured(words, folder, program=DESYNC, processors=()):
    """Runs a program with a bound on its address space: how it ended, its seconds and its peak memory in KiB. It runs
    on these processors, where any are named.

    What it prints on standard output goes nowhere. A bare Python starts it. The kernel counts a child's memory from its
    parent's, so a peak below that of a bare Python, some 9 MiB, isn't seen.
    """
    begun = time.monotonic()
    bounds = [str(ADDRESS_LIMIT), ' '.join(map(str, processors))]
    measured = subprocess.run([sys.executable, '-I', '-S', '-c', MEASURER, *bounds, program, *words],
                              cwd=folder, check=True, **_streams())
    seconds = time.monotonic() - begun
    status, peak, processor = measured.stdout.split()
    return Ended(int(status), b'', measured.stderr, float(processor)), seconds, int(peak)


def _streams():
    return {'stdin': subprocess.DEVNULL, 'stdout': subprocess.PIPE, 'stderr': subprocess.PIPE}


def _ended(process):
    try:
        out, err = process.communicate(timeout=TIME_LIMIT)
    except subprocess.TimeoutExpired:
        process.kill()
        process.communicate()
        raise AssertionError(f'still at work after {TIME_LIMIT} seconds')
    return Ended(process.returncode, out, err)
