#!/usr/bin/env python3
"""`./build` and `./install` over small repositories, with a stand-in for `rt` and nothing else on PATH but commands of
coreutils and flock: what is proved when, what is shown, and what is left behind. Nothing is proved.

As rt does, the stand-in locks the folder of the crate and of all crates below it in the tree where it runs, builds
each of them whose stamp isn't that of its sources, and keeps work in out/incremental. A crate takes as many seconds as
the file `seconds` in its folder says, fails where there is a file `fails`, and waits until the crates are begun that
the file `beside` names. What begins and ends is told in the file that EVENTS names.
"""

import fcntl
import os
import shutil
import signal
import subprocess
import sys
import time

import program
from checks import Cases, expect, expect_equal

STAND_IN = r"""#!/bin/bash
set -u
shopt -s globstar nullglob
name=${PWD##*/} crates=()
declare -A uses=() stamps=()
while IFS=: read -r crate words; do
    uses[$crate]=$words
done < ../../crates.txt

gather() {
    local it
    for it in ${uses[$1]}; do
        [[ -z ${uses[$it]+there} ]] || gather "$it"
    done
    [[ " ${crates[*]} " == *" $1 "* ]] || crates+=("$1")
}

stamp() {
    local file it
    stamps[$1]="$1:${uses[$1]}:"
    for file in ../"$1"/src/**; do
        [[ ! -f $file ]] || stamps[$1]+="$file=$(< "$file");"
    done
    for it in ${uses[$1]}; do
        stamps[$1]+="(${stamps[$it]:-})"
    done
}

prove() {
    local it number
    echo "begin $name $$ $*" >> "$EVENTS"
    [[ ! -d out/incremental ]] || echo "again $name" >> "$EVENTS"
    mkdir -p out/incremental
    if [[ -e beside ]]; then
        for it in $(< beside); do
            for ((number = 0; number < 250; number++)); do
                [[ $(< "$EVENTS") != *"begin $it "* ]] || continue 2
                sleep 0.02
            done
            echo "$name isn't proved beside $it"
            exit 4
        done
    fi
    if [[ -e seconds ]]; then
        sleep "$(< seconds)" &
        trap 'kill $!; wait $!; exit 143' INT TERM HUP
        echo "sleep $name $!" >> "$EVENTS"
        wait
    fi
    if [[ -e fails ]]; then
        echo "$PWD doesn't hold"
        exit 3
    fi
    echo "end $name $$" >> "$EVENTS"
}

gather "$name"
for folder in ../*/; do
    crate=${folder:3:-1}
    if [[ " ${crates[*]} " == *" $crate "* ]]; then
        exec {lock}< "$folder"
        flock "$lock"
    fi
done
for name in "${crates[@]}"; do
    cd "../$name"
    stamp "$name"
    if [[ ! -e src/lib.rt ]]; then
        prove "$@"
        printf '#!/bin/bash\n' > "out/$name"
        chmod +x "out/$name"
    elif [[ ! -e out/rlib/$name.rlib/format || $(< out/rlib/stamp) != "${stamps[$name]}" ]]; then
        rm -rf out/rlib
        mkdir -p "out/rlib/$name.rlib"
        prove "$@"
        echo "$name" > "out/rlib/$name.rlib/format"
        echo "${stamps[$name]}" > out/rlib/stamp
    fi
done
"""

COREUTILS = ('cat', 'chmod', 'cp', 'dirname', 'flock', 'mkdir', 'mktemp', 'mv', 'nproc', 'rm', 'sleep', 'wc')

# Two chains of three and one crate beside them, below the program; a crate that the program doesn't need; and `hex`,
# which is the kit's.
CRATES = {'low': [], 'mid': ['low', 'hex'], 'high': ['mid'], 'left': [], 'right': ['left'], 'wide': ['right', 'low'],
          'lone': [], 'desync_main': ['high', 'wide', 'lone'], 'unneeded': ['low']}
NEEDED = [name for name in CRATES if name != 'unneeded']


class Repository:
    """A repository in a folder, with the commands that its scripts have."""

    def __init__(self, folder, crates=None, seconds=None, sizes=None):
        self.top = os.path.join(folder, 'top')
        self.events = os.path.join(folder, 'events')
        self.temporary = os.path.join(folder, 'tmp')
        self.commands = os.path.join(folder, 'commands')
        crates = crates or CRATES
        for made in (self.top, self.temporary, self.commands):
            os.makedirs(made)
        for script in ('build', 'install'):
            shutil.copy(os.path.join(program.TOP, script), self.top)
        self.put('HANDLES', 'Handles allowed: none.\n')
        self.put('docs/desync.1', '.TH DESYNC 1\n')
        lines = ['# a comment: with a colon'] + [f'{name}: {" ".join(below)}' for name, below in crates.items()]
        self.put('crates.txt', '\n'.join(lines) + '\n')
        for name in crates:
            top = 'main' if name == 'desync_main' else 'lib'
            self.put(f'crates/{name}/src/{top}.rt', '/' * (sizes or {}).get(name, 10))
            if seconds:
                self.put(f'crates/{name}/seconds', str(seconds))
        for command in COREUTILS:
            os.symlink(shutil.which(command), os.path.join(self.commands, command))
        self.put('rt', STAND_IN, self.commands)
        os.chmod(os.path.join(self.commands, 'rt'), 0o755)

    def put(self, path, text, top=None):
        path = os.path.join(top or self.top, path)
        os.makedirs(os.path.dirname(path), exist_ok=True)
        with open(path, 'w', encoding='utf-8') as file:
            file.write(text)

    def has(self, path):
        return os.path.exists(os.path.join(self.top, path))

    def start(self, *words, lanes=None):
        """Starts a script of the repository in a process group of its own."""
        given = {'PATH': self.commands, 'EVENTS': self.events, 'TMPDIR': self.temporary}
        if lanes is not None:
            given['DESYNC_LANES'] = str(lanes)
        streams = {'stdin': subprocess.DEVNULL, 'stdout': subprocess.PIPE, 'stderr': subprocess.PIPE, 'text': True}
        return subprocess.Popen([os.path.join(self.top, words[0]), *words[1:]], cwd=os.path.dirname(self.top),
                                env=given, start_new_session=True, preexec_fn=heed_interrupts, **streams)

    def run(self, *words, lanes=None):
        """Runs a script, and answers its status, what it printed, and its error lines."""
        process = self.start(*words, lanes=lanes)
        out, err = process.communicate(timeout=60)
        return process.returncode, out, err

    def told(self, *kinds):
        """The events of these kinds, in order: the kind, the crate, the process, and the words."""
        with open(self.events, encoding='utf-8') as file:
            return [line.split() for line in file if line.split()[0] in kinds]

    def expect_nothing_left(self):
        """No process of the stand-in is there any more, and no temporary file."""
        for _, name, number, *_ in self.told('begin', 'sleep'):
            expect(not lives(int(number)), f'process {number} of {name} is still there')
        expect_equal(os.listdir(self.temporary), [], 'the temporary folder')


def heed_interrupts():
    """A script that was started in the background of another would ignore them, and so would all that it starts."""
    signal.signal(signal.SIGINT, signal.SIG_DFL)


def lives(number):
    try:
        with open(f'/proc/{number}/stat', encoding='utf-8') as file:
            return file.read().rsplit(')', 1)[1].split()[0] != 'Z'
    except FileNotFoundError:
        return False


def wait_for(holds, what):
    end = time.monotonic() + 30
    while not holds():
        expect(time.monotonic() < end, f'{what} hasn\'t come')
        time.sleep(0.01)


def proving(cases):
    with cases.case('each crate that the program needs is proved once, after those below it') as folder:
        made = Repository(folder, seconds=0.05)
        status, out, err = made.run('build', lanes=3)
        expect_equal((status, err), (0, ''), 'status and standard error')
        begun = {name: place for place, (kind, name, *_) in enumerate(made.told('begin', 'end')) if kind == 'begin'}
        ended = {name: place for place, (kind, name, *_) in enumerate(made.told('begin', 'end')) if kind == 'end'}
        expect_equal(sorted(name for _, name, *_ in made.told('begin')), sorted(NEEDED), 'what was proved')
        for name in NEEDED:
            for below in set(CRATES[name]) - {'hex'}:
                expect(ended[below] < begun[name], f'{name} was begun before {below} was proved')
        expect(made.has('bin/desync'), 'the program isn\'t there')
        left = [int(line.split()[-2]) for line in out.splitlines() if line.endswith(' left')]
        expect_equal(left, list(range(len(NEEDED) - 1, -1, -1)), 'how many crates are left, line by line')
        made.expect_nothing_left()

    with cases.case('crates that stand on the same crates are proved side by side') as folder:
        crates = {'base': [], 'low': ['base'], 'one': ['low'], 'two': ['low', 'base'], 'three': ['low'],
                  'desync_main': ['one', 'two', 'three']}
        made = Repository(folder, crates)
        for name in ('one', 'two', 'three'):
            made.put(f'crates/{name}/beside', 'one two three')
        status, _, err = made.run('build', lanes=3)
        expect_equal((status, err), (0, ''), 'status and standard error')
        made.expect_nothing_left()

    with cases.case('as many crates as there are lanes are at work, and no more') as folder:
        made = Repository(folder, seconds=0.2)
        made.run('build', lanes=2)
        at_work = most = 0
        for kind, *_ in made.told('begin', 'end'):
            at_work += 1 if kind == 'begin' else -1
            most = max(most, at_work)
        expect_equal(most, 2, 'the most that were at work')

    with cases.case('in one lane crates are proved one after the other, the longest chain first') as folder:
        made = Repository(folder, sizes={'high': 500, 'lone': 200, 'wide': 100})
        made.run('build', lanes=1)
        expect_equal([name for _, name, *_ in made.told('begin')],
                     ['low', 'mid', 'high', 'lone', 'left', 'right', 'wide', 'desync_main'], 'the order')
        expect_equal([kind for kind, *_ in made.told('begin', 'end')], ['begin', 'end'] * 8, 'what came when')

    with cases.case('a crate gets the lanes that no other can take, and two jobs where all wait for it') as folder:
        crates = {'alone': [], 'short': ['alone'], 'long': ['alone'], 'next': ['long'],
                  'desync_main': ['short', 'next']}
        for lanes, wanted in ((8, {'alone': '8', 'long': '4', 'short': '4', 'next': '4'}),
                              (2, {'alone': '2', 'long': '2', 'short': '1'}), (1, {'alone': '1', 'long': '1'})):
            made = Repository(os.path.join(folder, str(lanes)), crates, seconds=0.1)
            if lanes > 1:
                # It is still at work as the crate after the long one begins.
                made.put('crates/short/beside', 'next')
            made.run('build', lanes=lanes)
            given = {name: words for _, name, _, *words in made.told('begin')}
            for name, jobs in wanted.items():
                expect_equal(given[name], ['lib', '--jobs', jobs], f'what rt was given for {name} with {lanes} lanes')

    with cases.case('with nothing said there is a lane at least') as folder:
        status, _, err = Repository(folder).run('build')
        expect_equal((status, err), (0, ''), 'status and standard error')


def again(cases):
    with cases.case('a program that is newer than its sources stays') as folder:
        made = Repository(folder)
        made.run('build')
        os.remove(made.events)
        expect_equal(made.run('build'), (0, 'build: bin/desync is as new as its sources\n', ''), 'the second run')
        for name in ('out', 'must-fail', 'further-edits'):
            made.put(f'crates/low/{name}/new', '')
        made.run('build')
        expect(not os.path.exists(made.events), 'crates were proved once more')

    with cases.case('a source that is changed or removed, or a line of crates.txt, is built anew') as folder:
        made = Repository(folder)
        made.put('crates/low/src/inner/more.rt', '')
        for change in (lambda: made.put('crates/low/src/inner/more.rt', '//'),
                       lambda: os.remove(os.path.join(made.top, 'crates/low/src/inner/more.rt')),
                       lambda: made.put('crates/lone/stdin', 'x'),
                       lambda: made.put('crates.txt', 'desync_main: low\nlow:\n')):
            made.run('build')
            os.remove(made.events)
            time.sleep(0.02)
            change()
            made.run('build')
            expect(os.path.exists(made.events), 'no crate was proved')

    with cases.case('crates keep libraries and work, and a change proves its crate and those above it alone') as folder:
        made = Repository(folder)
        made.run('build')
        for name in set(NEEDED) - {'desync_main'}:
            kept = sorted(os.listdir(os.path.join(made.top, 'crates', name, 'out')))
            expect_equal(kept, ['incremental', 'rlib'], f'what {name} has kept')
            kept = set(os.listdir(os.path.join(made.top, 'crates', name, 'out', 'rlib')))
            expect_equal(kept, {f'{name}.rlib', 'stamp'}, f'the library of {name}')
        os.remove(made.events)
        made.put('crates/right/src/lib.rt', 'another')
        status, _, err = made.run('build')
        expect_equal((status, err), (0, ''), 'status and standard error')
        for kind in ('begin', 'again'):
            expect_equal([name for _, name, *_ in made.told(kind)], ['right', 'wide', 'desync_main'], kind)

    with cases.case('libraries are copied where they can\'t be linked') as folder:
        made = Repository(folder)
        os.remove(os.path.join(made.commands, 'cp'))
        made.put('cp', f'#!/bin/bash\n[[ $1 != -al ]] || exit 1\nexec {shutil.which("cp")} "$@"\n', made.commands)
        os.chmod(os.path.join(made.commands, 'cp'), 0o755)
        for change in ('first', 'second'):
            made.put('crates/right/src/lib.rt', change)
            status, _, err = made.run('build')
            expect_equal((status, err), (0, ''), 'status and standard error')
        proved = sorted(name for _, name, *_ in made.told('begin'))
        expect_equal(proved, sorted([*NEEDED, 'right', 'wide', 'desync_main']), 'what was proved')

    with cases.case('a source that changes while its crate is proved is proved once more') as folder:
        made = Repository(folder)
        made.put('crates/low/seconds', '30')
        process = made.start('build', lanes=1)
        wait_for(lambda: os.path.exists(made.events) and made.told('sleep'), 'the first crate')
        made.put('crates/low/src/lib.rt', 'another')
        made.put('crates/low/seconds', '0')
        os.kill(int(made.told('sleep')[0][2]), signal.SIGTERM)
        _, err = process.communicate(timeout=60)
        expect_equal((process.returncode, err), (0, ''), 'status and standard error')
        with open(os.path.join(made.top, 'crates', 'low', 'out', 'rlib', 'stamp'), encoding='utf-8') as file:
            expect('another' in file.read(), 'the library of the older source stayed')

    with cases.case('a program that rt has left is copied') as folder:
        made = Repository(folder)
        made.run('build')
        shutil.rmtree(os.path.join(made.top, 'bin'))
        os.remove(made.events)
        status, out, _ = made.run('build')
        expect(status == 0 and 'copying' in out and made.has('bin/desync'), f'status {status}: {out}')
        expect(not os.path.exists(made.events), 'crates were proved once more')


def refusals(cases):
    with cases.case('the first crate that fails ends all, and what rt wrote is shown') as folder:
        made = Repository(folder, seconds=30)
        made.put('crates/left/seconds', '0.1')
        made.put('crates/left/fails', '')
        status, out, err = made.run('build', lanes=3)
        wanted = 'crates/left doesn\'t hold\nbuild: FAILED at left, with status 3\n'
        expect_equal((status, err), (1, wanted), 'how it ended')
        expect_equal(sorted(name for _, name, *_ in made.told('begin')), ['left', 'lone', 'low'], 'what was begun')
        expect('left' not in out, f'left is told as proved: {out}')
        expect(not made.has('bin'), 'there is a program')
        made.expect_nothing_left()

    with cases.case('a failed program leaves the older one as it was') as folder:
        made = Repository(folder)
        made.put('bin/desync', 'older')
        made.put('crates/desync_main/fails', '')
        status, _, err = made.run('build')
        expect(status == 1 and 'FAILED at desync_main' in err, f'status {status}: {err}')
        with open(os.path.join(made.top, 'bin', 'desync'), encoding='utf-8') as file:
            expect_equal(file.read(), 'older', 'the program')

    with cases.case('an rt that is killed is a failure') as folder:
        made = Repository(folder, seconds=30)
        process = made.start('build', lanes=3)
        wait_for(lambda: os.path.exists(made.events) and len(made.told('sleep')) == 3, 'the third crate')
        _, name, number, *_ = made.told('begin')[0]
        os.kill(int(number), signal.SIGKILL)
        _, err = process.communicate(timeout=60)
        expect_equal(process.returncode, 1, 'the status')
        expect(f'build: FAILED at {name}, with status 137\n' in err, f'it printed: {err}')
        for _, name, number in made.told('sleep'):
            # The stand-in's own child outlives it where it is killed.
            if lives(int(number)):
                os.kill(int(number), signal.SIGKILL)

    for what, crates, wanted in (
            ('crates that stand on each other', {'low': ['high'], 'high': ['low'], 'desync_main': ['low']},
             'build: crates.txt has a circle: '),
            ('a crate that stands on itself', {'desync_main': ['desync_main']}, 'build: crates.txt has a circle: ')):
        with cases.case(f'{what} are told') as folder:
            status, _, err = Repository(folder, crates).run('build')
            expect(status == 1 and err.startswith(wanted), f'status {status}: {err}')

    for lanes in ('0', '-1', 'two', '1 2', '100'):
        with cases.case(f'{lanes} lanes are refused') as folder:
            made = Repository(folder)
            wanted = f'build: DESYNC_LANES is {lanes}, and not 1 to 99\n'
            expect_equal(made.run('build', lanes=lanes), (1, '', wanted), 'the run')
            expect(not os.path.exists(made.events), 'a crate was begun')

    with cases.case('a missing rt is told') as folder:
        made = Repository(folder)
        os.remove(os.path.join(made.commands, 'rt'))
        wanted = 'build: rt, the command of the Rattle kit, is not on PATH\n'
        expect_equal(made.run('build'), (1, '', wanted), 'the run')


def interruptions(cases):
    for number, to_all in ((signal.SIGINT, True), (signal.SIGINT, False), (signal.SIGTERM, True),
                           (signal.SIGTERM, False), (signal.SIGHUP, False)):
        with cases.case(f'{number.name} to {"the whole group" if to_all else "the script"} ends all') as folder:
            made = Repository(folder, seconds=30)
            process = made.start('build', lanes=3)
            wait_for(lambda: os.path.exists(made.events) and len(made.told('sleep')) == 3, 'the third crate')
            (os.killpg if to_all else os.kill)(process.pid, number)
            _, err = process.communicate(timeout=60)
            expect_equal((process.returncode, err), (128 + number, ''), 'status and standard error')
            expect(not made.has('bin'), 'there is a program')
            made.expect_nothing_left()

    with cases.case('an interrupted build goes on where it was') as folder:
        made = Repository(folder)
        made.put('crates/mid/seconds', '30')
        process = made.start('build', lanes=2)
        done = {'low', 'lone', 'left', 'right', 'wide'}
        wait_for(lambda: all(made.has(f'crates/{name}/out/rlib/stamp') for name in done) and made.told('sleep'),
                 'the crates beside mid')
        process.terminate()
        process.communicate(timeout=60)
        made.expect_nothing_left()
        os.remove(made.events)
        made.put('crates/mid/seconds', '0')
        status, out, err = made.run('build', lanes=2)
        expect_equal((status, err), (0, ''), 'status and standard error')
        expect_equal([name for _, name, *_ in made.told('begin')], ['mid', 'high', 'desync_main'], 'what was proved')
        expect_equal([name for _, name in made.told('again')], ['mid'], 'what was begun with kept work')

    with cases.case('a crate in which rt works is waited for') as folder:
        made = Repository(folder)
        process, held = None, os.open(os.path.join(made.top, 'crates', 'low'), os.O_RDONLY)
        fcntl.flock(held, fcntl.LOCK_EX)
        for is_ended in (True, False):
            process = made.start('build', lanes=2)
            wait_for(lambda: os.path.exists(made.events) and made.told('begin'), 'the first crate')
            if is_ended:
                process.terminate()
                process.communicate(timeout=60)
                expect_equal(process.returncode, 143, 'the status')
                made.expect_nothing_left()
        time.sleep(0.2)
        expect('low' not in {name for _, name, *_ in made.told('begin')}, 'low was begun')
        os.close(held)
        _, err = process.communicate(timeout=60)
        expect_equal((process.returncode, err), (0, ''), 'status and standard error')


def installing(cases):
    with cases.case('install builds the program and copies it and the manual page') as folder:
        made = Repository(folder)
        prefix = os.path.join(folder, 'a prefix')
        status, _, err = made.run('install', prefix)
        expect_equal((status, err), (0, ''), 'status and standard error')
        for path, source, rights in (('bin/desync', 'bin/desync', 0o755),
                                     ('share/man/man1/desync.1', 'docs/desync.1', 0o644)):
            copy = os.path.join(prefix, path)
            with open(copy, 'rb') as file, open(os.path.join(made.top, source), 'rb') as wanted:
                expect_equal(file.read(), wanted.read(), path)
            expect_equal(os.stat(copy).st_mode & 0o777, rights, f'the rights of {path}')

    with cases.case('install reads a prefix from the folder that it is called in') as folder:
        made = Repository(folder)
        # The second run replaces what the first has installed.
        for _ in range(2):
            status, _, err = made.run('install', 'there')
            expect_equal((status, err), (0, ''), 'status and standard error')
        expect_equal(os.listdir(os.path.join(folder, 'there', 'bin')), ['desync'], 'the folder')

    for words in ((), ('',), ('a', 'b'), ('--help',)):
        with cases.case(f'install with {list(words)} tells how it is called') as folder:
            made = Repository(folder)
            status, out, err = made.run('install', *words)
            expect_equal((status, out, err.split('\n')[0]), (2, '', 'usage: ./install PREFIX'), 'status and lines')
            expect(not os.path.exists(made.events), 'a crate was begun')

    with cases.case('install leaves nothing where the program can\'t be built') as folder:
        made = Repository(folder)
        made.put('crates/low/fails', '')
        status, _, _ = made.run('install', os.path.join(folder, 'prefix'))
        expect_equal(status, 1, 'the status')
        expect(not os.path.exists(os.path.join(folder, 'prefix')), 'the prefix is there')


def main():
    cases = Cases('building')
    for group in (proving, again, refusals, interruptions, installing):
        group(cases)
    return cases.end()


if __name__ == '__main__':
    sys.exit(main())
