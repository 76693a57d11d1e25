"""A program over crates of the repository that is no part of it: `rt` proves and builds it in a copy of these
crates."""

import os
import shutil
import subprocess

import program


class NotBuilt(Exception):
    """The program can't be built: the text says why."""


def crates_below(uses):
    """The lines of crates.txt of these crates and those that they stand on."""
    with open(os.path.join(program.TOP, 'crates.txt'), encoding='utf-8') as file:
        lines = {line.split(':')[0]: line for line in file if ':' in line and not line.startswith('#')}
    found, waiting = {}, list(uses)
    while waiting:
        name = waiting.pop()
        if name in lines and name not in found:
            found[name] = lines[name]
            waiting += lines[name].split(':')[1].split()
    return found


def build(folder, crate, uses, files, words):
    """Writes these files of the program into a folder, beside a copy of the crates, runs it once with the words, and
    answers its path. The first time this takes minutes."""
    if shutil.which('rt') is None:
        raise NotBuilt('rt isn\'t there')
    below = crates_below(uses)
    with open(os.path.join(folder, 'crates.txt'), 'w', encoding='utf-8') as file:
        file.writelines([*below.values(), f'{crate}: {" ".join(uses)}\n'])
    shutil.copy(os.path.join(program.TOP, 'HANDLES'), folder)
    for name in below:
        shutil.copytree(os.path.join(program.TOP, 'crates', name), os.path.join(folder, 'crates', name),
                        ignore=shutil.ignore_patterns('must-fail', 'further-edits'))
    laid = os.path.join(folder, 'crates', crate)
    for path, text in files.items():
        full = os.path.join(laid, path)
        os.makedirs(os.path.dirname(full), exist_ok=True)
        with open(full, 'w', encoding='utf-8') as file:
            file.write(text)
    done = subprocess.run(['rt', 'run', '--', *words], cwd=laid, stdin=subprocess.DEVNULL, capture_output=True,
                          text=True)
    built = os.path.join(laid, 'out', crate)
    if not os.access(built, os.X_OK):
        raise NotBuilt(f'it isn\'t built:\n{done.stdout}{done.stderr}')
    return built
