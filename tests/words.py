#!/usr/bin/env python3
"""The words of the command line, compared with a second reading of docs/FORMATS.md.

The tables of options and commands stand here once more, taken from the document and not from the program. Command lines
are built from them: each option once too often, each spelling, and random words. The program runs in an empty folder,
so words that are taken end with a name that isn't there, with sizes that no image is cut by, or done (`demo`). Each
error line is compared, and nothing is ever written.
"""

import os
import random
import re
import sys
from collections import Counter

import program
from checks import Cases, expect, expect_ended, expect_equal, needs_program

# An option's two spellings and what its value is, where it has one.
OPTIONS = [('store', ['-s', '--store'], 'location'), ('sizes', ['-m', '--chunk-size'], 'sizes'),
           ('workers', ['-n', '--concurrency'], 'workers'), ('cache', ['-c', '--cache'], 'folder'),
           ('in place', ['-k', '--in-place'], None), ('seed', ['--seed'], 'seed'),
           ('repair', ['-r', '--repair'], None), ('yes', ['-y', '--yes'], None),
           ('listen', ['-l', '--listen'], 'address'), ('writable', ['-w', '--writeable'], None),
           ('digest', ['--digest'], 'digest'), ('offset', ['-o', '--offset'], 'bytes'),
           ('length', ['-l', '--length'], 'bytes'), ('retries', ['-e', '--error-retry'], 'retries')]
SPELLINGS = sorted({spelling for _, spellings, _ in OPTIONS for spelling in spellings})
SPELLED = {option: spellings for option, spellings, _ in OPTIONS}
VALUES = {option: value for option, _, value in OPTIONS if value}

# The greatest SIZE of `demo`, which would take minutes, so such words are read and not run.
LARGE = '536870912'

# A command's options with the least and the greatest number of times, and its operands alike.
N = {'workers': (0, 1)}
D = {'digest': (0, 1)}
E = {'retries': (0, 1)}
COMMANDS = {
    'make': ({'store': (1, 1), 'sizes': (0, 1), **N, **D}, (2, 2)),
    'extract': ({'store': (1, 16), **E, 'seed': (0, 64), 'cache': (0, 1), 'in place': (0, 1), **N}, (2, 2)),
    'cat': ({'store': (1, 16), **E, 'offset': (0, 1), 'length': (0, 1)}, (1, 1)),
    'verify-index': (N, (2, 2)),
    'chop': ({'store': (1, 1), **N}, (2, 2)),
    'cache': ({'store': (1, 16), **E, 'cache': (1, 1), **N}, (1, 64)),
    'list-chunks': ({}, (1, 1)),
    'info': ({'store': (0, 16), **E}, (1, 1)),
    'verify': ({'store': (1, 1), 'repair': (0, 1), **N, **D}, (0, 0)),
    'prune': ({'store': (1, 1), 'yes': (1, 1)}, (1, 64)),
    'chunk-server': ({'store': (1, 16), **E, 'cache': (0, 1), 'listen': (1, 1), 'writable': (0, 1), **N, **D}, (0, 0)),
    'index-server': ({'store': (1, 1), 'listen': (1, 1), 'writable': (0, 1)}, (0, 0)),
    'demo': ({**N, **D}, (2, 2)),
}
FOLDERS_ALONE = ('verify', 'prune', 'index-server')

# How many of a command's operands are an INDEX, from the first on.
INDEXES = {'make': 1, 'extract': 1, 'cat': 1, 'verify-index': 1, 'chop': 1, 'cache': 64, 'list-chunks': 1, 'info': 1,
           'prune': 64}

# Names with `://` that no index has, and those that one may have.
BAD_INDEXES = ['http://h', 'http://h/', 'https://h/a.caibx', 'http://u@h/a.caibx', 'http://u:p@h/a.caibx',
               'http://h/a.caibx?q', 'http://h/a.caibx?', 'http://h/a.caibx#f', 'http://h:x/a.caibx', 'a://', '://']
INDEX_URLS = ['http://h/a.caibx', 'http://localhost:8080/a/b/', 'http://h/|']

# Locations, and what each is.
LOCATIONS = {'st': 'folder', 'a b': 'folder', '-s': 'folder', '--': 'folder', 'http:/h': 'folder', ':': 'folder',
             'http://localhost': 'url', 'http://localhost:8080/a/b/': 'url', 'http://127.0.0.1/': 'url',
             'http://h/': 'url', 'https://h/': 'bad', 'ftp://h/': 'bad', 'http://u@h/': 'bad', 'http://u:p@h/': 'bad',
             'http://h/?q': 'bad', 'http://h/#f': 'bad', 'http://h:x/': 'bad', 'http://': 'bad', '://': 'bad',
             'a|b': 'bad', 'http://h/|': 'bad'}

# Groups of locations, where the command takes them; others find them bad.
GROUPS = ['a|b', 'st|http://localhost|a b', 'x|', '|', 'a||b', 'a|https://h/', 'https://h/|', '|'.join('abcdefgh'),
          '|'.join('abcdefghijklmnop'), '|'.join('abcdefghijklmnopq')]


# The second reading

def number(word, least, most):
    return re.fullmatch('0|[1-9][0-9]*', word) is not None and least <= int(word) <= most


def location(word):
    """What a location is: one of the list, or a word that isn't read as a URL."""
    if '|' in word:
        return 'bad'
    if word not in LOCATIONS:
        expect('://' not in word, f'{word} isn\'t on the list')
        return 'folder'
    return LOCATIONS[word]


def takes_groups(command):
    return 'retries' in COMMANDS[command][0]


def parts_of(command, word):
    """The locations of a value of -s."""
    return word.split('|') if takes_groups(command) else [word]


def why_not_locations(command, before, word):
    """Why the word can't be a value of -s, where so many locations stand before it."""
    parts = parts_of(command, word)
    if takes_groups(command) and before + len(parts) > 16:
        return 'TooMany'
    if '' in parts:
        return 'Empty'
    kinds = [location(part) for part in parts]
    if 'bad' in kinds:
        return 'BadLocation'
    return 'NeedsFolder' if command in FOLDERS_ALONE and 'url' in kinds else None


def why_not_value(said, option, word):
    """Why the word can't be the option's value, by the first reason of the document."""
    kind = VALUES[option]
    if kind == 'location':
        return why_not_locations(said.command, len(said.stores()), word)
    if kind in ('folder', 'seed') and word == '':
        return 'Empty'
    if kind == 'workers':
        return None if number(word, 1, 32) else 'BadNumber'
    if kind == 'retries':
        return None if number(word, 0, 16) else 'BadNumber'
    if kind == 'sizes':
        parts = word.split(':')
        return None if len(parts) == 3 and all(number(part, 0, 9_999_999) for part in parts) else 'BadSizes'
    if kind == 'seed':
        return None if word.endswith('.caibx') and word != '.caibx' and '://' not in word else 'BadSeed'
    if kind == 'address':
        host, colon, port = word.rpartition(':')
        return None if colon and number(port, 1, 65535) else 'BadListen'
    if kind == 'digest':
        return None if word in ('sha512-256', 'sha256') else 'BadDigest'
    if kind == 'bytes':
        return None if number(word, 0, (1 << 64) - 1) else 'BadNumber'
    return None


def why_not_operand(command, before, most, word):
    if command == 'demo' and before == most:
        return 'Operands'
    if word == '':
        return 'Empty'
    if before == most:
        return 'Operands'
    if command == 'demo' and not number(word, 0, ((1 << 64) - 1, 1 << 29)[before]):
        return 'BadNumber'
    if before < INDEXES.get(command, 0) and '://' in word and not (command != 'make' and is_index_url(word)):
        return 'BadLocation'
    return None


def is_index_url(word):
    """Whether the word, which has `://`, is the URL of an index. A location that is on neither list of names is bad, or
    has no path."""
    no_index = [*BAD_INDEXES, 'http://localhost', 'http://127.0.0.1/']
    expect(word in no_index + INDEX_URLS or location(word) == 'bad', f'{word} isn\'t on the list')
    return word in INDEX_URLS


def option_of(command, word):
    """The first option that is spelled so and that the command takes, or none."""
    return next((option for option, spellings, _ in OPTIONS if word in spellings and option in COMMANDS[command][0]),
                None)


class Faulty(Exception):
    """Words that aren't taken: the place at which that shows, and why."""


class Said:
    """What words say that are taken: the command, the values of each option in order, and the operands."""

    def __init__(self, command):
        self.command = command
        self.given = {option: [] for option in SPELLED}
        self.places = []  # of each option, in order, with the option
        self.operands = []

    def stores(self):
        """The stores of all groups."""
        return [part for word in self.given['store'] for part in parts_of(self.command, word)]


def read(words):
    """What the words after a command say, or Faulty."""
    said = Said(words[0])
    takes, (least, most) = COMMANDS[said.command]
    ended = False
    rest = iter(enumerate(words[1:], 1))
    for place, word in rest:
        if not ended and word == '--':
            ended = True
        elif not ended and word.startswith('-'):
            option = option_of(said.command, word)
            if option is None:
                raise Faulty(place, 'UnknownOption')
            if len(said.given[option]) == takes[option][1]:
                raise Faulty(place, 'TooMany')
            said.places.append((place, option))
            value = None
            if option in VALUES:
                place, value = next(rest, (None, None))
                if place is None:
                    raise Faulty(len(words), 'NoValue')
                why = why_not_value(said, option, value)
                if why:
                    raise Faulty(place, why)
            said.given[option].append(value)
        else:
            why = why_not_operand(said.command, len(said.operands), most, word)
            if why:
                raise Faulty(place, why)
            said.operands.append(word)
    if said.command == 'chunk-server' and not said.given['cache']:
        needs_one_folder(said)
    for missing, why in ((('store', 'cache', 'listen'), 'MissingOption'), (('yes',), 'NeedsYes')):
        if any(len(said.given[option]) < takes.get(option, (0, 0))[0] for option in missing):
            raise Faulty(len(words), why)
    if len(said.operands) < least:
        raise Faulty(len(words), 'Operands')
    if said.command == 'chunk-server' and said.given['cache'] and said.given['writable']:
        raise Faulty(len(words), 'ReadOnly')
    return said


def needs_one_folder(said):
    """Faulty where the words of a server without a cache name more than one folder."""
    stores = [place for place, option in said.places if option == 'store']
    surplus = stores[1:] + [place for place, option in said.places if option == 'retries']
    if surplus:
        raise Faulty(min(surplus), 'TooMany')
    if stores and [location(part) for part in said.stores()] != ['folder']:
        raise Faulty(stores[0] + 1, 'NeedsFolder')


def why_not_sizes(value):
    """Why no image is cut by these sizes in KiB, by the first rule that they break."""
    least, average, greatest = (1024 * int(part) for part in value.split(':'))
    if least < 48:
        return 'MinTooSmall'
    if not least <= average <= greatest:
        return 'Order'
    if average > 4 << 20:
        return 'AvgTooLarge'
    return 'MaxTooLarge' if greatest > 64 << 20 else None


def text_of(said):
    """The text in a folder that holds nothing."""
    if said.command == 'make':
        whys = [why_not_sizes(value) for value in said.given['sizes']]
        if any(whys):
            return f'bad chunk sizes: {whys[0]}'
    if said.command == 'demo':
        return ''
    if said.command in ('cache', 'verify', 'chunk-server', 'index-server'):
        folders = [store for store in said.stores() if location(store) != 'url'] + said.given['cache']
        return f'{folders[0]}: no such folder'
    absent = said.operands[1 if said.command == 'make' else 0]
    return f'{absent}: no such file'


def refusal_of(words):
    """The text of the words, and why they aren't taken: `word PLACE: REASON`, or if they are taken, the text of a run
    in an empty folder and `taken`."""
    try:
        if not words:
            raise Faulty(0, 'NoCommand')
        if words[0] not in COMMANDS:
            raise Faulty(0, 'UnknownCommand')
        return text_of(read(words)), 'taken'
    except Faulty as faulty:
        place, why = faulty.args
        return f'word {place}: {why}', why


# Cases

def agrees(words, folder):
    """Runs the words, and compares the line with the second reading; says why they aren't taken, or `taken`."""
    text, why = refusal_of(words)
    if words[:1] == ['demo'] and why == 'taken' and LARGE in words:
        return why
    # A server would be asked for an index.
    if words[:1] != ['make'] and why == 'taken' and any(url in words for url in INDEX_URLS):
        return why
    ended = program.run(words, folder)
    if words[1:] == ['--help'] and words[0] in COMMANDS:
        text, why = '', 'taken'
        expect(ended.out.startswith(b'usage: desync '), f'{words} print {ended.out!r}')
        ended.out = b''
    elif words[:1] == ['demo'] and why == 'taken':
        expect(ended.out.startswith(b'bytes '), f'{words} print {ended.out!r}')
        ended.out = b''
    expect_ended(ended, text, what=words)
    expect_equal(os.listdir(folder), [], f'the folder after {words}')
    return why


GOOD = {'location': 'st', 'sizes': '16:64:256', 'workers': '4', 'folder': 'near', 'seed': 'old.caibx',
        'address': 'localhost:8080', 'digest': 'sha256', 'bytes': '7', 'retries': '3'}


# What `chunk-server` has where it takes several stores.
BESIDE_CACHE = ['-c', 'near']


def fewest(command, but=()):
    """The fewest words of a command that are taken, but for some of its options; its operands come last."""
    takes, (least, _) = COMMANDS[command]
    words = [command]
    for option, (times, _) in takes.items():
        if option not in but:
            words += times * ([SPELLED[option][0]] + ([GOOD[VALUES[option]]] if option in VALUES else []))
    return words, least * ['7']


def tables(cases):
    """Each command with each option: in each spelling, as often as it may stand, and once more."""
    for command, (takes, (least, most)) in COMMANDS.items():
        with cases.case(f'{command}: how often its options and operands may stand') as folder:
            whole = fewest(command)
            expect_equal(agrees(whole[0] + whole[1], folder), 'taken', 'the fewest words')
            for option, spellings in SPELLED.items():
                value = [GOOD[VALUES[option]]] if option in VALUES else []
                front, operands = fewest(command, but=[option])
                if command == 'chunk-server' and option in ('store', 'retries'):
                    front += BESIDE_CACHE
                least_times, times = takes.get(option, (0, 0))
                for spelling in spellings:
                    if option_of(command, spelling) not in (None, option):
                        continue
                    words = front + times * [spelling, *value] + operands
                    expect_equal(agrees(words, folder), 'taken', f'{times} times {spelling}')
                    wanted = 'TooMany' if times else 'UnknownOption'
                    expect_equal(agrees(front + (times + 1) * [spelling, *value] + operands, folder), wanted, spelling)
                if least_times:
                    agrees(front + operands, folder)
            expect_equal(agrees(whole[0] + most * ['7'], folder), 'taken', 'the most operands')
            expect_equal(agrees(whole[0] + (most + 1) * ['7'], folder), 'Operands', 'an operand too many')
            wanted = 'Operands' if command == 'demo' else 'Empty'
            expect_equal(agrees(whole[0] + most * ['7'] + [''], folder), wanted, 'an empty operand too many')
            if least:
                expect_equal(agrees(whole[0] + (least - 1) * ['7'], folder), 'Operands', 'an operand too few')


def random_value(chance, option):
    kind = VALUES[option]
    if kind == 'location':
        return chance.choice([*LOCATIONS, '', *GROUPS])
    if kind == 'sizes':
        part = ['0', '1', '16', '64', '256', '9999999', '10000000', '01', '', '-1', ' 1', 'x']
        count = chance.choice([3] * 8 + [1, 2, 4])
        return ':'.join(chance.choice(part[:6] if chance.random() < .7 else part) for _ in range(count))
    if kind == 'workers':
        return chance.choice(['1', '32', '10', '0', '33', '01', '', '+1', '4294967297', 'x', '1 ', '--', '٣'])
    if kind == 'retries':
        return chance.choice(['0', '1', '16', '17', '01', '', '-1', '+1', 'x', '٣'])
    if kind == 'seed':
        return chance.choice(['a.caibx', 'x/y.caibx', '-.caibx', '.caibx', '', 'a.caibx ', 'a.CAIBX', 'a',
                              'http://h/a.caibx'])
    if kind == 'address':
        return chance.choice(['h:1', ':65535', '::1:80', 'h:0', 'h:65536', 'h', '', ':', 'h:080', 'h:1x', '-l:5'])
    if kind == 'digest':
        return chance.choice(['sha512-256', 'sha512/256', 'sha512', 'SHA256', 'sha-256', 'sha256 ', 'md5', '', '--'])
    if kind == 'bytes':
        return chance.choice(['0', '7', '18446744073709551615', '18446744073709551616', '', '07', '+1', '-1', '--'])
    return chance.choice(['near', '', '--', '-c', '/a'])


def random_words(chance):
    """Words of a random command, most of which it takes, in a random order."""
    command = chance.choice(list(COMMANDS))
    takes, (least, most) = COMMANDS[command]
    parts = []
    for option, (fewest_times, times) in takes.items():
        for _ in range(chance.choice([fewest_times] * 4 + [min(times, 2)] * 2 + [0, min(times, 16), times + 1])):
            good = chance.random() < .8
            value = ([GOOD[VALUES[option]] if good else random_value(chance, option)] if option in VALUES else [])
            parts.append([chance.choice(SPELLED[option]), *value])
    for _ in range(chance.choice([least] * 6 + [min(most, 3), 0, least + 1])):
        parts.append([chance.choice(['7', '0', 'a', 'a.caibx', '18446744073709551615', LARGE] if chance.random() < .9
                                    else ['', '07', '18446744073709551616', '536870913', '٣', *BAD_INDEXES[:4]])])
    if chance.random() < .15:
        parts.append([chance.choice(SPELLINGS)])
    if chance.random() < .1:
        parts.append([chance.choice(['-', '--help', '-x', '--stor', '-S', '--store=st', '-sst', '--', 'é'])])
    chance.shuffle(parts)
    if chance.random() < .15:
        parts.insert(chance.randint(0, len(parts)), ['--'])
    words = [command] + [word for part in parts for word in part]
    if chance.random() < .05:
        del words[chance.randrange(len(words))]
    if chance.random() < .1:
        words.append(chance.choice(SPELLED[chance.choice(list(VALUES))]))
    return words


def places_of_indexes(cases):
    """Each command with an INDEX that no index has as its first operand, and as its last."""
    for command, indexes in INDEXES.items():
        with cases.case(f'{command}: which INDEX has no place') as folder:
            front, operands = fewest(command)
            for word in BAD_INDEXES:
                expect_equal(agrees([*front, word, *operands[1:]], folder), 'BadLocation', word)
                wanted = 'BadLocation' if len(operands) <= indexes else 'taken'
                expect_equal(agrees([*front, *operands[:-1], word], folder), wanted, word)


def groups(cases):
    """Each command with each group of locations, alone and behind others."""
    for command, (takes, _) in COMMANDS.items():
        if 'store' in takes:
            with cases.case(f'{command}: which groups of locations are taken') as folder:
                front, operands = fewest(command, but=['store'])
                for front in [front] + [front + BESIDE_CACHE] * (command == 'chunk-server'):
                    for word in GROUPS:
                        agrees([*front, '-s', word, *operands], folder)
                        agrees([*front, '-s', 'a|b|c|d|e|f|g', '-s', word, *operands], folder)


def at_random(cases):
    told = Counter()
    for round_number in range(40):
        with cases.case(f'random words, round {round_number}') as folder:
            chance = random.Random(f'words {round_number}')
            for _ in range(100):
                told[agrees(random_words(chance), folder)] += 1
    with cases.case('the random words had each fault, and some were taken'):
        for why in ('taken', 'UnknownOption', 'TooMany', 'NoValue', 'Empty', 'BadNumber', 'BadSizes', 'BadLocation',
                    'NeedsFolder', 'BadSeed', 'BadListen', 'BadDigest', 'MissingOption', 'NeedsYes', 'Operands',
                    'ReadOnly'):
            expect(told[why] > 4, f'{why} came {told[why]} times')


def main():
    needs_program('words')
    cases = Cases('words')
    for run in (tables, places_of_indexes, groups, at_random):
        run(cases)
    return cases.end()


if __name__ == '__main__':
    sys.exit(main())
