#!/usr/bin/env python3
"""The transcript of crates/format_cases: what its program must print of the script in `stdin`.

    tests/tables.py            compares crates/format_cases/stdout with what is worked out here
    tests/tables.py --write    writes it

Indexes are read by tests/formats.py, and requests answered by tests/replies.py, which share no code with the program.
Why a reply is refused stands here by hand, from the table of docs/FORMATS.md; that it is, tests/replies.py says.
"""

import os
import re
import sys

import formats
import program
from replies import ABC, FAILED, LONGER, MISSING, PATH, replies_to, reply_given

FOLDER = os.path.join(program.TOP, 'crates', 'format_cases')
# The numbers that the faults of an index carry.
NUMBERS = {'Truncated': ['at'], 'MaxSize': ['max'], 'Order': ['entry'], 'TooLarge': ['entry', 'size']}
# Why the reply of a case is refused.
WHY = {
    'no reply': 'Wire(CutShort)',
    'no head within 16384 bytes': 'Wire(HeadTooLong)',
    'no head within 16383 bytes': 'Wire(CutShort)',
    'a body that is shorter than its length': 'Wire(CutShort)',
    'two lengths': 'Wire(Framing)',
    'a length of 2^64 - 1': 'Wire(Framing)',
    'a coding that is not chunked': 'Wire(Framing)',
    'a chunk that does not end': 'Wire(BadChunk)',
    'a chunk whose size has 17 digits': 'Wire(BadChunk)',
    'a chunk whose extension is too long': 'Wire(BadChunk)',
    'a status without a body': 'Status(204)',
    'another place': 'Status(301)',
    '65 header lines': 'Wire(BadHead)',
    'each front of a reply by length is cut short': 'Wire(CutShort)',
    'each front of a reply by chunks is cut short': 'Wire(CutShort)',
}


def escaped(data):
    """Bytes as `escape_ascii` writes them."""
    named = {9: '\\t', 10: '\\n', 13: '\\r', 34: '\\"', 39: "\\'", 92: '\\\\'}
    return ''.join(named.get(byte) or (chr(byte) if 32 <= byte < 127 else f'\\x{byte:02x}') for byte in data)


def lines_of(data):
    """The lines of some bytes, each with its end where it has one."""
    return re.findall(rb'[^\n]*\n|[^\n]+', data)


def of_index(data):
    try:
        return f'Ok({len(formats.read_index(data).entries)})'
    except formats.BadIndex as bad:
        numbers = ', '.join(f'{name}: {number}' for name, number in zip(NUMBERS.get(bad.fault, ()), bad.numbers))
        return f'Err(Bad({bad.fault}{" { " + numbers + " }" if numbers else ""}))'


def of_reply(data, room, case):
    given = reply_given(data, 'GET', room)
    if given == FAILED:
        return f'Failed, Some({WHY[case]})'
    return {MISSING: 'Missing, None', LONGER: 'Longer, None'}[given] if isinstance(given, str) else escaped(given)


def of_requests(data):
    held = {PATH: ABC}
    for line in lines_of(replies_to(data, held, True)):
        yield f'replied: {escaped(line)}'
    yield 'ended: Closed'
    for path, piece in sorted(held.items()):
        yield f'{path[1:]} holds {escaped(piece)}'


def spoiled(data, at):
    return data[:at] + bytes([data[at] ^ 0xFF]) + data[at + 1:]


def told(case, data, word, rest):
    """What a line of the script prints."""
    if word == 'read':
        yield f'read: {of_index(data)}'
    elif word == 'fronts':
        for end in range(len(data)):
            yield f'front of {end}: {of_index(data[:end])}'
    elif word == 'spoiled':
        for at in range(len(data)):
            yield f'byte {at} spoiled: {of_index(spoiled(data, at))}'
    elif word == 'get':
        yield f'get {rest}: {of_reply(data, int(rest), case)}'
    elif word == 'get-fronts':
        for end in range(len(data)):
            yield f'get {rest} of a front of {end}: {of_reply(data[:end], int(rest), case)}'
    else:
        yield from of_requests(data)


def transcript(script):
    case, data = None, b''
    for line in script:
        word, _, rest = line.partition(' ')
        number, _, text = rest.partition(' ')
        if word == 'case':
            case, data = rest, b''
            yield ''
            yield line
        elif word == 'hex':
            data += bytes.fromhex(rest)
        elif word in ('text', 'line'):
            data += rest.encode() + b'\r\n' * (word == 'line')
        elif word in ('texts', 'lines'):
            data += (text.encode() + b'\r\n' * (word == 'lines')) * int(number)
        elif word and word[0] != '#':
            yield from told(case, data, word, rest)


def main():
    with open(os.path.join(FOLDER, 'stdin'), encoding='utf-8') as file:
        wanted = ''.join(line + '\n' for line in transcript(file.read().splitlines()))
    path = os.path.join(FOLDER, 'stdout')
    if sys.argv[1:] == ['--write']:
        with open(path, 'w', encoding='utf-8') as file:
            file.write(wanted)
        return 0
    with open(path, encoding='utf-8') as file:
        held = file.read()
    if held == wanted:
        print(f'tables: the {len(wanted.splitlines())} lines are as worked out')
        return 0
    for number, (line, other) in enumerate(zip(held.splitlines(), wanted.splitlines()), 1):
        if line != other:
            print(f'tables: line {number} is {line!r}, and was to be {other!r}')
            break
    else:
        print('tables: the transcript has other lines at its end')
    return 1


if __name__ == '__main__':
    sys.exit(main())
