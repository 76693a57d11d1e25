#!/usr/bin/env python3
"""`desync demo`, compared with figures that are computed here from the cutting of tests/formats.py."""

import sys

import formats
import program
from checks import Cases, expect, expect_ended, expect_equal, needs_program

MIB = 1 << 20
NAMES = ['bytes', 'chunks', 'distinct', 'kept', 'copied', 'seeded', 'fetched']


def image_of(number, size):
    """The bytes that a number makes: the top 8 bits of each state of a linear congruential generator modulo 2^64."""
    state, made = number, bytearray()
    for _ in range(size):
        state = (6364136223846793005 * state + 1442695040888963407) % (1 << 64)
        made.append(state >> 56)
    return bytes(made)


def seed_of(image):
    """The image with every bit flipped in up to 2^20 bytes from its middle on."""
    start = len(image) // 2
    end = min(start + MIB, len(image))
    return image[:start] + bytes(byte ^ 255 for byte in image[start:end]) + image[end:]


def chunks_of(image):
    """The name and the size of each chunk, in order."""
    return [(name, end - start) for start, end, name in formats.index_of(image).slices()]


def figures_of(number, size):
    image = image_of(number, size)
    chunks, seed = chunks_of(image), set(chunks_of(seed_of(image)))
    right = {chunk for chunk in chunks if formats.digest_of(bytes(chunk[1])) == chunk[0]}
    missing = set(chunks) - right
    kept = sum(chunk in right for chunk in chunks)
    seeded, fetched = len(missing & seed), len(missing - seed)
    return [size, len(chunks), len(set(chunks)), kept, len(chunks) - kept - seeded - fetched, seeded, fetched]


def text_of(figures):
    return ''.join(f'{name} {figure}\n' for name, figure in zip(NAMES, figures))


def examples(cases):
    for number, size, figures in [(7, 1, [1, 1, 1, 0, 0, 0, 1]), (7, 0, 7 * [0])]:
        with cases.case(f'demo {number} {size} prints the figures of the worked example') as folder:
            expect_ended(program.run(['demo', str(number), str(size)], folder), out=text_of(figures))


def reckoned(cases):
    for number, size in [(0, 1), (7, 2), ((1 << 64) - 1, 16384), (1, 100000), (7, 700000), (3, MIB + 5)]:
        with cases.case(f'demo {number} {size} prints what is reckoned here') as folder:
            expect_ended(program.run(['demo', str(number), str(size)], folder), out=text_of(figures_of(number, size)))


def large(cases):
    with cases.case('demo 7 4194304 prints the same with one worker and with ten, and its figures add up') as folder:
        ended = program.run(['demo', '7', '4194304', '-n', '1'], folder)
        lines = [line.split() for line in ended.out.decode().splitlines()]
        expect_equal([name for name, _ in lines], NAMES, 'the names of the figures')
        figures = {name: int(figure) for name, figure in lines}
        expect_equal(figures['bytes'], 4194304, 'the bytes')
        expect(figures['fetched'] >= 1, f'the store gave {figures["fetched"]}')
        expect_equal(figures['kept'] + figures['copied'] + figures['seeded'] + figures['fetched'], figures['chunks'],
                     'the sum')
        again = program.run(['demo', '7', '4194304', '-n', '10'], folder)
        expect_equal((again.status, again.out), (ended.status, ended.out), 'the run with ten workers')
        expect_equal(ended.status, 0, 'the status')


def several_workers(cases):
    for count in (1, 2, 10, 32):
        with cases.case(f'demo 7 700000 with {count} workers prints what is reckoned here') as folder:
            ended = program.run(['demo', '-n', str(count), '7', '700000'], folder)
            expect_ended(ended, out=text_of(figures_of(7, 700000)))


def other_digest(cases):
    for number, size in [(7, 0), (7, 1), (7, 700000)]:
        with cases.case(f'demo {number} {size} prints the same figures by SHA-256') as folder:
            ended = program.run(['demo', '--digest', 'sha256', str(number), str(size)], folder)
            expect_ended(ended, out=text_of(figures_of(number, size)))


def main():
    needs_program('demo')
    cases = Cases('demo')
    for group in (examples, reckoned, large, several_workers, other_digest):
        group(cases)
    return cases.end()


if __name__ == '__main__':
    sys.exit(main())
