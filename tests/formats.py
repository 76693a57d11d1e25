#!/usr/bin/env python3
"""Index files, cutting and folder stores, read and written a second time, and what is told of them.

This module shares nothing with the program but the text of docs/FORMATS.md. The scripts of tests/ and
bench/ compare the program with it, and put their indexes together here. Offsets, sizes and lengths are
bytes; ends are exclusive; entries and stores are numbered from 0. A text is that of an error line, without
`desync: ` before it, and empty where there is none. Standard library alone.

As a program it cuts an image by the default sizes and writes its index and its chunks:

    python3 tests/formats.py STORE INDEX IMAGE
"""

import array
import hashlib
import os
import struct
import subprocess
import sys

HEAD_SIZE = 48
INDEX_TYPE = 0x96824D9C7B129FF9
TABLE_UNKNOWN_SIZE = 0xFFFFFFFFFFFFFFFF
TABLE_TYPE = 0xE75B9E112F17417D
TAIL_MARKER = 0x4B4F050E5549ECD1
SHA512_256_FLAG = 0x2000000000000000
WRITTEN_FLAGS = 0xA000000000000000
SHA256_FLAGS = 0x8000000000000000
TABLE_START = 64
ITEM_SIZE = 40
ITEM_LIMIT = 1 << 22
SIZE_LIMIT = 64 << 20
KIB = 1024
DEFAULT_SIZES = (16 * KIB, 64 * KIB, 256 * KIB)
WINDOW = 48
TEMPORARY = '.tmp-cacnk'
MASK = 0xFFFFFFFF


# Names of bytes

def _find_digest():
    try:
        hashlib.new('sha512_256')
    except ValueError:
        return _digest_by_openssl
    return _digest_by_hashlib


def _digest_by_hashlib(data):
    return hashlib.new('sha512_256', data).digest()


def _digest_by_openssl(data):
    words = ['openssl', 'dgst', '-sha512-256', '-binary']
    return subprocess.run(words, input=data, stdout=subprocess.PIPE, check=True).stdout


digest_of = _find_digest()
"""The 32 bytes of SHA-512/256 of a byte string."""


def sha256_of(data):
    """The 32 bytes of SHA-256 of a byte string."""
    return hashlib.sha256(data).digest()


def namer(flags):
    """What names the chunks of an index with these flags."""
    return digest_of if flags & SHA512_256_FLAG else sha256_of


# Index files

class Index:
    """An index: the numbers of its head and, for each chunk, its end and the 32 bytes of its name."""

    def __init__(self, entries, flags=WRITTEN_FLAGS, sizes=DEFAULT_SIZES):
        self.entries = list(entries)
        self.flags = flags
        self.sizes = sizes

    def length(self):
        return self.entries[-1][0] if self.entries else 0

    def slices(self):
        """Start, end and name of each entry, in order."""
        start = 0
        for end, name in self.entries:
            yield start, end, name
            start = end

    def names(self):
        return {name for _, name in self.entries}

    def add(self, piece):
        """Lists one more chunk. Answers its name."""
        name = namer(self.flags)(piece)
        self.entries.append((self.length() + len(piece), name))
        return name


FAULT_TEXTS = {
    'Truncated': 'truncated at byte {}', 'Head': 'no index head',
    'MaxSize': 'greatest size {} is over the limit', 'Table': 'no table head', 'Order': 'entry {} ends out of order',
    'TooLarge': 'entry {} has {} bytes', 'Items': 'too many entries', 'Tail': 'bad table tail',
    'Trailing': 'bytes after the tail',
}


class BadIndex(Exception):
    """The bytes are no index: the name of the first fault, and the numbers that it carries."""

    def __init__(self, fault, *numbers):
        super().__init__(fault, *numbers)
        self.fault = fault
        self.numbers = numbers

    def text(self, name):
        """What is told of a file of this name."""
        return f'{name}: bad index: {FAULT_TEXTS[self.fault].format(*self.numbers)}'


def spell_head(flags, sizes):
    return struct.pack('<8Q', HEAD_SIZE, INDEX_TYPE, flags, *sizes, TABLE_UNKNOWN_SIZE, TABLE_TYPE)


def spell_tail(count):
    return struct.pack('<5Q', 0, 0, HEAD_SIZE, 16 + ITEM_SIZE * count + 40, TAIL_MARKER)


def spell_index(index):
    """The bytes of an index, as the program writes them."""
    items = b''.join(struct.pack('<Q', end) + name for end, name in index.entries)
    return spell_head(index.flags, index.sizes) + items + spell_tail(len(index.entries))


def write_index(path, index):
    with open(path, 'wb') as file:
        file.write(spell_index(index))


def long_index(count, name=bytes(32)):
    """The bytes of an index of `count` entries of one byte each, all of one name."""
    table = bytearray((bytes(8) + name) * count)
    ends = array.array('Q', range(1, count + 1))
    if sys.byteorder == 'big':
        ends.byteswap()
    ends = ends.tobytes()
    for place in range(8):
        table[place::ITEM_SIZE] = ends[place::8]
    return b''.join((spell_head(WRITTEN_FLAGS, DEFAULT_SIZES), table, spell_tail(count)))


class _Fields:
    """The words of a file one after the other; a word that isn't whole means that the bytes end early."""

    def __init__(self, data):
        self.data = data
        self.at = 0

    def word(self):
        return struct.unpack('<Q', self.take(8))[0]

    def take(self, size):
        if len(self.data) - self.at < size:
            raise BadIndex('Truncated', len(self.data))
        self.at += size
        return self.data[self.at - size:self.at]


def read_index(data):
    """The index that these bytes spell, or BadIndex with the first fault in the order of the file."""
    fields = _Fields(data)
    if fields.word() != HEAD_SIZE:
        raise BadIndex('Head')
    if fields.word() != INDEX_TYPE:
        raise BadIndex('Head')
    flags = fields.word()
    least, average, greatest = fields.word(), fields.word(), fields.word()
    if greatest > SIZE_LIMIT:
        raise BadIndex('MaxSize', greatest)
    if fields.word() != TABLE_UNKNOWN_SIZE:
        raise BadIndex('Table')
    if fields.word() != TABLE_TYPE:
        raise BadIndex('Table')
    entries = _read_items(fields, greatest)
    _read_tail(fields)
    return Index(entries, flags, (least, average, greatest))


def _read_items(fields, greatest):
    entries = []
    before = 0
    while True:
        end = fields.word()
        if end == 0:
            return entries
        if len(entries) == ITEM_LIMIT:
            raise BadIndex('Items')
        if end <= before:
            raise BadIndex('Order', len(entries))
        if end - before > greatest:
            raise BadIndex('TooLarge', len(entries), end - before)
        entries.append((end, bytes(fields.take(32))))
        before = end


def _read_tail(fields):
    if fields.word() != 0:
        raise BadIndex('Tail')
    fields.word()
    fields.word()
    if fields.word() != TAIL_MARKER:
        raise BadIndex('Tail')
    if fields.at != len(fields.data):
        raise BadIndex('Trailing')


# Two indexes spelled out byte by byte: of an empty image, and of an image of the three bytes "abc".
EMPTY_INDEX = bytes.fromhex(
    '3000000000000000 f99f127b9c4d8296 00000000000000a0 0040000000000000 0000010000000000 0000040000000000'
    'ffffffffffffffff 7d41172f119e5be7'
    '0000000000000000 0000000000000000 3000000000000000 3800000000000000 d1ec49550e054f4b')
ABC_INDEX = bytes.fromhex(
    '3000000000000000 f99f127b9c4d8296 00000000000000a0 0040000000000000 0000010000000000 0000040000000000'
    'ffffffffffffffff 7d41172f119e5be7'
    '0300000000000000 53048e2681941ef9 9b2e29b76b4c7dab e4c2d0c634fc6d46 e0e2f13107e7af23'
    '0000000000000000 0000000000000000 3000000000000000 6000000000000000 d1ec49550e054f4b')


# Cutting

TABLE = tuple(int(word, 16) for word in """
458be752 c10748cc fbbcdbb8 6ded5b68 b10a82b5 20d75648 dfc5665f a8428801
7ebf5191 841135c7 65cc53b3 280a597c 16f60255 c78cbc3e 294415f5 b938d494
ec85c4e6 b7d33edc e549b544 fdeda5aa 882bf287 3116737c 05569956 e8cc1f68
0806ac5e 22a14443 15297e10 50d090e7 4ba60f6f efd9f1a7 5c5c885c 82482f93
9bfd7c64 0b3e7276 f2688e77 8fad8abc b0509568 f1ada29f a53efdfe cb2b1d00
f2a9e986 6463432b 95094051 5a223ad2 9be8401b 61e579cb 1a556a14 5840fdc2
9261ddf6 cde002bb 52432bb0 bf17373e 7b7c222f 2955ed16 9f10ca59 e840c4c9
ccabd806 14543f34 1462417a 0d4a1f9c 087ed925 d7f8f24c 7338c425 cf86c8f5
b19165cd 9891c393 325384ac 0308459d 86141d7e c922116a e2ffa6b6 53f52aed
2cd86197 f5b9f498 bf319c8f e0411fae 977eb18c d8770976 9833466a c674df7f
8c297d45 8ca48d26 c49ed8e2 7344f874 556f79c7 6b25eaed a03e2b42 f68f66a4
8e8b09a2 f2e0e62a 0d3a9806 9729e493 8c72b0fc 160b94f6 450e4d3d 7a320e85
bef8f0e1 21d73653 4e3d977a 1e7b3929 1cc6c719 be478d53 8d752809 e6d8c2c6
275f0892 c8acc273 4cc21580 ecc4a617 f5f7be70 e795248a 375a2fe9 425570b6
8898dcf8 dc2d97c4 0106114b 364dc22f 1e0cad1f be63803c 5f69fac2 4d5afa6f
1bc0dfb5 fb273589 0ea47f7b 3c1c2b50 21b2a932 6b1223fd 2fe706a8 f9bd6ce2
a268e64e e987f486 3eacf563 1ca2018c 65e18228 2207360a 57cf1715 34c37d2b
1f8f3cde 93b657cf 31a019fd e69eb729 8bca7b9b 4c9d5bed 277ebeaf e0d8f8ae
d150821c 31381871 afc3f1b0 927db328 e95effac 305a47bd 426ba35b 1233af3f
686a5b83 50e072e5 d9d3bb2a 8befc475 487f0de6 c88dff89 bd664d5e 971b5d18
63b14847 d7d3c1ce 7f583cf3 72cbcb09 c0d0a81c 7fa3429b e9158a1b 225ea19a
d8ca9ea3 c763b282 bb0c6341 020b8293 d4cd299d 58cfa7f8 91b4ee53 37e4d140
95ec764c 30f76b06 5ee68d24 679c8661 a41979c2 f2b61284 4fac1475 0adb49f9
19727a23 15a7e374 c43a18d5 3fb1aa73 342fc615 924c0793 bee2d7f0 8a279de9
4aa2d70c e24dd37f be862c0b 177c22c2 5388e5ee cd8a7510 f901b4fd dbc13dbc
6c0bae5b 64efe8c7 48b02079 80331a49 ca3d8ae6 f3546190 fed7108b c49b941b
32baf4a9 eb833a4a 88a3f1a5 3a91ce0a 3cc27da1 7112e684 4a3096b1 3794574c
a3c8b6f3 1d213941 6e0a2e00 233479f1 0f4cd82f 6093edd2 5d7d209e 464fe319
d4dcac9e 0db845cb fb5e4bc3 e0256ce1 09fb4ed1 0914be1e a5bdb2c3 c6eb57bb
30320350 3f397e91 a67791bc 86bc0e2c efa0a7e2 e9ff7543 e733612c d185897b
329e5388 91dd236b 2ecb0d93 f4d82a3d 35b5c03f e4e606f0 05b21843 37b45964
5eff22f4 6027f4cc 77178b3c ae507131 7bf7cabc f9c18d66 593ade65 d95ddf11
""".split())


def rotated(word, by):
    by %= 32
    return ((word << by) | (word >> (32 - by))) & MASK


# What a byte adds when it leaves the window: its table word, rotated by the window's length.
LEAVING = tuple(rotated(word, WINDOW) for word in TABLE)


def window_hash(window):
    """The hash of 48 bytes, each byte's table word rotated by the number of bytes after it."""
    value = 0
    for place, byte in enumerate(window):
        value ^= rotated(TABLE[byte], WINDOW - 1 - place)
    return value


def discriminator(average):
    return average * 10**15 // (1332375150000000 - 142888852 * average)


def first_end(data, start, sizes):
    """Where the chunk that begins at `start` ends."""
    least, average, greatest = sizes
    limit = min(start + greatest, len(data))
    end = start + least
    if end >= limit:
        return limit
    divisor = discriminator(average)
    wanted = divisor - 1
    value = window_hash(data[end - WINDOW:end])
    table, leaving = TABLE, LEAVING
    while end < limit and value % divisor != wanted:
        value = ((value << 1) | (value >> 31)) & MASK
        value ^= leaving[data[end - WINDOW]] ^ table[data[end]]
        end += 1
    return end


def cut_points(data, sizes=DEFAULT_SIZES):
    """The ends of an image's chunks."""
    ends = []
    start = 0
    while start < len(data):
        start = first_end(data, start, sizes)
        ends.append(start)
    return ends


def index_of(data, sizes=DEFAULT_SIZES, flags=WRITTEN_FLAGS):
    """The index of an image, cut by its bytes."""
    start = 0
    index = Index([], flags, sizes)
    for end in cut_points(data, sizes):
        index.add(data[start:end])
        start = end
    return index


def index_of_pieces(pieces, flags=WRITTEN_FLAGS):
    """The index of the image that these pieces are in a row, a chunk each."""
    index = Index([], flags)
    for piece in pieces:
        index.add(piece)
    return index


# Folder stores

def path_in_store(name):
    """The path of a chunk's file within a store: a folder of the first four digits, then all 64."""
    digits = name.hex()
    return os.path.join(digits[:4], digits)


def chunk_path(store, name):
    return os.path.join(store, path_in_store(name))


def write_chunk(store, name, data):
    path = chunk_path(store, name)
    os.makedirs(os.path.dirname(path), exist_ok=True)
    with open(path, 'wb') as file:
        file.write(data)


def write_chunks(store, index, data):
    """Writes each chunk of an image into a store."""
    os.makedirs(store, exist_ok=True)
    for start, end, name in index.slices():
        write_chunk(store, name, data[start:end])


def answer_of(store, name, size, digest_of=digest_of):
    """What a store says of a chunk: its bytes, or 'missing', 'damaged' or 'failed'."""
    try:
        with open(chunk_path(store, name), 'rb') as file:
            data = file.read(size + 1)
    except (FileNotFoundError, NotADirectoryError):
        return 'missing'
    except OSError:
        return 'failed'
    return data if len(data) == size and digest_of(data) == name else 'damaged'


def obtained(stores, name, size, digest_of=digest_of):
    """The chunk from the first store that gives it; or why none does, and the store that is named."""
    answers = [answer_of(store, name, size, digest_of) for store in stores]
    for answer in answers:
        if isinstance(answer, bytes):
            return answer
    for why in ('failed', 'damaged'):
        if why in answers:
            return why, answers.index(why)
    return 'missing', None


# Extracting in place

def resized(data, length):
    """The first bytes of a string, filled up with zeros."""
    return data[:length] + bytes(length - len(data[:length]))


def extracted(index_bytes, index_name, stores, old):
    """The text of an extraction in place from stores in order, and the bytes of its output afterwards.

    `old` is the output before, or None where it isn't there. Where the index is refused, the output
    stays as it was. Else each entry that is wrong in the output is copied from an alike one that is
    right there, or fetched. The first that neither gives is named, and those after it are filled still.
    """
    try:
        index = read_index(index_bytes)
    except BadIndex as bad:
        return bad.text(index_name), old
    named = namer(index.flags)
    base = bytes(resized(old or b'', index.length()))
    entries = list(index.slices())
    right = {(name, end - start): base[start:end] for start, end, name in entries if named(base[start:end]) == name}
    out, text = bytearray(base), ''
    for entry, (start, end, name) in enumerate(entries):
        chunk = right.get((name, end - start))
        if chunk is None:
            chunk = obtained(stores, name, end - start, named)
        if isinstance(chunk, bytes):
            out[start:end] = chunk
        else:
            text = text or refusal(entry, name, *chunk)
    return text, bytes(out)


def refusal(entry, name, why, store=None):
    """The text of an entry that no store gives."""
    if why == 'failed':
        return f'store {store} failed'
    state = 'missing' if why == 'missing' else f'damaged in store {store}'
    return f'chunk {name.hex()} of entry {entry} is {state}'


# Reading

def read_text(index_bytes, index_name):
    """The index that the bytes spell and no text, or none and the text that says why not."""
    try:
        return read_index(index_bytes), ''
    except BadIndex as bad:
        return None, bad.text(index_name)


def fault_of(data):
    """The name of the first fault of an index file, or None."""
    try:
        read_index(data)
    except BadIndex as bad:
        return bad.fault
    return None


def listed(index):
    """What `list-chunks` prints."""
    return ''.join(f'{name.hex()}\n' for _, name in index.entries)


def figures(index, held=None):
    """What `info` prints; `held` is the number of chunks that stores have, if any is asked."""
    least, average, greatest = index.sizes
    in_store = '' if held is None else f'"in-store":{held},'
    return (f'{{"chunk-size-avg":{average},"chunk-size-max":{greatest},"chunk-size-min":{least},{in_store}'
            f'"size":{index.length()},"total":{len(index.entries)},"unique":{len(index.names())}}}\n')


def checked(index, image):
    """The text of `verify-index` of an image."""
    if len(image) != index.length():
        return f'the file has {len(image)} bytes'
    for entry, (start, end, name) in enumerate(index.slices()):
        got = namer(index.flags)(image[start:end])
        if got != name:
            return f'entry {entry} has the name {got.hex()}'
    return ''


def main(words):
    if len(words) != 3:
        sys.exit('usage: formats.py STORE INDEX IMAGE')
    store, index_path, image_path = words
    with open(image_path, 'rb') as file:
        data = file.read()
    index = index_of(data)
    write_chunks(store, index, data)
    write_index(index_path, index)


if __name__ == '__main__':
    main(sys.argv[1:])
