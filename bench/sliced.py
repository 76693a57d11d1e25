"""Images of random bytes that are cut every 64 KiB, with their indexes and stores."""

import contextlib
import os
import random

import side_by_side  # which makes the modules of tests/ known
import formats

CHUNK = 65536


def pieces(size, seed):
    """The pieces of so many random bytes, which the seed determines."""
    chance = random.Random(seed)
    for start in range(0, size, CHUNK):
        yield chance.randbytes(min(CHUNK, size - start))


def lay_out(folder, size, store=None, image=None):
    """Writes the index `image.caibx` of an image, and where they are named its store and the image itself."""
    index = formats.Index([])
    with contextlib.ExitStack() as stack:
        file = stack.enter_context(open(os.path.join(folder, image), 'wb')) if image else None
        for piece in pieces(size, 3):
            name = index.add(piece)
            if store:
                formats.write_chunk(os.path.join(folder, store), name, piece)
            if file:
                file.write(piece)
    formats.write_index(os.path.join(folder, 'image.caibx'), index)
