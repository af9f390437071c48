#!/usr/bin/python3
"""Makes strips of three-byte words by numpy's arithmetic: no peer reads or writes samples of 24 bits.

    depth.py FOLDER

writes, for each byte order FROM and TO, CHANNELS, and HOW, predicted or plain, FOLDER/FROM-TO-CHANNELS-HOW.raw, the strip
as it is stored, and .samples, what a reader makes of it. Prints how many rows sum past 16,777,215.
"""

import itertools
import sys
from pathlib import Path

import numpy

ROWS, PIXELS, MODULUS = 5, 37, 1 << 24


def joined(three, order):
    """The words of bytes whose last axis has three."""
    first, middle, last = (three[..., byte].astype(numpy.int64) for byte in range(3))
    return first + (middle << 8) + (last << 16) if order == "le" else (first << 16) + (middle << 8) + last


def split(words, order):
    three = numpy.stack([words & 255, words >> 8 & 255, words >> 16], axis=-1).astype(numpy.uint8)
    return three if order == "le" else three[..., ::-1]


folder = Path(sys.argv[1])
past = 0
for start, stop, channels, how in itertools.product(["le", "be"], ["le", "be"], [1, 2, 3, 4, 5], ["predicted", "plain"]):
    raw = numpy.random.RandomState(channels).randint(0, 256, (ROWS, PIXELS, channels, 3)).astype(numpy.uint8)
    samples = joined(raw, start)
    if how == "predicted":
        sums = samples.cumsum(axis=1)
        past += int((sums >= MODULUS).any(axis=(1, 2)).sum())
        samples = sums % MODULUS
    name = f"{start}-{stop}-{channels}-{how}"
    (folder / f"{name}.raw").write_bytes(raw.tobytes())
    (folder / f"{name}.samples").write_bytes(split(samples, stop).tobytes())
print(past)
