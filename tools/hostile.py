#!/usr/bin/env python3
"""Tries the built listing program on files of every kind, and compares what it prints with an independent model.

    hostile.py [COUNT [SEED]]     how many files (30,000 unless told), and what they are made from (one unless told)

A file is whole, or damaged in its bodies, its header, its directory or anywhere, or cut, or lengthened, or random bytes, or random bytes behind
a sound header; a letter may stand before it. The program must end with status 0 and print just what the model (tools/listing_model.py, which
shares no code with it) says. The files come from SEED alone, so a run can be had again. The last line counts the files by kind, how many opened
and how many differ.
"""
import os
import random
import subprocess
import sys
from collections import Counter
from concurrent.futures import ThreadPoolExecutor

from listing_model import listing
from make_vectors import chunk_file, dims

PROGRAM = os.path.join(os.path.dirname(os.path.abspath(__file__)), "../crates/listing/out/listing")


def flip(rng, data, low, high):
    """One to three bytes between low and high changed."""
    if low < high:
        for _ in range(rng.randint(1, 3)):
            data[rng.randrange(low, high)] = rng.choice([0, 1, 2, 127, 255, rng.randint(0, 255)])


def whole(rng, data, bodies):
    pass


def in_bodies(rng, data, bodies):
    flip(rng, data, bodies, len(data))


def in_header(rng, data, bodies):
    flip(rng, data, 0, min(4 + 8 * data[1], len(data)))


def in_directory(rng, data, bodies):
    flip(rng, data, 4 + 8 * data[1], bodies)


def anywhere(rng, data, bodies):
    for _ in range(rng.randint(1, 4)):
        data[rng.randrange(len(data))] ^= 1 << rng.randrange(8)


def cut(rng, data, bodies):
    del data[rng.randrange(len(data)) :]


def lengthened(rng, data, bodies):
    data += bytes(rng.randint(0, 255) for _ in range(rng.randint(1, 9)))


def noise(rng, data, bodies):
    data[:] = bytes(rng.randint(0, 255) for _ in range(rng.choice([0, 1, 3, 4, 11, 12, 40, 300])))


def noise_behind_header(rng, data, bodies):
    n = rng.randint(0, 7)
    data[:] = bytes([1, n, 0, 0]) + b"".join(
        rng.choice([1, 2, 4, 6, 12, 16384, 16385, 2**32 - 1]).to_bytes(4, "little") for _ in range(2 * n)
    ) + bytes(rng.randint(0, 255) for _ in range(rng.randint(0, 60)))


KINDS = [whole, in_bodies, in_header, in_directory, anywhere, cut, lengthened, noise, noise_behind_header]


def case(rng, i):
    """The name of its kind, and a file."""
    data, bodies = chunk_file(rng, dims(rng))
    data = bytearray(data)
    kind = KINDS[i % len(KINDS)]
    kind(rng, data, bodies)
    return kind.__name__, rng.choice([b"", b"", b"T", b"R", b"M", b"X"]) + bytes(data)


def run(data):
    done = subprocess.run([PROGRAM], input=data, capture_output=True)
    return done.returncode, done.stdout


def main():
    count = int(sys.argv[1]) if len(sys.argv) > 1 else 30_000
    rng = random.Random(int(sys.argv[2]) if len(sys.argv) > 2 else 1)
    kinds, opened, wrong = Counter(), 0, 0
    with ThreadPoolExecutor(4) as pool:
        for first in range(0, count, 1000):
            cases = [case(rng, i) for i in range(first, min(first + 1000, count))]
            for (kind, data), (status, out) in zip(cases, pool.map(run, [data for _, data in cases])):
                kinds[kind] += 1
                wanted = listing(data).encode()
                opened += not wanted.startswith(b"DIMS 0")
                if status != 0 or out != wanted:
                    wrong += 1
                    print(f"differs: {kind} {data.hex()} status {status}")
    print(", ".join(f"{n} {kind}" for kind, n in sorted(kinds.items())))
    print(f"{count} files, {opened} opened, {wrong} differ")
    sys.exit(wrong != 0)


if __name__ == "__main__":
    main()
