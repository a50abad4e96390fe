#!/usr/bin/env python3
"""Makes the chunk files that the benchmark goes over, in a folder: dense 3-D, 6-D, sparse, one with a long last dimension."""
import random
import struct
import sys
from pathlib import Path

ARRAYS = {
    "dense-3d": ([(128, 16)] * 3, 1.0),
    "dense-6d": ([(12, 4)] * 6, 1.0),
    "sparse-3d": ([(256, 16)] * 3, 0.02),
    "long-last": ([(16, 16), (16, 16), (16384, 64)], 1.0),
}


def make(dims, share, seed):
    rng = random.Random(seed)
    cells = 1
    chunks = 1
    for size, edge in dims:
        cells *= edge
        chunks *= size // edge
    head = bytes([1, len(dims), 0, 0]) + b"".join(struct.pack("<II", s, e) for s, e in dims)
    start = len(head) + 8 * chunks
    directory, bodies = [], []
    for _ in range(chunks):
        if share >= 1.0:
            kind, count = 1, cells
            body = struct.pack(f"<{cells}I", *(rng.randrange(1 << 24) for _ in range(cells)))
        else:
            filled = [o for o in range(cells) if rng.random() < share]
            kind, count = 0, len(filled)
            body = b"".join(struct.pack("<HI", o, rng.randrange(1 << 24)) for o in filled)
        directory.append(struct.pack("<IHBB", start, count, kind, 0))
        bodies.append(body)
        start += len(body)
    return head + b"".join(directory) + b"".join(bodies)


def main():
    folder = Path(sys.argv[1])
    folder.mkdir(parents=True, exist_ok=True)
    for seed, (name, (dims, share)) in enumerate(ARRAYS.items()):
        (folder / f"{name}.bin").write_bytes(make(dims, share, seed))


main()
