#!/usr/bin/env python3
"""Makes small inputs of the listing program and, by the independent model, what must be printed for them.

    make_vectors.py DIR [COUNT [SEED]]   writes DIR/names, DIR/NAME.bin and DIR/NAME.out

A third of the inputs are whole files, a third damaged in the bodies, a third damaged anywhere or cut.
"""
import os
import random
import sys

from listing_model import LIMIT, listing, product


def dims(rng):
    """One to four dimensions with few cells."""
    while True:
        ds = []
        for _ in range(rng.randint(1, 4)):
            edge = rng.choice([1, 1, 2, 2, 3, 4])
            ds.append((edge * rng.choice([1, 2, 2, 3]), edge))
        if product(s for s, _ in ds) <= 216 and product(s // e for s, e in ds) <= 48:
            return ds


def chunk_file(rng, ds):
    """A file of these dimensions: each chunk of a kind of its own, filled more or less."""
    cells = product(e for _, e in ds)
    chunks = product(s // e for s, e in ds)
    head = bytes([1, len(ds), 0, 0]) + b"".join(s.to_bytes(4, "little") + e.to_bytes(4, "little") for s, e in ds)
    start = len(head) + 8 * chunks
    directory, bodies = b"", b""
    for _ in range(chunks):
        full = rng.choice([0.0, 0.2, 0.5, 1.0])
        filled = [o for o in range(cells) if rng.random() < full]
        readings = {o: rng.choice([0, 1, rng.randint(0, 99), rng.randint(0, LIMIT), LIMIT]) for o in filled}
        kind = rng.randint(0, 1)
        if kind == 0:
            body = b"".join(o.to_bytes(2, "little") + readings[o].to_bytes(4, "little") for o in filled)
        else:
            body = b"".join(readings.get(o, 0xFFFFFFFF).to_bytes(4, "little") for o in range(cells))
        directory += (start + len(bodies)).to_bytes(4, "little") + len(filled).to_bytes(2, "little") + bytes([kind, 0])
        bodies += body
    return head + directory + bodies, start


def case(rng, i):
    data, bodies = chunk_file(rng, dims(rng))
    data = bytearray(data)
    if i % 3 == 1 and len(data) > bodies:
        for _ in range(rng.randint(1, 3)):
            data[rng.randrange(bodies, len(data))] = rng.randint(0, 255)
    if i % 3 == 2:
        if rng.random() < 0.3:
            del data[rng.randrange(len(data)) :]
        else:
            data[rng.randrange(len(data))] ^= 1 << rng.randrange(8)
    return rng.choice([b"", b"", b"T", b"R", b"M"]) + bytes(data)


def main():
    folder = sys.argv[1]
    count = int(sys.argv[2]) if len(sys.argv) > 2 else 60
    rng = random.Random(int(sys.argv[3]) if len(sys.argv) > 3 else 1)
    os.makedirs(folder, exist_ok=True)
    names = []
    for i in range(count):
        name = "case-%03d" % i
        data = case(rng, i)
        with open(os.path.join(folder, name + ".bin"), "wb") as f:
            f.write(data)
        with open(os.path.join(folder, name + ".out"), "w") as f:
            f.write(listing(data))
        names.append(name)
    with open(os.path.join(folder, "names"), "w") as f:
        f.write("\n".join(names) + "\n")


if __name__ == "__main__":
    main()
