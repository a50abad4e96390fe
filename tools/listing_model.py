#!/usr/bin/env python3
"""An independent model of the listing: what the listing program must print for any input.

It works from the documented formats alone: direct summaries from their definition, the handing order by its
recursion. It shares no code with the program and is written for clarity, not speed.

    listing_model.py < input            prints the listing
    listing_model.py --check DIR [CMD]  for each NAME.bin in DIR compares the listing with NAME.out,
                                        made by CMD (default: this model)
"""
import os
import subprocess
import sys
from itertools import product as pairs

LIMIT = 16_777_215
CELLS = 2_048
BYTES = 32_768


class Refused(Exception):
    def __init__(self, number, place=0):
        self.number, self.place = number, place


def product(xs):
    p = 1
    for x in xs:
        p *= x
    return p


class Total:
    empty = (0, 0)
    top = 2**64 - 1

    @staticmethod
    def lift(r):
        return (1, r)

    @classmethod
    def join(cls, a, b):
        return (min(a[0] + b[0], cls.top), min(a[1] + b[1], cls.top))

    @staticmethod
    def columns(v):
        return v


class Range:
    empty = (4294967295, 0)

    @staticmethod
    def lift(r):
        return (r, r)

    @staticmethod
    def join(a, b):
        return (min(a[0], b[0]), max(a[1], b[1]))

    @staticmethod
    def columns(v):
        return v


class Marks:
    empty = 0

    @staticmethod
    def lift(r):
        return 1 << (r % 64)

    @staticmethod
    def join(a, b):
        return a | b

    @staticmethod
    def columns(v):
        return (v,)


MEASURES = {b"T": Total, b"R": Range, b"M": Marks}


def little(bs, at, n):
    return int.from_bytes(bs[at : at + n], "little")


def check_shape(dims):
    if not 1 <= len(dims) <= 6:
        raise Refused(1)
    for i, (size, edge) in enumerate(dims):
        if not 1 <= size <= 16384:
            raise Refused(2, i)
        if not 1 <= edge <= size:
            raise Refused(3, i)
        if size % edge:
            raise Refused(4, i)
    if product(e for _, e in dims) > 16384:
        raise Refused(5)
    if product(s for s, _ in dims) > 2**34:
        raise Refused(6)


def open_file(bs):
    """The dimensions and the directory of a chunk file."""
    if len(bs) < 4:
        raise Refused(7)
    if bs[0] != 1 or bs[2] or bs[3]:
        raise Refused(8)
    n = bs[1]
    if not 1 <= n <= 6:
        raise Refused(1)
    if len(bs) < 4 + 8 * n:
        raise Refused(7)
    dims = [(little(bs, 4 + 8 * i, 4), little(bs, 8 + 8 * i, 4)) for i in range(n)]
    check_shape(dims)
    cells = product(e for _, e in dims)
    chunks = product(s // e for s, e in dims)
    at = 4 + 8 * n + 8 * chunks
    if len(bs) < at:
        raise Refused(7)
    entries = []
    for j in range(chunks):
        p = 4 + 8 * n + 8 * j
        start, count, kind, spare = little(bs, p, 4), little(bs, p + 4, 2), bs[p + 6], bs[p + 7]
        if start != at or kind > 1 or count > cells or spare:
            raise Refused(9, j)
        entries.append((start, count, kind))
        at += 6 * count if kind == 0 else 4 * cells
    if at != len(bs):
        raise Refused(10)
    return dims, entries


def read_body(bs, entry, cells):
    """The readings of a chunk by offset, or None where its body has a fault."""
    start, count, kind = entry
    out = {}
    if kind == 0:
        low = 0
        for k in range(count):
            offset, reading = little(bs, start + 6 * k, 2), little(bs, start + 6 * k + 2, 4)
            if offset < low or offset >= cells or reading > LIMIT:
                return None
            out[offset] = reading
            low = offset + 1
        return out
    for k in range(cells):
        word = little(bs, start + 4 * k, 4)
        if word == 0xFFFFFFFF:
            continue
        if word > LIMIT:
            return None
        out[k] = word
    return out if len(out) == count else None


def mixed(radices, digits):
    s = 0
    for k, c in zip(reversed(radices), reversed(digits)):
        s = c + k * s
    return s


class Plan:
    def __init__(self, dims):
        n = len(dims)
        slack = [s - e for s, e in dims]
        self.place = [1 + sum(x < slack[i] for x in slack) + sum(slack[j] == slack[i] for j in range(i)) for i in range(n)]
        self.adds = {}
        self.need = product(e for _, e in dims)
        for m in range(2**n - 1):
            e = min((i for i in range(n) if not m >> i & 1), key=lambda i: self.place[i])
            self.adds[m] = e
            self.need += product(
                (dims[i][0] if self.place[i] < self.place[e] else dims[i][1]) for i in range(n) if m >> i & 1
            )


def handing(dims, plan):
    """The handing order: mask and chunk coordinates by dimension, 0 where the dimension is dropped."""
    n = len(dims)
    counts = [s // e for s, e in dims]
    by_place = sorted(range(n), key=lambda i: plan.place[i])

    def blocks(m):
        ranges = [range(counts[i]) if m >> i & 1 else range(1) for i in reversed(by_place)]
        for slow_first in pairs(*ranges):
            at = [0] * n
            for i, c in zip(reversed(by_place), slow_first):
                at[i] = c
            yield tuple(at)

    children = {m: [h for h in range(2**n - 1) if h | 1 << plan.adds[h] == m] for m in range(2**n)}

    def release(m, region):
        for b in region:
            yield m, b
            for h in children[m]:
                e = plan.adds[h]
                upto = [i for i in range(n) if m >> i & 1 and plan.place[i] <= plan.place[e]]
                if all(b[i] == counts[i] - 1 for i in upto):
                    later = [i for i in range(n) if plan.place[i] > plan.place[e]]
                    yield from release(h, [c for c in blocks(h) if all(c[i] == b[i] for i in later)])

    root = 2**n - 1
    for c in blocks(root):
        yield from release(root, [c])


def listing(data):
    data = data[:BYTES]
    measure = Total
    if data[:1] in MEASURES:
        measure, data = MEASURES[data[:1]], data[1:]
    lines = []
    try:
        dims, entries = open_file(data)
        plan = Plan(dims)
        if plan.need > CELLS:
            raise Refused(17, plan.need)
    except Refused as r:
        return f"DIMS 0\nREFUSED {r.number} {r.place}\n"
    n = len(dims)
    sizes, edges = [s for s, _ in dims], [e for _, e in dims]
    counts = [s // e for s, e in dims]
    cells = product(edges)
    bodies = [read_body(data, e, cells) for e in entries]
    unreadable = sum(b is None for b in bodies)
    # every filled, readable base cell, by coordinates
    base = {}
    for chunk in pairs(*(range(k) for k in counts)):
        body = bodies[mixed(counts, chunk)]
        for offset, reading in (body or {}).items():
            local = []
            for e in edges:
                local.append(offset % e)
                offset //= e
            base[tuple(c * e + l for c, e, l in zip(chunk, edges, local))] = reading
    # direct summaries of non-empty cells, by mask and kept coordinates
    summaries = {}
    for x, reading in base.items():
        for m in range(2**n):
            key = (m, tuple(x[i] if m >> i & 1 else 0 for i in range(n)))
            summaries[key] = measure.join(summaries.get(key, measure.empty), measure.lift(reading))
    lines.append("DIMS %d " % n + " ".join("%d/%d" % d for d in dims))
    lines.append("CELLS %d UNREADABLE %d" % (plan.need, unreadable))
    blocks = 0
    for m, b in handing(dims, plan):
        blocks += 1
        kept_edges = [edges[i] if m >> i & 1 else 1 for i in range(n)]
        kept_counts = [counts[i] if m >> i & 1 else 1 for i in range(n)]
        number = mixed(kept_counts, b)
        for offset in range(product(kept_edges)):
            rest, x = offset, []
            for i in range(n):
                x.append(b[i] * kept_edges[i] + rest % kept_edges[i])
                rest //= kept_edges[i]
            v = summaries.get((m, tuple(x)), measure.empty)
            if v != measure.empty:
                lines.append(" ".join(map(str, (m, number, offset, *measure.columns(v)))))
    lines.append("END %d %d %d" % (len(entries) - unreadable, unreadable, blocks))
    return "\n".join(lines) + "\n"


def check(folder, command):
    names = sorted(f[:-4] for f in os.listdir(folder) if f.endswith(".bin"))
    bad = 0
    for name in names:
        with open(os.path.join(folder, name + ".bin"), "rb") as f:
            data = f.read()
        with open(os.path.join(folder, name + ".out"), "rb") as f:
            want = f.read()
        got = subprocess.run(command, input=data, capture_output=True).stdout if command else listing(data).encode()
        if got != want:
            bad += 1
            print("differs:", name)
    print(f"{len(names) - bad} passed, {bad} failed")
    return 1 if bad else 0


if __name__ == "__main__":
    if sys.argv[1:2] == ["--check"]:
        sys.exit(check(sys.argv[2], sys.argv[3:]))
    sys.stdout.write(listing(sys.stdin.buffer.read()))
