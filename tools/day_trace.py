#!/usr/bin/env python3
"""day_trace.py: writes the trace of one day in a cabinet of sixteen gates to standard output.

Names are written once, in the morning; after that the level of each gate is written all day, positions now and then, and the
panel reads names and levels. The random choices are seeded, so the trace is the same every time.
"""
import random

GATES = 16
NAMES, POSITIONS, LEVELS, NOTES = 0, 16, 32, 48  # the first page of each kind


def frame(*parts):
    """A frame's line: its bytes and their check byte in hexadecimal digits."""
    body = b"".join(parts)
    return (body + bytes([-sum(body) % 256])).hex().upper()


def two(n):
    return n.to_bytes(2, "big")


def setup(n, p, d, e, k, t, order, l):
    return frame(b"\x01", two(n), bytes([p]), two(d), e.to_bytes(4, "big"), bytes([k]), two(t), bytes([order]), two(l))


def write(page, fill):
    return frame(b"\x02", two(page), bytes([fill]))


def discard(page):
    return frame(b"\x03", two(page))


def read(page):
    return frame(b"\x04", two(page))


def day(rng):
    yield setup(32, 16, 16, 10000, 1, 8, 1, 256)
    for gate in range(GATES):
        yield write(NAMES + gate, 0x41 + gate)
    for gate in range(GATES):
        yield write(POSITIONS + gate, 0)
    level = [100] * GATES
    for minute in range(24 * 60):
        for gate in rng.sample(range(GATES), 2):
            level[gate] = max(0, min(255, level[gate] + rng.choice((-2, -1, 0, 1, 2))))
            yield write(LEVELS + gate, level[gate])
        if minute % 30 == 0:
            yield read(NAMES + rng.randrange(GATES))
        if minute % 45 == 0:
            gate = rng.randrange(GATES)
            yield write(POSITIONS + gate, rng.randrange(101))
            yield read(LEVELS + gate)
        if minute % 240 == 239:
            yield write(NOTES, minute // 240)
            yield discard(NOTES)


for line in day(random.Random(1607)):
    print(line)
