#!/usr/bin/env python3
"""Tries the reference's feed by itself: document 02, [9].

    python3 tests/node/cuts.py [SEED]

- Cut at random places, empty pieces among them, the same bytes give the same answers, node, tables and kept part.
- Each call by itself: what it takes and keeps, and a kept part that is handed in with a length of its own.
- A line is mangled, with no newline made or lost. If it is refused then, the others are answered as if it had not been sent.

Ends with status 1 at the first that is not so.
"""
import random
import sys

sys.dont_write_bytecode = True

from generate import recorded, tick  # noqa: E402
from reference import LONGEST, Feed, Node  # noqa: E402

GOOD = tick(1).hex().encode()
FULL = b"0" * LONGEST
MANGLED = 20

# What is kept and its length, the piece, the answer (None: no line ended), the bytes used, and what is kept then.
CALLS = (
    (b"", 0, b"", None, 0, b""),
    (b"", 0, b"\n", 2, 1, b""),
    (b"", 0, GOOD, None, 24, GOOD),
    (b"", 0, GOOD + b"\n" + GOOD + b"\n", 0, 25, b""),
    (GOOD[:7], 7, b"", None, 0, GOOD[:7]),
    (GOOD[:7], 7, GOOD[7:] + b"\n\n", 0, 18, b""),
    (GOOD, 24, b"\nzz", 0, 1, b""),
    (GOOD, 24, b"0\n", 2, 2, b""),
    (GOOD + b"zz", 24, b"\n", 0, 1, b""),  # characters past the length are no part of the line
    (FULL, LONGEST, b"\n", 2, 1, b""),
    (FULL, LONGEST, b"0\n", 2, 2, b""),
    (GOOD, LONGEST + 1, b"\n", 2, 1, b""),  # too long by its length alone
    (b"", 2**64 - 1, GOOD + b"\n", 2, 25, b""),
)


def single_calls():
    for kept, length, piece, answer, used, left in CALLS:
        feed = Feed(Node(), kept, length)
        case = (kept[:30], length, piece)
        assert feed.call(piece) == (answer, used), case
        assert (feed.kept, feed.length) == (left, len(left)), case
    feed = Feed(Node(), GOOD, LONGEST + 1)
    assert feed.call(b"") == (None, 0) and feed.length > LONGEST  # it stays too long until its newline
    assert feed.call(b"\n" + GOOD) == (2, 1) and feed.call(GOOD + b"\n") == (0, 25)


def cut(r, data, most):
    """The data in pieces of 0 to `most` bytes."""
    pieces, at = [], 0
    while at < len(data):
        size = r.randrange(most + 1)
        pieces.append(data[at : at + size])
        at += size
    return pieces


def fed(pieces):
    """The answers, the node with its tables, and what is kept at the end."""
    feed = Feed(Node())
    return list(feed.answers(pieces)), vars(feed.node), feed.kept, feed.length


def any_cut(r, data):
    whole = fed([data])
    for most in (3, 60, 5000, 70_000):
        pieces = cut(r, data, most)
        assert b"".join(pieces) == data
        assert fed(pieces) == whole, f"pieces of up to {most}"


def mangled(r, line):
    """The line with some characters replaced, by digits or by anything but a newline."""
    other = bytearray(line)
    these = r.choice((b"0123456789abcdef", bytes(set(range(256)) - {10})))
    for _ in range(r.choice((1, 1, 2, 5))):
        other[r.randrange(min(len(other), 60))] = r.choice(these)
    return bytes(other)


def as_if_not_sent(r, lines):
    """How many mangled lines were refused, and how many were taken."""
    refused = taken = 0
    for _ in range(MANGLED):
        k = r.choice([k for k, line in enumerate(lines) if line])
        changed = lines[:k] + [mangled(r, lines[k])] + lines[k + 1 :]
        told, node, _, _ = fed(line + b"\n" for line in changed)
        if not 1 <= told[k] <= 8:
            taken += 1
            continue
        refused += 1
        others, other_node, _, _ = fed(line + b"\n" for line in lines[:k] + lines[k + 1 :])
        assert (told[:k] + told[k + 1 :], node) == (others, other_node), (k, changed[k][:60])
    return refused, taken


def main(seed):
    r = random.Random(seed)
    single_calls()
    tape, _ = recorded(seed, 200, 40)
    lines = [line for line in tape.lines if len(line) <= 2 * LONGEST]
    any_cut(r, b"\n".join(lines))
    start = r.randrange(len(lines) - 60)
    refused, taken = as_if_not_sent(r, lines[start : start + 60])
    print(f"the reference's feed, seed {seed}: the same however cut; of {MANGLED} mangled lines {refused} refused, {taken} taken")


if __name__ == "__main__":
    main(int(sys.argv[1]) if len(sys.argv) > 1 else 1)
