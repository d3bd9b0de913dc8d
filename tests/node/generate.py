#!/usr/bin/env python3
"""Makes the input of the program `ukweribaso` and, by the reference beside this file, what it must print.

    python3 tests/node/generate.py                     writes crates/ukweribaso/stdin and stdout
    python3 tests/node/generate.py --seed 7 --to DIR   the same with other numbers, into DIR

First the lines of document 01, then written scenes, then frames at random, near the limits of the state that the reference
is in. The program's node owns no slot, and no line can make it an owner. So it gives no vote (document 02, [3]): a request is
answered 11, and nothing that is printed tells a flag or an owner. These show in the stored runs of `replay`, in words. What
shows here is which line is a frame, every refusal before 11, that 11 comes before 12 to 18, and the clock and currentEpoch.

Prints how often each answer occurs, and what stands behind each 11. The seed is fixed, so both files come out the same.
"""
import argparse
import copy
import random
from collections import Counter
from pathlib import Path

from reference import LENGTHS, LONGEST, TOP, Feed, Node, parse

CRATE = Path(__file__).resolve().parents[2] / "crates" / "ukweribaso"


def wide(n):
    return n.to_bytes(8, "big")


def bitmap(slots):
    bits = bytearray(2048)
    for s in slots:
        bits[s // 8] |= 1 << (s % 8)
    return bytes(bits)


def heartbeat(sender, current, config, time, slots=(), follows=None):
    role = (0, 0) if follows is None else (1, follows)
    return bytes([1, sender, *role]) + wide(current) + wide(config) + wide(time) + bitmap(slots)


def report(reporter, subject, verdict, time):
    return bytes([2, reporter, subject, verdict]) + wide(time)


def fail(sender, subject, time):
    return bytes([3, sender, subject, 0]) + wide(time)


def request(candidate, current, config, time, slots=(9000,)):
    """It claims a slot that nobody owns in the first scenes, where it need not claim another."""
    return bytes([4, candidate, 0, 0]) + wide(current) + wide(config) + wide(time) + bitmap(slots)


def ack(voter, candidate, epoch, time):
    return bytes([5, voter, candidate, 0]) + wide(epoch) + wide(time)


def probe(subject, pong, time):
    return bytes([6, subject, pong, 0]) + wide(time)


def tick(time):
    return bytes([7, 0, 0, 0]) + wide(time)


def with_a_slot(node, line):
    """What a node would answer if it owned one slot, which the request does not claim if it leaves any. The node itself stays."""
    claimed = set(parse(line)["claims"])
    node = copy.deepcopy(node)
    node.owner[next((s for s in range(16384) if s not in claimed), 0)] = node.me
    return node.line(line)


class Tape:
    """The input so far, and the node that has read it."""

    def __init__(self, seed):
        self.random = random.Random(seed)
        self.node = Node()
        self.feed = Feed(self.node)
        self.lines, self.printed, self.seen = [], [], Counter()
        self.behind = Counter()  # what the requests that are answered 11 would get, if this node owned a slot

    def raw(self, line, expected=None):
        before = copy.deepcopy(self.node) if line[:2] == b"04" else None
        answer, used = self.feed.call(line + b"\n")
        assert used == len(line) + 1
        assert expected is None or answer == expected, (len(self.lines), line[:60], answer, expected)
        if answer == 11:
            self.behind[with_a_slot(before, line)] += 1
        self.lines.append(line)
        self.printed.append(f"{answer} {self.node.current} {self.node.last_vote}")
        kind = int(line[:2]) if answer not in (2, 3) and line[:1] == b"0" else 0
        self.seen[answer] += 1
        self.seen[answer, kind] += 1
        return answer

    def frame(self, data, expected=None):
        return self.raw(data.hex().encode(), expected)

    def now(self, later=0):
        return self.node.clock + later


# ---- document 01


def example(t):
    for line, answer in (("070000000000000000000001", 0), ("zz", 2), ("030200000000000000000002", 0), ("070000000000000000000001", 4)):
        t.raw(line.encode(), answer)


def no_votes(t):
    """Every request that gets past 1 to 8 is answered 11: this node owns no slot. Each of the later answers stands behind one of
    these, but 16, for which a vote must have been given. Clock and currentEpoch move as for any refusal of a vote."""
    n = t.node
    start = t.now(10)
    no_vote(t, 13, request(3, 0, 0, start))
    no_vote(t, 13, request(3, 0, 0, start, []))
    no_vote(t, 10, request(3, 1, 0, start))
    assert (n.current, n.last_vote, n.clock) == (1, 0, start)
    t.frame(probe(0, 1, start), 0)
    no_vote(t, 15, request(3, 2, 0, start))
    no_vote(t, 18, request(3, 2, 0, start, []))
    # the voter of the document's cases, but for the slot that it has not
    t.frame(heartbeat(0, 5, 2, start, [0]), 0)
    t.frame(fail(2, 0, start), 0)
    no_vote(t, 12, request(3, 4, 2, start, [0]))
    no_vote(t, 17, request(3, 5, 1, start, [0]))
    for _ in range(2):  # no vote is used up by it
        no_vote(t, 10, request(3, 5, 2, start, [0]))
    no_vote(t, 10, request(4, 6, 2, start + 1999, [0]))
    no_vote(t, 10, request(4, 6, 2, start + 2000, [0]))
    no_vote(t, 14, request(2, 8, 2, start + 2000, [0]))
    no_vote(t, 14, request(0, 8, 2, start + 2000, []))
    # one bit, the first or the last one of a byte; all slots, while another master owns them all
    for slots in ([0], [7], [8], [16376], [16383]):
        no_vote(t, 10, request(3, n.current + 1, n.current + 1, t.now(2000), slots))
    t.frame(heartbeat(2, n.current, n.current, t.now(1), range(16384)), 0)
    no_vote(t, 10, request(3, n.current, n.current, t.now(), range(16384)))
    no_vote(t, 17, request(3, n.current, 0, t.now(), range(16384)))
    # what is asked before 11 is answered as ever, and moves nothing
    moved = (n.current, n.clock)
    for data, answer in (
        (request(5, n.current + 1, 0, t.now(1)), 3),
        (request(1, n.current + 1, 0, t.now(1)), 6),
        (request(3, n.current + 1, n.current + 2, t.now(1)), 5),
        (request(3, n.current + 1, 0, t.now() - 1), 4),
    ):
        t.frame(data, answer)
    assert (n.current, n.clock) == moved


def no_vote(t, otherwise, data):
    """A request is answered 11, where this node would have answered `otherwise` if it owned a slot."""
    assert with_a_slot(t.node, data.hex().encode()) == otherwise, (len(t.lines), otherwise)
    t.frame(data, 11)


def ties(t):
    """The tie bumps this node's epoch only for a greater id, and only while the epochs are equal."""
    n = t.node
    mine = n.config[1]
    e = n.current
    t.frame(heartbeat(0, e, mine, t.now(1)), 0)
    assert n.current == e
    t.frame(heartbeat(2, e, mine, t.now(1), [], 0), 0)
    assert n.current == e
    t.frame(heartbeat(2, e, mine, t.now(1)), 0)
    assert n.current == e + 1 and n.config[1] == e + 1
    t.frame(heartbeat(2, e, mine, t.now(1)), 0)
    assert n.current == e + 1
    t.frame(heartbeat(4, e + 1, e + 1, t.now(1)), 0)
    assert n.current == e + 2
    t.frame(heartbeat(4, 0, 0, t.now(1), [], 0), 0)


def order(t):
    """Each refusal comes before the later ones."""
    late, far = t.now() - 1, 2**48
    t.frame(report(9, 9, 3, far), 2)
    t.frame(report(9, 1, 1, far), 3)
    t.frame(report(1, 1, 1, far), 6)
    t.frame(report(2, 2, 1, late), 6)
    t.frame(report(2, 0, 1, far), 5)
    t.frame(report(2, 0, 1, late), 4)
    t.frame(heartbeat(5, 0, 1, far, [], 5), 3)
    t.frame(heartbeat(1, 0, 1, far, [], 200), 3)
    t.frame(heartbeat(1, 0, 1, far, [], 1), 8)
    t.frame(heartbeat(1, 0, 1, far, [], 0), 6)
    t.frame(heartbeat(2, 0, 1, late), 5)
    t.frame(heartbeat(2, TOP + 1, 1, late), 5)
    t.frame(heartbeat(2, TOP + 1, TOP + 1, t.now()), 5)
    t.frame(heartbeat(2, 2**64 - 1, TOP, t.now()), 5)
    t.frame(heartbeat(2, 1, 1, late), 4)
    t.frame(heartbeat(2, 1, 1, far), 5)
    t.frame(heartbeat(3, 1, 1, t.now(), [], 1), 0)
    t.frame(heartbeat(3, 1, 1, t.now(), [], 0), 0)
    t.frame(request(1, 0, 1, far), 6)
    t.frame(request(5, 0, 1, far), 3)
    t.frame(request(3, 0, 1, late), 5)
    t.frame(request(3, 0, 0, late), 4)
    t.frame(ack(1, 7, 0, 0), 3)
    t.frame(ack(1, 3, TOP + 1, late), 6)
    t.frame(ack(2, 3, TOP + 1, late), 5)
    t.frame(ack(2, 3, 0, late), 4)
    t.frame(ack(2, 2, 0, t.now()), 31)
    t.frame(ack(0, 1, t.node.current + 3, t.now()), 31)
    t.frame(fail(1, 0, far), 6)
    t.frame(fail(0, 1, far), 6)
    t.frame(fail(5, 1, far), 3)
    t.frame(fail(0, 0, late), 4)
    t.frame(probe(1, 0, late), 6)
    t.frame(probe(255, 0, late), 3)
    t.frame(tick(far), 5)
    t.frame(tick(2**64 - 1), 5)


def odd_lines(t):
    """Lines that are no frames, whatever their length, and the limits of each length."""
    good = tick(t.now()).hex().encode()
    long = heartbeat(2, 0, 0, t.now()).hex().encode()
    for line in (
        b"", b"\r", good + b"\r", b" " + good, good + b" ", good.upper() if good.upper() != good else b"0A", b"0", b"07", good[:-1], good[:-2],
        good + b"0", good + b"00", b"\x00" * 24, b"\xff" * 24, b"/" * 24, b":" * 24, b"`" * 24, b"g" * 24, b"0x" + good, good + good,
        b"00" * 12, b"08" + good[2:], b"ff" + good[2:], b"17" + good[2:], long[:-1], long[:-2], long + b"0", long + b"00", long[:-1] + b"F",
        long[:-1] + b"g", long[:-1] + b"\r", long[:4100] + b"G" + long[4101:], b"01" + good[2:], b"05" + good[2:], b"02" + long[2:], b"04" + good[2:],
    ):
        t.raw(line, 2)
    for kind, size in LENGTHS.items():
        for k in (1, 2, 3):
            data = bytearray(size)
            data[0], data[k] = kind, 255
            t.frame(bytes(data))
    # lines that are longer than a reader's buffer may be, whose beginning or end would be a frame
    for size in (4151, 4153, 4154, 8192, 65535, 65536, 65537, 131072, 200_001):
        for line in (good + b"0" * (size - len(good)), b"0" * (size - len(good)) + good):
            t.raw(line, 2)
    t.raw(b"0" * 65536 + long, 2)
    t.raw(b"0" * (3 * 65536 - len(good)) + good, 2)
    t.raw(good, 0)


def longest_lines(t):
    """Lines around the length from which on one is too long, of digits alone and with one bad character; good frames follow."""
    good = tick(t.now()).hex().encode()
    long = heartbeat(2, 0, 0, t.now()).hex().encode()
    for size in (LONGEST - 1, LONGEST, LONGEST + 1):
        for line in (long + b"0" * (size - len(long)), b"0" * (size - len(good)) + good):
            for mangled in (line, b"\r" + line[1:], line[:-1] + b"g"):
                assert len(mangled) == size
                t.raw(mangled, 2)
                t.raw(good, 0)
        t.raw(long, 0)


# ---- at random


def near(t, n):
    return max(0, n + t.random.choice((-2, -1, 0, 0, 0, 1, 1, 2)))


def step(t):
    """Mostly forwards, by lengths around T and 2T of what the node remembers."""
    n, r = t.node, t.random
    if r.random() < 0.03:
        return max(0, n.clock - r.choice((1, 5, 2000)))
    marks = [x for x in n.ping if x is not None] + list(n.reported.values())
    marks += [x for x in n.failed_at if x is not None]
    if marks and r.random() < 0.45:
        aim = near(t, r.choice(marks) + r.choice((1000, 2000)))
        if n.clock <= aim < n.clock + 10_000:
            return aim
    return n.clock + r.choice((0, 0, 0, 1, 2, 100, 400, 700))


def who(t):
    return t.random.choice((0, 0, 0, 1, 2, 2, 2, 3, 3, 4, 4, 5, 77) if t.random.random() < 0.15 else (0, 0, 2, 2, 3, 4))


def some_slots(t):
    r = t.random
    pool = (0, 1, 7, 8, 63, 64, 5000, 5001, 8191, 8192, 12739, 16382, 16383)
    if r.random() < 0.2:
        start = r.randrange(16384)
        return range(start, min(16384, start + r.choice((10, 500, 9000))))
    return r.sample(pool, r.randrange(5)) + [r.randrange(16384) for _ in range(r.randrange(3))]


def an_epoch(t):
    n, r = t.node, t.random
    return near(t, r.choice((n.current, n.current, n.current, 0, r.choice(n.config), n.config[1])))


def random_short(t):
    r = t.random
    kind = r.choice("rrrffpppppttttaa")
    time = step(t)
    if kind == "r":
        return report(who(t), who(t), r.choice((0, 1, 1, 2, 2, 2, 3) if r.random() < 0.3 else (1, 2)), time)
    if kind == "f":
        return fail(who(t), who(t), time)
    if kind == "p":
        return probe(who(t), r.choice((0, 0, 0, 1)), time)
    if kind == "a":
        return ack(who(t), r.choice((0, 1, 2, 3, 4)), near(t, t.node.current), time)
    return tick(time)


def random_long(t):
    n, r = t.node, t.random
    time = step(t)
    if r.random() < 0.45:
        follows = r.choice((0, 0, 2, who(t))) if r.random() < 0.25 else None
        sender = r.choice((0, 2, 2, 3, 4)) if r.random() < 0.93 else who(t)
        if follows is None and sender in (3, 4) and r.random() < 0.7:
            follows = r.choice((0, 0, 0, 2))
        config = an_epoch(t)
        return heartbeat(sender, max(config if r.random() < 0.97 else 0, an_epoch(t)), config, time, some_slots(t), follows)
    config = an_epoch(t)
    owned = [s for s in (0, 1, 7, 8, 63, 64, 5000, 8191, 16382, 16383) if n.owner[s] < 5]
    slots = list(some_slots(t))[:3]
    if owned and r.random() < 0.5:
        s = r.choice(owned)
        slots, config = [s], near(t, n.config[n.owner[s]])
    current = max(near(t, n.current + 1), config if r.random() < 0.97 else 0)
    return request(r.choice((3, 4, 3, 4, who(t))), current, config, time, slots)


def spoiled(t, data):
    """The line with one digit changed, or made longer or shorter."""
    r = t.random
    line = bytearray(data.hex().encode())
    how = r.randrange(4)
    if how == 0:
        line[r.randrange(min(len(line), 80))] = r.choice(b"0123456789abcdefABCDEFgz \r\x00")
    elif how == 1:
        del line[r.randrange(len(line)) :]
    elif how == 2:
        line += r.choice((b"0", b"00", b"\r", b" "))
    else:
        line[r.randrange(8)] = r.choice(b"0123456789abcdef")
    return bytes(line)


def at_random(t, count, longs):
    for i in range(count):
        r = t.random
        long = r.random() < longs / count
        data = random_long(t) if long else random_short(t)
        if r.random() < (0.02 if long else 0.05):
            t.raw(spoiled(t, data))
        else:
            t.frame(data)


def the_top(t):
    """Epochs and times at their tops; nothing comes after."""
    n = t.node
    t.frame(heartbeat(3, n.current, 0, t.now(), [], 0), 0)
    t.frame(heartbeat(0, n.current, 0, t.now()), 0)
    t.frame(fail(2, 0, t.now()), 0)
    t.frame(heartbeat(2, TOP - 1, n.config[1], t.now(5000)), 0)
    assert n.current == n.config[1] == TOP
    no_vote(t, 10, request(3, TOP, TOP, t.now(), [0, 5000]))
    t.frame(heartbeat(2, TOP, TOP, t.now(1)), 0)
    assert n.current == n.config[1] == TOP
    no_vote(t, 12, request(3, TOP - 1, 0, t.now(9000)))
    t.frame(ack(2, 3, TOP, t.now()), 31)
    t.frame(tick(2**48 - 1), 0)
    t.frame(tick(2**48), 5)
    t.frame(probe(0, 0, 2**48 - 1), 0)
    t.frame(tick(2**48 - 2), 4)


SCENES = (example, no_votes, ties, order, odd_lines, longest_lines)


def recorded(seed, lines, longs):
    """A tape with every scene and frames at random, and the input as bytes. Its last line has no newline."""
    t = Tape(seed)
    for scene in SCENES:
        scene(t)
    at_random(t, lines, longs)
    the_top(t)
    return t, b"".join(line + b"\n" for line in t.lines) + tick(2**48 - 1).hex().encode()


def main():
    options = argparse.ArgumentParser()
    options.add_argument("--seed", type=int, default=20261115)
    options.add_argument("--lines", type=int, default=2300)
    options.add_argument("--longs", type=int, default=420)
    options.add_argument("--to", type=Path, default=CRATE)
    o = options.parse_args()
    t, text = recorded(o.seed, o.lines, o.longs)
    (o.to / "stdin").write_bytes(text)
    (o.to / "stdout").write_text("".join(line + "\n" for line in t.printed))
    print(f"{len(t.lines)} lines, {sum(len(x) > 4000 for x in t.lines)} of them long, {len(text)} bytes")
    names = {0: "", 1: "heartbeat", 2: "report", 3: "fail", 4: "request", 5: "ack", 6: "probe", 7: "tick"}
    for answer in sorted(k for k in t.seen if isinstance(k, int)):
        kinds = ", ".join(f"{names[k]} {t.seen[answer, k]}" for k in names if k and t.seen[answer, k])
        print(f"answer {answer:2}: {t.seen[answer]:5}   {kinds}")
    print("with a slot of its own 11 would be: " + ", ".join(f"{answer} {t.behind[answer]} times" for answer in sorted(t.behind)))


if __name__ == "__main__":
    main()
