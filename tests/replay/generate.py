#!/usr/bin/env python3
"""A run file for the program `replay`, at random but mostly meaningful.

    python3 tests/replay/generate.py SEED COUNT >run.txt
    python3 tests/replay/generate.py --votes SEED COUNT >run.txt

The reference beside this file plays each line as it is written, so that frames carry what their sender knows, times and
epochs lie near what the receiver remembers, and acks mostly follow grants. The network between the nodes has faults: frames
are lost, come twice, come late (with the time at which they come, or with the old one), are malformed, or are forged in a
real node's name. Some come by a serial bridge, in pieces that are cut anywhere, with mangled bytes and lines that are too
long. Some lines of the file do not fit. Masters without slots are there from the start, others lose their last slot or come to
their first, and the tables differ from node to node: who may vote, and who counts, goes by the table of the node that looks.
Tables are listed, rarely one with a range for each slot. Households are looked up, over slots that are owned, unowned, moving or
moved, over tables that send the gateway round, and over nodes that know a slot's owner by an epoch just below the cached one, the
same or just above it.

With --votes most lines are vote requests, each at one of the limits of the voter that gets it, and few come by the bridge.

The same words give the same file. The count is about the number of lines.
"""
import random
import re
import sys
from pathlib import Path

sys.dont_write_bytecode = True  # nothing is left behind in the repository
sys.path.insert(0, str(Path(__file__).resolve().parent))
from reference import FORMS, LONGEST, LONGEST_KEY, TOP, Run, bitmap, slot_of  # noqa: E402

TAGS = [b"foo", b"bar", b"{house12}:phone", b"{house12}:second", b"house41", b"123456789", b"a}b{c", b"foo{}{x}", b"foo{{bar}}zap"]
ODD_NUMBERS = ["00", "007", "99", "100", "255", "256", "600000", "600001", "16383", "16384", "65535", "65536", "281474976710655"]
ODD_NUMBERS += ["281474976710656", "999999999999999999", "1000000000000000000", "1000000000000000001", "0" * 30 + "5"]
ODD_NUMBERS += ["9223372036854775808", "18446744073709551616", "18446744073709551621", "340282366920938463463374607431768211457"]
ODD_WORDS = ODD_NUMBERS + ["", "-1", "+1", "1.5", "0x10", "1e3", "all", "of", "for", "present", "asking", "claims", "held", "0-", "-5", "5-4", "3-3", "0-1-2", "x", "\x0b", "\x00"]


def byte(n):
    return f"{n % 256:02x}"


def wide(n):
    return f"{n % 2**64:016x}"


class Tape:
    def __init__(self, seed, bridged, spelled):
        self.random = random.Random(seed)
        self.bridged = bridged  # how many of the frames come by the bridge
        self.spelled = spelled  # how many of the bitmaps are put in digits
        self.run = Run()
        self.lines = []
        self.granted = []  # voter, candidate, epoch
        self.late = []  # frames on their way: after which line they come, to whom, digits and slots
        self.wires = {}  # node -> what its bridge has not handed over yet

    # ---- writing

    def put(self, line):
        """A line, its blanks now and then other ones, a comment behind it; the reference plays it."""
        r = self.random
        raw = line if isinstance(line, bytes) else line.encode()
        if r.random() < 0.04:
            raw = r.choice((b"  ", b"\t", b"\r")) + raw.replace(b" ", r.choice((b"  ", b"\t", b" \t ", b"\r")))
        if r.random() < 0.04:
            raw += r.choice((b"\r", b" ", b" # why", b"#", b"\t#\t# open 0 0"))
        self.put_as_it_is(raw)

    def put_as_it_is(self, raw):
        """The reference plays it, and the votes that it tells of are remembered. A line's calls are all on one node."""
        self.lines.append(raw)
        told = "\n".join(self.run.line(len(self.lines), raw))
        for epoch, candidate in re.findall(r"  vote of epoch (\d+) granted to node (\d+)", told):
            voter = re.match(r"\d+ node (\d+)", told)[1]
            self.granted.append((int(voter), int(candidate), int(epoch)))

    def frame(self, to, digits, slots=None):
        """A frame is sent: it comes, comes twice, comes later, or never."""
        r = self.random
        fate = r.random()
        if fate < 0.03:
            return
        if fate < 0.09:
            self.late.append((len(self.lines) + r.randrange(1, 40), to, digits, slots))
        if fate >= 0.06:
            self.deliver(to, digits, slots)

    def deliver_late(self):
        """What was on its way, mostly with the time at which it comes."""
        due = [x for x in self.late if x[0] <= len(self.lines)]
        self.late = [x for x in self.late if x[0] > len(self.lines)]
        for _, to, digits, slots in due:
            at = {"01": 40, "04": 40, "05": 24}.get(digits[:2], 8)
            if self.random.random() < 0.7:
                digits = digits[:at] + wide(self.time(self.nodes()[to])) + digits[at + 16 :]
            self.deliver(to, digits, slots)

    def deliver(self, to, digits, slots=None):
        """A frame comes; a bitmap is put as ranges, or now and then all in digits. Or the frame is handed to the bridge."""
        r = self.random
        ranges = stretches(slots or [])
        if r.random() < self.bridged:
            whole = digits.encode() + (b"" if slots is None else bitmap(ranges))
            self.wires[to] = self.wires.get(to, b"") + mangled(r, whole) + b"/"
            return self.hand_over(to)
        if slots is not None:
            if r.random() < self.spelled or len(ranges) > 60:
                digits += bitmap(ranges).decode()
            else:
                r.shuffle(ranges)
                digits += " claims" + "".join(f" {x[0]}-{x[-1]}" if len(x) > 1 or r.random() < 0.1 else f" {x[0]}" for x in ranges)
        if r.random() < 0.02:
            digits = spoiled(r, digits)
        self.put(f"frame {to} {digits}")

    def hand_over(self, to):
        """What a node's bridge has, all of it or some, in pieces that are cut anywhere; now and then an empty one."""
        r = self.random
        wire = self.wires.get(to, b"")
        stays = r.randrange(len(wire) + 1) if r.random() < 0.3 else 0
        size = max(len(wire) // 8, r.choice((5, 30, 200, 2000, 4000, 4000, 4150)))
        while len(wire) > stays:
            piece = wire[: r.choice((r.randrange(size), size, size))]
            self.put(b"piece %d %s" % (to, piece))
            wire = wire[len(piece) :]
        self.wires[to] = wire
        if r.random() < 0.1:
            self.put(f"piece {to}")

    # ---- what to write

    def nodes(self):
        return self.run.nodes

    def node(self):
        return self.random.choice(self.run.nodes)

    def other(self, node):
        """Another node's number, rarely its own or one that is not there."""
        r = self.random
        if r.random() < 0.03 or node.size == 1:
            return r.choice((node.me, node.size, 200))
        return r.choice([k for k in range(node.size) if k != node.me])

    def time(self, node):
        """Mostly forwards, by lengths around T, 2T and 4T of what the node remembers."""
        r = self.random
        if r.random() < 0.02:
            return max(0, node.clock - r.choice((1, 5, 2000)))
        marks = [x for x in node.ping + node.voted_at + node.failed_at if x is not None] + [x for x in node.reported.values() if x < 2**40]
        if node.election:
            marks += [node.election["opened"]] * 3
        if marks and r.random() < 0.35:
            aim = r.choice(marks) + r.choice((node.T, 2 * node.T, 2 * node.T, 4 * node.T, 2000, 4000)) + r.choice((-1, 0, 0, 1, 1))
            if node.clock <= aim < node.clock + 10 * node.T + 10_000:
                return aim
        return node.clock + r.choice((0, 0, 0, 1, 2, 50, 100, 400))

    def near(self, n):
        return max(0, n + self.random.choice((-1, 0, 0, 0, 0, 1, 2)))

    def some_slots(self):
        r = self.random
        start = r.randrange(16384)
        few = [r.choice((0, 1, 7, 8, 63, 64, 5460, 5461, 10922, 10923, 16382, 16383)), r.randrange(16384)]
        return r.choice(([], few[:1], few, range(start, min(16384, start + r.choice((3, 900, 9000)))), range(0, 16384, 700)))


def stretches(slots):
    """Slots as ranges, as long as they go."""
    out = []
    for s in sorted(set(slots)):
        if out and s == out[-1][-1] + 1:
            out[-1] = range(out[-1][0], s + 1)
        else:
            out.append(range(s, s + 1))
    return out


def spoiled(r, digits):
    """One digit other, too many or too few."""
    head, blank, rest = digits.partition(" ")
    place = r.randrange(min(len(head), 60))
    head = r.choice((head[:place] + r.choice("0123456789abcdefAFg") + head[place + 1 :], head[:-1], head[:-2], head + "0", head + "00", head[:place] or "0"))
    return head + blank + rest


def mangled(r, line):
    """Now and then some bytes are others, too many or too few; a slash is a newline that the bridge made up."""
    while r.random() < 0.12:
        place = r.randrange(len(line) + 1) if r.random() < 0.5 else r.randrange(min(60, len(line) + 1))
        odd = bytes([r.choice(b"0123456789abcdef" * 2 + b"AFgz~/\x7f\x80\xff")])
        line = r.choice((line[:place] + odd + line[place + 1 :], line[:place] + odd + line[place + 1 :], line[:place] + odd + line[place:], line[:place] + line[place + 1 :]))
    return line


# ---- frames


def heartbeat(t, to=None, sender=None):
    """What the sender would say of itself, to another; now and then made up."""
    r = t.random
    to = to or t.node()
    sender = t.other(to) if sender is None else sender
    says = t.nodes()[sender] if sender < to.size else t.node()
    follows, current, config = says.follows.get(says.me), says.current, says.config[says.me]
    slots = [s for s in range(16384) if says.owner[s] == says.me] if follows is None else []
    if r.random() < 0.25:
        config = t.near(r.choice((config, r.choice(to.config), to.config[to.me])))
        current = max(t.near(current), config if r.random() < 0.9 else 0)
        slots = r.choice((slots, t.some_slots()))
    if r.random() < 0.04:
        follows = r.choice((None, t.other(to), sender))
    role = "0000" if follows is None else "01" + byte(follows)
    t.frame(to.me, "01" + byte(sender) + role + wide(current) + wide(config) + wide(t.time(to)), slots)


def report(t):
    r, to = t.random, t.node()
    sick = [k for k in range(to.size) if to.flag[k] == "PFAIL"]
    subject = r.choice(sick) if sick and r.random() < 0.7 else t.other(to)
    t.frame(to.me, "02" + byte(t.other(to)) + byte(subject) + byte(r.choice((0, 1, 1, 1, 2, 2, 3) if r.random() < 0.3 else (1, 2))) + wide(t.time(to)))


def fail(t):
    to = t.node()
    t.frame(to.me, "03" + byte(t.other(to)) + byte(t.other(to)) + "00" + wide(t.time(to)))


def probe(t):
    to = t.node()
    t.frame(to.me, "06" + byte(t.other(to)) + byte(t.random.choice((0, 0, 0, 1))) + "00" + wide(t.time(to)))


def tick(t):
    to = t.node()
    t.frame(to.me, "07000000" + wide(t.time(to)))


def request(t, to=None, candidate=None):
    """What a candidate would ask; now and then somebody else, or with other epochs and slots."""
    r = t.random
    to = to or t.node()
    running = [n for n in t.nodes() if n.election and n.me != to.me]
    if candidate is None and running and r.random() < 0.7:
        candidate = r.choice(running).me
    if candidate is None:
        candidate = t.other(to)
    asks = t.nodes()[candidate] if candidate < to.size else t.node()
    master = asks.follows.get(asks.me, asks.me)
    epoch = asks.election["epoch"] if asks.election else t.near(to.current + 1)
    config = asks.config[master]
    slots = [s for s in range(16384) if asks.owner[s] == master]
    if r.random() < 0.2:
        config, slots = t.near(config), r.choice((slots, t.some_slots()))
        epoch = max(t.near(epoch), config if r.random() < 0.95 else 0)
    t.frame(to.me, "04" + byte(candidate) + "0000" + wide(epoch) + wide(config) + wide(t.time(to)), slots)


def vote(t):
    """A voter is brought to where one answer is due, and asked."""
    r = t.random
    able = [n for n in t.nodes() if n.voting(n.me)]
    to = r.choice(able) if able and r.random() < 0.95 else t.node()
    wanted = r.choice((10, 12, 13, 14, 15, 15, 16, 16, 17, 17, 18))
    if wanted == 13 and to.last_vote < to.current:
        ask(t, to, 10)
    if wanted == 16 and not any(x is not None and to.clock - x < 2 * to.T for x in to.voted_at):
        ask(t, to, 10)
    ask(t, to, wanted)


def ask(t, to, wanted):
    """A request that fits the voter in all but one thing, which is just short of what a grant needs. For 10 nothing is short."""
    r = t.random
    fit = [k for k in to.follows if k != to.me and to.follows[k] != to.me and to.master(to.follows[k])]
    if not fit:  # one that is a replica says so
        true = [n.me for n in t.nodes() if n.me in n.follows and n.me != to.me]
        fit = [r.choice(true) if true else t.other(to)]
        heartbeat(t, to, fit[0])
    if wanted == 14:
        fit = [k for k in range(to.size) if k != to.me and k not in fit] or fit
    if wanted == 16:
        fit = [k for k in fit if k in to.follows and to.voted_at[to.follows[k]] is not None] or fit
    candidate = r.choice(fit)
    master = to.follows.get(candidate, t.other(to))
    if master >= to.size or master == to.me:
        return
    failed = to.flag[master] == "FAIL"
    if wanted == 15 and failed:  # a pong that is late enough clears it
        t.frame(to.me, "06" + byte(master) + "0100" + wide(max(to.clock, to.failed_at[master] + 2 * to.T + r.choice((0, 1, 1)))))
    elif wanted != 15 and not failed and r.random() < 0.9:
        t.frame(to.me, "03" + byte(candidate) + byte(master) + "00" + wide(to.clock))
    time = to.clock + r.choice((0, 0, 1, 50))
    if to.voted_at[master] is not None and wanted != 13:
        time = max(to.clock, to.voted_at[master] + 2 * to.T - (wanted == 16))
    slots = r.choice(([r.randrange(16384)], r.sample(range(16384), 3), range(r.randrange(16384), 16384)[:200]))
    if wanted == 17 and not any(to.owned(s) and to.config[to.owner[s]] for s in slots):  # a newer owner takes one of them
        owner = r.choice([k for k in range(to.size) if k != to.me and to.master(k)] or [master])
        config = max(to.config) + 1
        t.frame(to.me, "01" + byte(owner) + "0000" + wide(max(config, to.current)) + wide(config) + wide(to.clock), [r.choice(slots)])
    config = max((to.config[to.owner[s]] for s in slots if to.owned(s)), default=0)
    config = max(0, config - 1) if wanted == 17 else config
    epoch = {12: to.current - 1, 13: to.last_vote}.get(wanted, max(to.current, to.last_vote + 1) + r.choice((0, 0, 0, 1)))
    if wanted in (12, 13):
        config = min(config, max(epoch, 0))
    t.frame(to.me, "04" + byte(candidate) + "0000" + wide(max(epoch, config)) + wide(config) + wide(time), [] if wanted == 18 else slots)


def silence(t):
    """A node waits for another longer than T, and hears what the others say of it, lately or 2T ago. Whether that makes it FAIL
    goes by those that own slots in the table of the node that waits."""
    r, to = t.random, t.node()
    subject = t.other(to)
    if subject == to.me or subject >= to.size:
        return
    start = to.clock + r.choice((0, 1, 50))
    if to.flag[subject] == "FAIL" and r.random() < 0.7:
        start = max(start, to.failed_at[subject] + 2 * to.T + 1)
        t.frame(to.me, "06" + byte(subject) + "0100" + wide(start))
    t.frame(to.me, "06" + byte(subject) + "0000" + wide(start))
    tell = [k for k in range(to.size) if k not in (to.me, subject) and r.random() < 0.5]
    r.shuffle(tell)
    early = tell[: r.randrange(len(tell) + 1)]
    for k in early:
        t.frame(to.me, "02" + byte(k) + byte(subject) + byte(r.choice((1, 2))) + wide(start))
    now = start + r.choice((to.T, to.T + 1, to.T + 1, 2 * to.T, 2 * to.T + 1))
    t.frame(to.me, "07000000" + wide(now))
    for k in tell[len(early) :]:
        t.frame(to.me, "02" + byte(k) + byte(subject) + byte(r.choice((0, 1, 1, 1, 2))) + wide(now))


def ack(t, to=None):
    """Mostly of a vote that was granted, lately if there is such a one; now and then made up."""
    r = t.random
    running = [n for n in t.nodes() if n.election]
    if to is None:
        to = r.choice(running) if running and r.random() < 0.9 else t.node()
    mine = [g for g in t.granted if g[1] == to.me and g[0] != to.me]
    if mine and r.random() < 0.75:
        voter, candidate, epoch = r.choice(mine[-4:])
    else:
        voter, candidate = t.other(to), to.me
        epoch = to.election["epoch"] if to.election else to.current
    if r.random() < 0.12:
        epoch, candidate = t.near(epoch), r.choice((candidate, candidate, t.other(to)))
    t.frame(to.me, "05" + byte(voter) + byte(candidate) + "00" + wide(epoch) + wide(t.time(to)))


def forged(t):
    """In a real node's name: a vote that nobody gave, for whoever runs, or slots that nobody gave up, in an epoch of its own."""
    r = t.random
    running = [n for n in t.nodes() if n.election]
    if running and r.random() < 0.7:
        to = r.choice(running)
        voters = sorted(to.election["voters"]) or [0]
        return t.frame(to.me, "05" + byte(r.choice(voters)) + byte(to.me) + "00" + wide(to.election["epoch"]) + wide(t.time(to)))
    to = t.node()
    epoch = max(to.config) + r.choice((0, 1, 1, 2))
    return t.frame(to.me, "01" + byte(t.other(to)) + "0000" + wide(max(epoch, to.current)) + wide(epoch) + wide(t.time(to)), t.some_slots())


# ---- the other calls


def opening(t, node=None):
    r = t.random
    replicas = [n for n in t.nodes() if n.me in n.follows]
    node = node or (r.choice(replicas) if replicas and r.random() < 0.85 else t.node())
    t.put(f"open {node.me} {t.time(node) if r.random() < 0.98 else r.choice((2**48, 2**48 - 1 + 2**49, 10**18))}")


def mark(t):
    r, node = t.random, t.node()
    slot = r.choice((slot_of(r.choice(TAGS)), r.choice((0, 1, 5460, 5461, 16383, r.randrange(30)))))
    if r.random() < 0.03:
        slot = r.choice((16384, 65535))
    owns = slot < 16384 and node.owner[slot] == node.me
    if node.marks and r.random() < 0.25:
        return t.put(f"unmark {node.me} {r.choice(list(node.marks)) if r.random() < 0.8 else slot}")
    if owns != (r.random() < 0.12):
        return t.put(f"migrate {node.me} {slot} to {t.other(node)}")
    return t.put(f"import {node.me} {slot} from {t.other(node)}")


def many_marks(t):
    """Enough of them for the seventeenth to be refused."""
    node = t.node()
    for slot in t.random.sample(range(40), 19):
        side = "migrate", "to"
        if node.owner[slot] != node.me:
            side = "import", "from"
        t.put(f"{side[0]} {node.me} {slot} {side[1]} {t.other(node)}")


def key(t):
    r, node = t.random, t.node()
    name = r.choice(TAGS) if r.random() < 0.8 else bytes(r.choice(b"abc{}") for _ in range(r.randrange(1, 9)))
    marked = [x for x in TAGS if slot_of(x) in node.marks]
    if marked and r.random() < 0.6:
        name = r.choice(marked)
    rest = r.choice(("present", "absent", "absent")) + r.choice(("", " asking"))
    if r.random() < 0.3:
        name = r.choice((name, name + b" #2", b"\xff" + name, bytes(r.randrange(256) for _ in range(r.randrange(1, 40)))))
        return t.put(f"hexkey {node.me} {name.hex()} {rest}")
    if r.random() < 0.1:
        name += r.choice((b"\xe4", b"\x0b", b"\x00", b"\x0c", b"\x7f"))
    return t.put(b"key %d %s %s" % (node.me, name, rest.encode()))


def ranges(t):
    """A node's table is listed, with room for every table, for about as many ranges as there are, or for few. Rarely the table is
    striped before, a range for each slot, and one owner's afterwards."""
    r, node = t.random, t.node()
    if r.random() < 0.95:
        return listed(t, node)
    whole = f"slots 0-16383 of {r.randrange(node.size)} for {node.me}"
    config = max(node.config) + 1
    t.put(whole)
    t.frame(node.me, "01" + byte(t.other(node)) + "0000" + wide(max(config, node.current)) + wide(config) + wide(t.time(node)), range(r.randrange(2), 16384, 2))
    listed(t, node)
    t.put(whole)
    return listed(t, node)


def listed(t, node):
    r = t.random
    needed = 3 * sum(owner is not None for _, _, owner in node.stretches())
    near = max(0, needed + r.choice((-3, -1, -1, 0, 0, 1, 3)))
    room = r.choice(("", "", near, near, r.randrange(21), r.choice((0, 49151, 49152, 49153, 65535))))
    t.put(f"ranges {node.me} {room}".rstrip())


def lookups(t):
    """Some households are looked up, one after the other. Now and then one slot is seen to before, and then they are on that slot."""
    r = t.random
    scene = r.choice((None, None, None, sent_on, moving, aged, aged))
    name = r.choice(TAGS) if scene else None
    for i in range(r.choice((1, 1, 2, 2, 4))):
        if scene and (i == 0 or scene is aged and r.random() < 0.8):
            scene(t, slot_of(name))
        lookup(t, name)


def lookup(t, name=None):
    """A lookup of a key with that tag, or of any. Some nodes have the key, in any order; rarely one that is not there has."""
    r, size = t.random, len(t.nodes())
    marked = [x for x in TAGS if any(slot_of(x) in n.marks for n in t.nodes())]
    if name is None:
        name = r.choice(TAGS if not marked or r.random() < 0.4 else marked)
        if r.random() < 0.15:
            name = bytes(r.choice(b"abc{}") for _ in range(r.randrange(1, 9)))
    if r.random() < 0.06:
        name = b"{%s}%s" % (name.strip(b"{}"), b"x" * LONGEST_KEY)
        name = name[: r.choice((LONGEST_KEY - 1, LONGEST_KEY, LONGEST_KEY, LONGEST_KEY + 1, LONGEST_KEY + 1))] + b"x" * r.choice((0, 0, 0, 3000))
    if r.random() < 0.05:
        name += r.choice((b"\xe4", b"\xc3\xa4", b"\x0b", b"\x00", b"\x7f", b"\xff", b"/", b"~", b"%"))
    held = [k for k in range(size) if r.random() < r.choice((0.1, 0.5, 0.9))] * r.choice((1, 1, 1, 1, 3))
    r.shuffle(held)
    if r.random() < 0.03:
        held.insert(r.randrange(len(held) + 1), r.choice((size, 200, 255)))
    household = r.choice((r.randrange(41_000), r.randrange(41_000), 12, r.choice((0, 2**32, 10**18 - 1, 10**18))))
    t.put(b" ".join([b"lookup", b"%d" % household, name, b"held"] + [b"%d" % k for k in held]))


def sent_on(t, slot):
    """Some nodes' tables send on a lookup of a slot from one to the next: the last one owns it, knows no owner, or the first is next."""
    r, size = t.random, len(t.nodes())
    way = r.sample(range(size), min(size, r.choice((1, 2, 2, 3, 4, 5, 5, 6, 7))))
    for k, owner in zip(way, way[1:] + [r.choice((way[0], way[-1], way[-1], 65535))]):
        t.put(f"slots {slot} of {owner} for {k}")


def aged(t, slot, least=0):
    """A way for a lookup of the slot, from the node that it asks first. Each node on it knows the next by the same epoch as was told
    before, at first the cached one, or by one just above; only the last, which may be a fifth or behind an ASK, also by one just below."""
    r, size, gateway = t.random, len(t.nodes()), t.run.gateway
    if size < 2:
        return
    up, near, asks = (0, 0, 1), (-1, -1, 0, 0, 1), r.random() < 0.25
    epoch = max(least, gateway.epoch(size, slot))
    way = [gateway.cached[slot] if gateway.cached[slot] < size else 0]
    for left in reversed(range(r.choice((1, 1, 1, 2, 2, 3, 4, 5, 5, 5, 5)))):
        node = t.nodes()[way[-1]]
        epoch = min(TOP, max(0, epoch + r.choice(up if left or asks else near)))
        others = [x for x in range(size) if x != node.me]
        new = [x for x in others if x not in way] if left else others
        way.append(r.choice([x for x in new if node.config[x] <= epoch] or new or others))
        epoch = max(epoch, node.config[way[-1]])
        names_owner(t, node, slot, way[-1], epoch)
    end = way[-1]
    if asks:  # the peer is told nothing of the move, and names the owner
        peers = [n for n in t.nodes() if n.me != end]
        peer = r.choice([n for n in peers if n.config[end] < epoch] or peers)
        t.put(f"slots {slot} of {end} for {end}")
        t.put(f"migrate {end} {slot} to {peer.me}")
        names_owner(t, peer, slot, end, min(TOP, max(0, epoch + r.choice(near))))
    elif r.random() < 0.6:
        t.put(f"slots {slot} of {r.choice((end, end, end, 65535))} for {end}")


def names_owner(t, node, slot, to, epoch):
    """A node comes to name another as a slot's owner, and to know it by this epoch, if not by a higher one: it alone hears of that."""
    if node.config[to] < epoch:
        t.frame(node.me, "01" + byte(to) + "0000" + wide(epoch) + wide(epoch) + wide(t.time(node)), t.random.choice(([], [slot])))
    if node.owner[slot] != to:
        t.put(f"slots {slot} of {to} for {node.me}")


def moving(t, slot):
    """A slot is on its way from one node to another: with both marks, or one of them, or with the owner written already."""
    r, size = t.random, len(t.nodes())
    if size < 2:
        return
    source, target = r.sample(range(size), 2)
    t.put(f"slots {slot} of {source} for all")
    if r.random() < 0.9:
        t.put(f"import {target} {slot} from {source}")
    if r.random() < 0.9:
        t.put(f"migrate {source} {slot} to {target}")
    lookup(t, next(x for x in TAGS if slot_of(x) == slot))
    if r.random() < 0.3:
        t.put(f"slots {slot} of {target} for {r.choice((source, target, 'all'))}")


def entries(t):
    """What the old code writes: slots and report times."""
    r, node = t.random, t.node()
    if r.random() < 0.5:
        return t.put(f"report {node.me} {r.randrange(node.size)} {r.randrange(node.size)} {max(0, node.clock - r.choice((0, 0, node.T, 2 * node.T, 2 * node.T - 100, -1, -100)))}")
    first = r.choice((0, r.randrange(16384), slot_of(r.choice(TAGS))))
    last = min(16383, first + r.choice((0, 0, 1, 500)))
    owner = r.choice((r.randrange(node.size), r.randrange(node.size), node.size, 65535))
    return t.put(f"slots {f'{first}-{last}' if last > first else first} of {owner} for {r.choice((node.me, node.me, 'all'))}")


def first_or_last(t):
    """A master loses all of its slots, or comes to its first, in one table or in all: the old code writes it, or a heartbeat says it."""
    r, node = t.random, t.node()
    masters = [k for k in range(node.size) if node.master(k)]
    if not masters:
        return
    k = r.choice(masters)
    where = r.choice((node.me, node.me, "all"))
    held = stretches(s for s in range(16384) if node.owner[s] == k)
    heir = r.choice((r.choice(masters), 65535)) if held else k
    slots = held or [range(s, s + 1) for s in [r.randrange(16384)]]
    if heir < node.size and heir != node.me and (len(slots) > 4 or r.random() < 0.4):
        config = max(node.config) + 1
        return t.frame(node.me, "01" + byte(heir) + "0000" + wide(max(config, node.current)) + wide(config) + wide(t.time(node)), [s for x in slots for s in x])
    for x in slots[:8]:
        t.put(f"slots {x[0]}-{x[-1]} of {heir} for {where}")


def bridge(t):
    """More of what a node's bridge has. Before it, now and then, a line about as long as may be, or far longer."""
    r, node = t.random, t.node()
    if r.random() < 0.4:
        long = r.choice((4199, 4200, 4201, 4201, r.randrange(4100, 4300), r.randrange(4201, 14000)))
        line = bytes(r.choice(b"0123456789abcdef") for _ in range(long)) if r.random() < 0.5 else b"07" * (long // 2) + b"z" * (long % 2)
        t.wires[node.me] = t.wires.get(node.me, b"") + line + b"/" + b"07000000" + wide(t.time(node)).encode() + b"/"
    t.hand_over(node.me)


def long_line(t):
    """A line of the file that is about as long as may be, or far longer."""
    r, node = t.random, t.node()
    line = r.choice((b"# why", b"", b"open %d %d # " % (node.me, t.time(node)), b"piece %d 07" % node.me, b"key %d foo" % node.me, b"lookup 12 foo", b"frame %d 0700" % node.me))
    long = r.choice((LONGEST - 1, LONGEST, LONGEST, LONGEST + 1, LONGEST + 1, 2 * LONGEST, r.randrange(LONGEST, 150_000)))
    t.put_as_it_is(line + r.choice((b"0", b" ", b"a")) * (long - len(line)))


def bad(t):
    """A line that fits or nearly fits, with one word other, too many or too few; or nothing at all."""
    r = t.random
    if r.random() < 0.2:
        return t.put(r.choice(("", "   ", "\t", "# only a comment", "\r", "#", "what is this", "Open 0 0", "rosters 3", "ope 0 0", "\x00", b"\xff\xfe")))
    word = r.choice(list(FORMS)).decode()
    good = {
        "roster": "roster 3", "replica": "replica 1 of 0", "timeout": "timeout 0 1000", "slots": "slots 5-9 of 0 for all", "report": "report 0 0 0 5",
        "frame": "frame 0 07000000000000000000 claims 5 7-9", "piece": "piece 0 07/", "open": "open 0 5", "migrate": "migrate 0 5 to 1", "import": "import 0 5 from 1",
        "unmark": "unmark 0 5", "key": "key 0 foo absent asking", "hexkey": "hexkey 0 666f6f present asking",
        "ranges": "ranges 0 12", "lookup": "lookup 12 foo held 0 0 0 0 0 0",
    }[word].split()
    place = r.randrange(1, len(good))
    how = r.randrange(6)
    if how <= 1:
        good[place] = r.choice(ODD_WORDS)
    elif how == 2:
        good = good[: place]
    elif how == 3:
        good.insert(place + 1, r.choice(ODD_WORDS))
    elif how == 4:
        good[place] = r.choice((good[place].upper(), good[place] + "#", str(t.random.randrange(20))))
    elif word in ("frame", "lookup"):
        good += [str(r.choice((0, 0, 0, k)) if word == "lookup" else k) for k in range(r.choice((53, 54, 55, 58, 59, 60, 61, 62, 80)))]
    return t.put(" ".join(good))


def comes_back(t, to, master):
    """Its old master is heard again while a node's election is open, in an epoch around the election's: where it is not below, a win passes nothing."""
    r = t.random
    config = max(0, to.election["epoch"] + r.choice((-1, 0, 0, 1, 4)))
    slots = [s for s in range(16384) if t.nodes()[master].owner[s] == master]
    t.frame(to.me, "01" + byte(master) + "0000" + wide(max(config, to.current)) + wide(config) + wide(to.clock + r.choice((0, 1, 50))), slots)


def failover(t):
    """A whole election, with losses: a master with slots is FAIL for most, its replicas open, ask and hear; now and then the master comes back meanwhile."""
    r = t.random
    replicas = [n for n in t.nodes() if n.me in n.follows]
    if not replicas:
        return
    first = r.choice(replicas)
    master = first.follows[first.me]
    if master not in first.owner and r.random() < 0.8:
        t.put(f"slots {r.choice(('0-99', '5000-6000', '0-5460'))} of {master} for {r.choice((first.me, 'all'))}")
    for n in t.nodes():
        if n.me != master and r.random() < 0.9:
            t.frame(n.me, "03" + byte(next(k for k in range(n.size + 1) if k != n.me)) + byte(master) + "00" + wide(n.clock + r.choice((0, 1, 2 * n.T))))
    runners = [first] + [n for n in replicas if n is not first and n.follows[n.me] == master and r.random() < 0.6]
    for n in runners:
        wait = max(4 * n.T, 4000) if n.election and r.random() < 0.8 else 0
        t.put(f"open {n.me} {n.clock + wait + r.choice((0, 1, 100))}")
    voters = [n for n in t.nodes() if n.me not in n.follows and n.me != master]
    for n in runners:
        for voter in voters:
            if r.random() < 0.85:
                request(t, voter, n.me)
    for n in runners:
        if n.election and r.random() < 0.35:
            comes_back(t, n, master)
        for _ in range(r.randrange(2, 6 + len(voters))):
            if n.election:
                ack(t, n)
    for n in runners:
        for k in range(n.size):
            if n.me not in n.follows and k != n.me and r.random() < 0.7:
                heartbeat(t, t.nodes()[k], n.me)


def the_top(t):
    """Epochs and times at their tops."""
    for node in t.nodes():
        other = t.other(node)
        t.frame(node.me, "01" + byte(other) + "0000" + wide(TOP - t.random.choice((0, 1, 2))) + wide(node.config[node.me]) + wide(node.clock), [])
    failover(t)
    for name in t.random.sample(TAGS, 3):
        for _ in range(3):
            aged(t, slot_of(name), TOP - t.random.choice((0, 1, 2)))
            lookup(t, name)
    for node in t.nodes():
        t.frame(node.me, "07000000" + wide(2**48 - t.random.choice((0, 1))))
        t.put(f"open {node.me} {2**48 - 1}")


# ---- a whole file


def begin(t, sizes):
    """The roster and its first slots. The masters are some of the nodes, among them some without slots."""
    r = t.random
    if r.random() < 0.3:
        t.put(r.choice(("open 0 0", "slots 0-9 of 0 for all", "replica 1 of 0", "key 0 foo absent", "ranges 0", "lookup 12 foo held 0", "roster 0", "roster 17", "frame 0 zz")))
    size = r.choice(sizes)
    t.put(f"roster {size}")
    while t.run.nodes is None:
        t.put(f"roster {size}")
    masters = list(range(r.randrange(1, size + 1) if size < 5 or r.random() < 0.3 else r.randrange(2, size - 1)))
    if r.random() < 0.4:
        r.shuffle(masters)
    for k in range(size):
        if k not in masters:
            t.put(f"replica {k} of {r.choice(masters[:2] + masters if r.random() < 0.95 else range(size))}")
        if r.random() < 0.25:
            t.put(f"timeout {k} {r.choice((100, 300, 500, 1500, 3000, 600000))}")
        if r.random() < 0.08:
            bad(t)
    held = sorted(k for k in masters if r.random() < 0.75) or masters[:1]  # the others are masters without slots
    for i, k in enumerate(held):
        whose = "all" if r.random() < 0.6 else k
        t.put(f"slots {16384 * i // len(held)}-{16384 * (i + 1) // len(held) - 1} of {k} for {whose}")


def generate(seed, count, votes):
    t = Tape(seed, *((0.01, 0.01) if votes else (0.15, 0.06)))
    begin(t, (5, 6, 6, 7, 8, 9, 12) if votes else (1, 2, 3, 4, 5, 5, 5, 6, 6, 7, 8, 9, 12, 16))
    plain = [heartbeat] * 14 + [report] * 8 + [fail] * 3 + [probe] * 14 + [tick] * 14 + [request] * 8 + [ack] * 10 + [forged] * 3
    plain += [opening] * 6 + [mark] * 8 + [key] * 12 + [ranges] * 3 + [entries] * 4 + [bad] * 6 + [failover] * 6
    plain += [bridge] * 3 + [long_line] + [silence] * 3 + [first_or_last] * 2 + [vote] * 3 + [lookups] * 6
    if votes:
        plain = [vote] * 60 + [heartbeat] * 4 + [forged] * 2 + [silence] * 2 + [first_or_last] * 4 + [entries] * 2 + [tick] * 2
        plain += [opening] * 2 + [ack] * 3 + [failover] + [bad] + [ranges] + [lookups] * 3
    while len(t.lines) < count:
        t.random.choice(plain)(t)
        t.deliver_late()
        if not votes and t.random.random() < 0.004:
            many_marks(t)
    if t.random.random() < 0.3:
        the_top(t)
    return b"\n".join(t.lines) + t.random.choice((b"\n", b""))


if __name__ == "__main__":
    words = sys.argv[1:]
    votes = words[:1] == ["--votes"]
    sys.stdout.buffer.write(generate(*map(int, words[votes:]), votes))
