#!/usr/bin/env python3
"""What the program `replay` must print: a second opinion, written from docs/REPLAY.md and documents 01 and 02.

    python3 tests/replay/reference.py FILE..

Each file is a run, and has the line `run FILE` before it and an empty line between it and the next. A file that cannot be read
is named on standard error alone. Without a file, standard input is the one run, with no line before it.

Not written from the Rattle code. The frames' rules come from tests/node/reference.py; what that node never meets (elections
of its own, marks, redirections, listings, other rosters, a feed in pieces), the gateway and the run's format stand here. Bad
lines, calls and summary come out in the order of the file, so a difference shows at the line that made it.
"""
import binascii
import importlib.util
import itertools
import os
import re
import sys
from pathlib import Path

sys.dont_write_bytecode = True  # nothing is left behind in the repository


def load(name, path):
    """A module by its file: the node's reference has the same name as this one."""
    spec = importlib.util.spec_from_file_location(name, path)
    module = importlib.util.module_from_spec(spec)
    spec.loader.exec_module(module)
    return module


node01 = load("node_reference", Path(__file__).resolve().parents[1] / "node" / "reference.py")
TOP = node01.TOP

NAMES = {
    0: "done",
    1: "a table has the wrong length",
    2: "not a frame",
    3: "no such node",
    4: "time before the clock",
    5: "out of bounds",
    6: "own number",
    7: "the state is not sound",
    8: "follows itself",
    9: "epoch at the top",
    10: "granted",
    11: "refused, not a voting master",
    12: "refused, epoch too low",
    13: "refused, voted in that epoch already",
    14: "refused, no replica of a listed master",
    15: "refused, its master is not FAIL",
    16: "refused, voted for such a replica lately",
    17: "refused, a slot's owner is newer",
    18: "refused, claims no slot",
    20: "sixteen slots are marked",
    21: "no such slot",
    22: "not marked",
    23: "wrong side",
    24: "not a replica",
    25: "its master is not FAIL",
    26: "its master owns no slot",
    28: "an election is still young",
    30: "won",
    31: "no election is open",
    32: "for another candidate",
    33: "of another epoch",
    34: "voter not in the set",
    35: "too late",
    36: "heard already",
    40: "the list is too short",
    49: "the key is too long",
}

LONGEST = 4200  # characters of a line, of a run's file as of a feed
LONGEST_KEY = 512  # bytes of a key that a lookup carries
HOPS = 4  # redirections that a lookup follows
NONE = 65535  # an entry of the gateway's map that is none, as any that is no node's number


# ---- a node of any number in any roster


class Member(node01.Node):
    """The node of the cases, made node `me` of `size` masters, with elections, marks and redirections of its own."""

    def __init__(self, size, me):
        super().__init__()
        self.size, self.me, self.T = size, me, 1000
        self.follows = {}
        self.config = [0] * size
        self.ping = [None] * size
        self.flag = ["none"] * size
        self.failed_at = [None] * size
        self.voted_at = [None] * size
        self.election = None  # epoch, time of opening, set of voters, those heard
        self.passed = None  # slots that passed to it by its win
        self.marks = {}  # slot -> ("migrating" or "importing", peer)
        self.kept = b""  # of its feed: the line that has not ended yet, all of it

    def newer(self, f):
        """The lowest claimed slot whose owner is newer than the request: what 17 names."""
        return next(s for s in f["claims"] if self.owned(s) and self.config[self.owner[s]] > f["config"])

    def open(self, time):
        if time >= 2**48:
            return 5
        if time < self.clock:
            return 4
        self.clock = time
        if self.master(self.me):
            return 24
        master = self.follows[self.me]
        if self.flag[master] != "FAIL":
            return 25
        if master not in self.owner:
            return 26
        if self.election and time - self.election["opened"] < max(4 * self.T, 4000):
            return 28
        if self.current == TOP:
            return 9
        self.current += 1
        voters = {k for k in range(self.size) if self.voting(k)}  # document 02, [3], by this node's table now
        self.election = dict(epoch=self.current, opened=time, voters=voters, heard=set())
        return 0

    def ack(self, f):
        e = self.election
        if e is None:
            return 31
        if f["candidate"] != self.me:
            return 32
        if f["current"] != e["epoch"]:
            return 33
        if f["voter"] not in e["voters"]:
            return 34
        if self.clock - e["opened"] > max(2 * self.T, 2000):
            return 35
        if f["voter"] in e["heard"]:
            return 36
        e["heard"].add(f["voter"])
        if 2 * len(e["heard"]) <= len(e["voters"]):
            return 0
        old = self.follows.pop(self.me)
        self.passed = 0
        if self.config[old] < e["epoch"]:  # document 02, [14]: else none pass, and it is a master all the same
            self.passed = self.owner.count(old)
            self.owner = [self.me if o == old else o for o in self.owner]
        self.config[self.me] = e["epoch"]
        self.election = None
        return 30

    def mark(self, slot, side, peer):
        if slot > 16383:
            return 21
        if peer >= self.size:
            return 3
        if peer == self.me:
            return 6
        if (side == "migrating") != (self.owner[slot] == self.me):
            return 23
        if len(self.marks.keys() - {slot}) >= 16:
            return 20
        self.marks[slot] = (side, peer)
        return 0

    def unmark(self, slot):
        if slot > 16383:
            return 21
        return 22 if self.marks.pop(slot, None) is None else 0

    def route(self, key, present, asking):
        slot = slot_of(key)
        side, peer = self.marks.get(slot, (None, None))
        if not self.owned(slot):
            return "down"
        if self.owner[slot] == self.me:
            return f"ASK {slot} {peer}" if side == "migrating" and not present else "serve"
        if side == "importing" and asking:
            return "serve"
        owner = self.owner[slot]
        return f"MOVED {slot} {owner} at epoch {self.config[owner]}"  # document 02, [5]: by what this node knows of its owner

    def stretches(self):
        """The whole table: first slot, last slot, and their owner, or None. Those that have an owner are the ranges of document
        02, [1]; an entry that is no node's number is unowned, whatever the number is."""
        found = []
        for s in range(16384):
            owner = self.owner[s] if self.owned(s) else None
            if found and found[-1][2] == owner:
                found[-1][1] = s
            else:
                found.append([s, s, owner])
        return found


def slot_of(key):
    start = key.find(b"{")
    end = key.find(b"}", start + 1)
    hashed = key[start + 1 : end] if start >= 0 and end > start + 1 else key
    return binascii.crc_hqx(hashed, 0) % 16384


def read_out(first, last, owner):
    """A stretch of a table as one says it on the phone: numbers grouped, one slot or several, and whose they are."""
    if first == last:
        return f"slot {first:,}, that is 1 slot, " + ("is unowned" if owner is None else f"belongs to node {owner}")
    return f"slots {first:,} to {last:,}, that is {last - first + 1:,} slots, " + ("are unowned" if owner is None else f"belong to node {owner}")


# ---- the gateway


class Gateway:
    """The gateway's router, document 02, [4] and [5]: a cached owner for each slot with an epoch beside it, and lookups that are
    walked one by one. Of a node it knows its reply and nothing else."""

    def __init__(self):
        self.cached = [NONE] * 16384
        self.epochs = [0] * 16384

    def epoch(self, size, slot):
        """The epoch of a slot's entry as it stands now. An entry that is none counts as 0, whatever stands beside it."""
        return self.epochs[slot] if self.cached[slot] < size else 0

    def lookup(self, size, key, reply):
        """A lookup in a roster of that size, where `reply(node, asking)` is what a node says to the question for the key. Each
        question with its reply, and how the lookup ended."""
        slot = slot_of(key)
        node, how = 0, ", none cached"
        if self.cached[slot] < size:
            node, how = self.cached[slot], f", cached at epoch {self.epoch(size, slot)}"
        asking, asked = False, []
        while True:
            said = reply(node, asking)
            asked.append(f"asks node {node}{how}: {said}")
            if said == "serve":
                return asked, f"served by node {node}"
            if said == "down":
                return asked, "down, nobody owns the slot"
            word = said.split()[0]
            if word not in ("MOVED", "ASK"):
                return asked, f"refused by the node asked, {said}"
            about, to, *at = map(int, re.findall(r"\d+", said))  # an ASK has no epoch
            if about != slot or to >= size:
                return asked, "bad, a reply named another slot or no roster node"
            if len(asked) > HOPS:
                return asked, "too many redirections"
            asking = word == "ASK"
            if not asking:
                if at[0] < self.epoch(size, slot):  # the entry as it stands now, by this lookup's own MOVEDs too
                    return asked, "stale, the MOVED is older than the cached entry"
                self.cached[slot], self.epochs[slot] = to, at[0]
            node, how = to, " with ASKING" if asking else ""


# ---- words: each test gives a word's value, or None where the word does not fit


def number(low, high):
    def test(word):
        if not re.fullmatch(rb"[0-9]+", word):
            return None
        digits = word.lstrip(b"0") or b"0"
        return int(digits) if len(digits) <= 19 and low <= int(digits) <= high else None

    return test


def either(*words):
    return lambda word: word.decode() if word in [w.encode() for w in words] else None


def slot_range(word):
    parts = [number(0, 16383)(part) for part in word.split(b"-")]
    if len(parts) > 2 or None in parts or parts[0] > parts[-1]:
        return None
    return range(parts[0], parts[-1] + 1)


def node_or_all(word):
    return "all" if word == b"all" else NODE(word)


def any_word(word):
    return word


def hex_bytes(word):
    return bytes.fromhex(word.decode()) if re.fullmatch(rb"([0-9a-f]{2})+", word) else None


NODE = number(0, 255)
SLOT = OWNER = ROOM = number(0, 65535)
TIME = HOUSEHOLD = number(0, 10**18)
PRESENT = either("present", "absent")
MOST_WORDS = 64

# Each call: its form, the words that it needs behind the first, and those that may follow.
FORMS = {
    b"roster": ("roster SIZE", [number(1, 16)], []),
    b"replica": ("replica NODE of MASTER", [NODE, either("of"), NODE], []),
    b"timeout": ("timeout NODE T", [NODE, number(100, 600_000)], []),
    b"slots": ("slots RANGE of OWNER for NODE|all", [slot_range, either("of"), OWNER, either("for"), node_or_all], []),
    b"report": ("report NODE SUBJECT REPORTER TIME", [NODE, NODE, NODE, TIME], []),
    b"frame": ("frame NODE DIGITS [claims RANGE..]", [NODE, any_word], [either("claims")] + [slot_range] * MOST_WORDS),
    b"piece": ("piece NODE [CHARACTERS]", [NODE], [any_word]),
    b"open": ("open NODE TIME", [NODE, TIME], []),
    b"migrate": ("migrate NODE SLOT to PEER", [NODE, SLOT, either("to"), NODE], []),
    b"import": ("import NODE SLOT from PEER", [NODE, SLOT, either("from"), NODE], []),
    b"unmark": ("unmark NODE SLOT", [NODE, SLOT], []),
    b"key": ("key NODE KEY present|absent [asking]", [NODE, any_word, PRESENT], [either("asking")]),
    b"hexkey": ("hexkey NODE DIGITS present|absent [asking]", [NODE, hex_bytes, PRESENT], [either("asking")]),
    b"ranges": ("ranges NODE [ROOM]", [NODE], [ROOM]),
    b"lookup": ("lookup HOUSEHOLD KEY held NODE..", [HOUSEHOLD, any_word, either("held")], [NODE] * MOST_WORDS),
}


class Bad(Exception):
    """A bad line, with its reason."""


def fitted(words):
    """The values of the words behind the first. The first word that does not fit is named, a missing one by its place."""
    if words[0] not in FORMS:
        raise Bad("no call begins like that")
    form, needed, more = FORMS[words[0]]
    tests = (needed + more)[: MOST_WORDS - 1]
    values = []
    for place in range(2, max(len(words), len(needed) + 1) + 1):
        value = None
        if place <= len(words) and place - 2 < len(tests):
            value = tests[place - 2](words[place - 1])
        if words[0] == b"replica" and place == 4 and value == values[0]:
            value = None  # nobody follows itself
        if value is None:
            raise Bad(f"word {place} does not fit in '{form}'")
        values.append(value)
    return values


# ---- a run


class Run:
    def __init__(self):
        self.nodes = None
        self.gateway = Gateway()
        self.called = False  # whether a call has been made: the roster is settled then
        self.wins = []  # epoch, node

    def line(self, place, raw):
        """What is printed for a line. `raw` is bytes without the newline."""
        if len(raw) > LONGEST:
            return [f"{place} bad line, nothing done: it is too long"]
        words = [w for w in re.split(rb"[\x00-\x20]", raw.split(b"#")[0]) if w]
        if not words:
            return []
        try:
            values = fitted(words)
            name = words[0].decode()
            self.check(name, values)
        except Bad as bad:
            return [f"{place} bad line, nothing done: {bad}"]
        if name in ("roster", "replica", "timeout", "slots", "report"):
            self.write(name, values)
            return []
        self.called = True
        if name == "lookup":
            return self.lookup(place, *values)
        node = self.nodes[values[0]]
        if name != "piece":
            return self.told(place, node, *self.call(node, name, values))
        piece = b"".join(values[1:]).replace(b"/", b"\n")
        lines = []
        while True:  # a call takes what is up to a newline, and an empty piece is handed over too
            taken, newline, piece = piece.partition(b"\n")
            node.kept += taken
            lines += self.told(place, node, *self.fed(node, bool(newline)))
            if not piece:
                return lines

    @staticmethod
    def told(place, node, said, notices):
        return [f"{place} node {node.me}: {said}; currentEpoch {node.current}, lastVoteEpoch {node.last_vote}"] + ["  " + n for n in notices]

    def check(self, name, values):
        if name == "roster":
            if self.nodes:
                raise Bad("the roster stands already")
            return
        if not self.nodes:
            raise Bad("there is no roster yet")
        if name in ("replica", "timeout") and self.called:
            raise Bad("the first call was made already")
        named = {"replica": [values[0], values[-1]], "slots": values[-1:], "report": values[:3], "lookup": values[3:]}.get(name, values[:1])
        for k in named:
            if k != "all" and k >= len(self.nodes):
                raise Bad(f"there is no node {k}")

    def write(self, name, values):
        """What describes the roster, or writes entries as the old code does."""
        if name == "roster":
            self.nodes = [Member(values[0], me) for me in range(values[0])]
        elif name == "replica":
            for node in self.nodes:
                node.follows[values[0]] = values[2]
        elif name == "timeout":
            self.nodes[values[0]].T = values[1]
        elif name == "slots":
            slots, _, owner, _, who = values
            for node in self.nodes if who == "all" else [self.nodes[who]]:
                for s in slots:
                    node.owner[s] = owner
        else:
            where, subject, reporter, time = values
            self.nodes[where].reported[subject, reporter] = time

    def lookup(self, place, household, key, _, *held):
        """The gateway walks a lookup over the nodes; those behind `held` have the key. No node is changed. A map of another length
        and a roster's size outside 1 to 64 would be refused before a key that is too long; a run has neither."""
        if len(key) > LONGEST_KEY:
            return [f"{place} household {household}: 49 {NAMES[49]}"]
        asked, end = self.gateway.lookup(len(self.nodes), key, lambda k, asking: self.nodes[k].route(key, k in held, asking))
        name = key.decode(errors="surrogateescape")
        lines = [f"{place} household {household}: lookup of {name}, slot {slot_of(key)}"]
        return lines + ["  " + x for x in asked] + [f"  household {household}, {name}: {end}"]

    def call(self, node, name, values):
        """The answer in words, and the notices below it."""
        if name in ("key", "hexkey"):
            return node.route(values[1], values[2] == "present", len(values) > 3), []
        if name == "frame":
            return self.frame(node, values[1] + (bitmap(values[3:]) if len(values) > 2 else b""))
        if name == "open":
            answer = node.open(values[1])
            if answer:
                return f"{answer} {NAMES[answer]}", []
            voters = " ".join(str(k) for k in sorted(node.election["voters"])) or "none"
            return f"{answer} {NAMES[answer]}", [f"election opened for epoch {node.current}, voters {voters}"]
        if name == "ranges":
            return self.listed(node, *values[1:])
        if name == "unmark":
            answer = node.unmark(values[1])
        else:
            answer = node.mark(values[1], "migrating" if name == "migrate" else "importing", values[3])
        return f"{answer} {NAMES[answer]}", []

    @staticmethod
    def listed(node, room=49152):
        """Document 02, [1]: the list that is lent takes three numbers a range, else the answer is 40; below a 0 the whole table."""
        stretches = node.stretches()
        ranges = sum(owner is not None for _, _, owner in stretches)
        if room < 3 * ranges:
            return f"40 {NAMES[40]}, ranges {ranges}", []
        return f"0 listed, ranges {ranges}", [read_out(*x) for x in stretches]

    def fed(self, node, ended):
        """What a call of the feed comes to: the line is answered at its newline, and used up whatever the answer is."""
        line = node.kept
        if ended:
            node.kept = b""
            return self.frame(node, line) if len(line) <= LONGEST else (f"2 {NAMES[2]}", [])
        if len(line) > LONGEST:
            return "no line yet, it is too long already", []
        return f"no line yet, characters kept: {len(line)}", []

    def frame(self, node, line):
        flags = list(node.flag)
        answer = node.line(line)
        said = f"{answer} {NAMES[answer]}"
        words = {"none": "is no longer flagged", "PFAIL": "is now PFAIL", "FAIL": "is now FAIL"}
        notices = [f"node {k} {words[node.flag[k]]}" for k in range(node.size) if node.flag[k] != flags[k]]
        f = node01.parse(line) if answer != 2 else {}
        if answer == 10:
            notices.append(f"vote of epoch {f['current']} granted to node {f['candidate']}")
        if answer == 17:
            said += f", slot {node.newer(f)}"
        if answer == 30:
            self.wins.append((f["current"], node.me))
            said += f", slots passed {node.passed}"
            notices.append(f"epoch {f['current']} won, slots taken over: {node.passed}")
        if answer == 0 and f["kind"] == 1:
            sender, (bound, rebound, stale) = f["sender"], node.tally
            said = f"0 heard, bound {bound}, rebound {rebound}"
            if bound:
                notices.append(f"unowned slots that go to node {sender}: {bound}")
            if rebound:
                notices.append(f"slots that pass to node {sender}: {rebound}")
            if stale is not None:
                said += f", stale at slot {stale}"
                notices.append(f"node {sender} is stale at slot {stale}")
        return said, notices

    def summary(self):
        lines = ["summary"]
        for node in self.nodes or []:
            role = f"replica of {node.follows[node.me]}" if node.me in node.follows else "master"
            flags = "".join(f" {k} {node.flag[k]}" for k in range(node.size) if node.flag[k] != "none") or " none"
            lines.append(f"node {node.me}: {role}, configEpoch {node.config[node.me]}, slots {node.owner.count(node.me)}, flags{flags}")
        for i, (epoch, who) in enumerate(self.wins):
            again = " AGAIN" if epoch in [e for e, _ in self.wins[:i]] else ""
            lines.append(f"epoch {epoch} won by node {who}{again}")
        if not self.wins:
            lines.append("no epoch was won")
        return lines


def bitmap(ranges):
    bits = bytearray(2048)
    for s in itertools.chain(*ranges):
        bits[s // 8] |= 1 << (s % 8)
    return bits.hex().encode()


def played(data):
    """What is printed for a whole file. A last line needs no newline: where there is none, the empty rest says nothing."""
    run = Run()
    lines = []
    for place, raw in enumerate(data.split(b"\n"), 1):
        lines += run.line(place, raw)
    return lines + run.summary()


def printed(data):
    """The same as bytes: those of a key are told as they are."""
    return "".join(line + "\n" for line in played(data)).encode(errors="surrogateescape")


def main(names):
    out = sys.stdout.buffer
    if not names:
        out.write(printed(sys.stdin.buffer.read()))
    between = b""  # an empty line between two runs
    for name in names:
        try:
            data = Path(name).read_bytes()
        except OSError as error:  # nothing is said of it on standard output
            print(f"{name}: {error.strerror}", file=sys.stderr)
            continue
        out.write(between + b"run " + os.fsencode(name) + b"\n")
        out.write(printed(data))
        between = b"\n"


if __name__ == "__main__":
    main(sys.argv[1:])
