"""A node by documents 01 and 02, for the cases, and its feed: the reference that the program `ukweribaso` is compared with.

Written from the documents and not from the Rattle code: whole lists and dictionaries, one method a kind, no care for speed.
"""
TOP = 2**63 - 1
UNOWNED = 65535
LONGEST = 4200  # characters of a line that is not too long
LENGTHS = {1: 2076, 2: 12, 3: 12, 4: 2076, 5: 20, 6: 12, 7: 12}  # bytes of a frame by kind, the kind included


class NotAFrame(Exception):
    pass


def number(data, start):
    return int.from_bytes(data[start : start + 8], "big")


def parse(line):
    """The frame that a line spells, as a dictionary. `line` is bytes without the newline."""
    if any(c not in b"0123456789abcdef" for c in line) or len(line) % 2:
        raise NotAFrame
    data = bytes.fromhex(line.decode())
    if not data or LENGTHS.get(data[0]) != len(data):
        raise NotAFrame
    kind, a, b, c = data[0], data[1], data[2], data[3]
    if kind in (1, 4):
        frame = dict(kind=kind, current=number(data, 4), config=number(data, 12), time=number(data, 20))
        bits = data[28:]
        frame["claims"] = [s for s in range(16384) if bits[s // 8] >> (s % 8) & 1]
        if kind == 1:
            if b > 1 or (b == 0 and c != 0):
                raise NotAFrame
            frame.update(sender=a, role="replica" if b else "master", followed=c)
        else:
            if b or c:
                raise NotAFrame
            frame.update(candidate=a)
        return frame
    if kind == 5:
        if c:
            raise NotAFrame
        return dict(kind=5, voter=a, candidate=b, current=number(data, 4), time=number(data, 12))
    time = number(data, 4)
    if kind == 2:
        if c > 2:
            raise NotAFrame
        return dict(kind=2, reporter=a, subject=b, verdict=c, time=time)
    if kind == 3:
        if c:
            raise NotAFrame
        return dict(kind=3, sender=a, subject=b, time=time)
    if kind == 6:
        if b > 1 or c:
            raise NotAFrame
        return dict(kind=6, subject=a, pong=b == 1, time=time)
    if a or b or c:
        raise NotAFrame
    return dict(kind=7, time=time)


class Node:
    """This node 1 of five: 0, 1, 2 masters, 3 and 4 replicas of 0, T = 1000, fresh, with fresh tables."""

    def __init__(self):
        self.size, self.me, self.T = 5, 1, 1000
        self.follows = {3: 0, 4: 0}  # replicas only
        self.config = [0] * 5
        self.ping = [None] * 5
        self.flag = ["none"] * 5
        self.failed_at = [None] * 5
        self.voted_at = [None] * 5
        self.current = self.last_vote = self.clock = 0
        self.owner = [UNOWNED] * 16384
        self.reported = {}  # (subject, reporter) -> time
        self.tally = None  # bound, rebound and stale slot of the last heartbeat

    def master(self, k):
        return k not in self.follows

    def owned(self, slot):
        return self.owner[slot] < self.size

    def voting(self, k):
        """A voting master, document 02, [3]: a master now that owns a slot of this node's own table."""
        return self.master(k) and k in self.owner

    # ---- refusals 2 to 6, in the document's order; the tables' lengths and the state are always good here

    def refusal(self, f):
        nodes = [f[x] for x in ("sender", "reporter", "subject", "candidate", "voter") if x in f]
        if f.get("role") == "replica":
            nodes.append(f["followed"])
        if any(k >= self.size for k in nodes):
            return 3
        if f.get("role") == "replica" and f["followed"] == f["sender"]:
            return 8
        own = [f[x] for x in ("sender", "reporter", "subject", "voter") if x in f]
        if f["kind"] == 4:
            own.append(f["candidate"])
        if self.me in own or (f["kind"] == 2 and f["reporter"] == f["subject"]):
            return 6
        if f.get("current", 0) > TOP or f.get("config", 0) > TOP or f["time"] >= 2**48:
            return 5
        if "config" in f and f["config"] > f["current"]:
            return 5
        if f["time"] < self.clock:
            return 4
        return None

    # ---- a line

    def line(self, line):
        try:
            f = parse(line)
        except NotAFrame:
            return 2
        refused = self.refusal(f)
        if refused is not None:
            return refused
        self.clock = f["time"]
        self.current = max(self.current, f.get("current", 0))
        step = {1: self.heartbeat, 2: self.report, 3: self.fail, 4: self.request, 5: self.ack, 6: self.probe, 7: self.tick}
        return step[f["kind"]](f)

    def heartbeat(self, f):
        sender = f["sender"]
        bound = rebound = 0
        stale = None
        if f["role"] == "replica":
            self.follows[sender] = f["followed"]
        else:
            self.follows.pop(sender, None)
            self.config[sender] = max(self.config[sender], f["config"])
            for s in f["claims"]:
                if not self.owned(s):
                    self.owner[s] = sender
                    bound += 1
                elif self.owner[s] != sender:
                    known = self.config[self.owner[s]]
                    if known < f["config"]:
                        self.owner[s] = sender
                        rebound += 1
                    elif known > f["config"] and stale is None:
                        stale = s
            # sender a master by this frame; the ids order as the numbers do
            if self.master(self.me) and f["config"] == self.config[self.me] and self.me < sender and self.current < TOP:
                self.current += 1
                self.config[self.me] = self.current
        self.tally = (bound, rebound, stale)
        return 0

    def probe(self, f):
        k = f["subject"]
        if not f["pong"]:
            if self.ping[k] is None:
                self.ping[k] = self.clock
            return 0
        self.ping[k] = None
        if self.flag[k] == "PFAIL":
            self.flag[k] = "none"
        elif self.flag[k] == "FAIL":
            if not self.master(k) or k not in self.owner or self.clock - self.failed_at[k] > 2 * self.T:
                self.flag[k], self.failed_at[k] = "none", None
        return 0

    def tick(self, f):
        for k in range(self.size):
            if k != self.me and self.ping[k] is not None and self.clock - self.ping[k] > self.T and self.flag[k] == "none":
                self.flag[k] = "PFAIL"
        for k in range(self.size):
            self.judge(k)
        return 0

    def report(self, f):
        if f["verdict"]:
            self.reported[f["subject"], f["reporter"]] = self.clock
            self.judge(f["subject"])
        return 0

    def judge(self, k):
        """PFAIL becomes FAIL if more than half of the voting masters signal it; the subject is counted among them, and signals not."""
        if self.flag[k] != "PFAIL":
            return
        voters = [m for m in range(self.size) if self.voting(m)]
        signals = 0
        for m in voters:
            if m == self.me:
                signals += 1
            elif m != k and (k, m) in self.reported:
                then = self.reported[k, m]
                signals += then <= self.clock and self.clock - then <= 2 * self.T
        if 2 * signals > len(voters):
            self.flag[k], self.failed_at[k] = "FAIL", self.clock

    def fail(self, f):
        k = f["subject"]
        if self.flag[k] != "FAIL":
            self.flag[k], self.failed_at[k] = "FAIL", self.clock
        return 0

    def request(self, f):
        epoch, candidate = f["current"], f["candidate"]
        if not self.voting(self.me):
            return 11  # document 02, [3]: a master without slots too
        if epoch < self.current:
            return 12
        if epoch <= self.last_vote:
            return 13
        if self.master(candidate) or not self.master(self.follows[candidate]):
            return 14
        if not f["claims"]:
            return 18  # document 02, [10]: whoever owns what
        master = self.follows[candidate]
        if self.flag[master] != "FAIL":
            return 15
        if self.voted_at[master] is not None and self.clock - self.voted_at[master] < 2 * self.T:
            return 16
        if any(self.owned(s) and self.config[self.owner[s]] > f["config"] for s in f["claims"]):
            return 17
        self.last_vote = epoch
        self.voted_at[master] = self.clock
        return 10

    def ack(self, f):
        return 31  # this node is a master and nothing makes it a replica, so no election is ever open


class Feed:
    """A node whose lines arrive in pieces: document 02, [9]. Beside the node, what is kept of a line that has not ended yet:
    its characters, and how many they are. A length above LONGEST says that the line is too long, whatever the characters."""

    def __init__(self, node, kept=b"", length=None):
        self.node, self.kept = node, kept
        self.length = len(kept) if length is None else length

    def call(self, piece):
        """The answer, or None where no line ended; and how many bytes of the piece were used."""
        part, newline, _ = piece.partition(b"\n")
        self.kept = self.kept[: self.length] + part
        self.length += len(part)
        if not newline:
            return None, len(part)
        # 1 and 7 come before, and cannot occur here
        answer = self.node.line(self.kept) if self.length <= LONGEST else 2
        self.kept, self.length = b"", 0
        return answer, len(part) + 1

    def answers(self, pieces):
        """The answers, as they come, to pieces that are each handed in again until they are used up."""
        for piece in pieces:
            while True:
                answer, used = self.call(piece)
                piece = piece[used:]
                if answer is not None:
                    yield answer
                if not piece:
                    break
