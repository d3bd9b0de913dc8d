// The node in ordinary Rust that the benchmarks of whole frames, of heartbeats and of the feed share, changed in place, and lines for it.
use crate::common::{hex, Numbers, VALUES};

/// A roster of so many nodes, of which so many are PFAIL.
#[derive(Clone, Copy)]
pub struct Roster {
    pub size: u16,
    pub suspected: u16,
}

/// What is lent beside the state.
#[derive(Clone, PartialEq)]
pub struct Tables {
    pub slots: Vec<u16>,
    pub reports: Vec<u64>,
}

impl Tables {
    pub fn fresh() -> Tables {
        Tables { slots: vec![65535; 16384], reports: vec![0; 4096] }
    }

    /// The slots dealt out to nodes 0 to size - 1 in as many stretches, but for one node's: these go to the next.
    pub fn dealt(size: u16, without: Option<u16>) -> Tables {
        let stretch = |s: usize| (s * size as usize / 16384) as u16;
        let owner = |k: u16| if Some(k) == without { (k + 1) % size } else { k };
        Tables { slots: (0..16384).map(|s| owner(stretch(s))).collect(), ..Tables::fresh() }
    }
}

pub const TOP: u64 = i64::MAX as u64;
pub const TIME_END: u64 = 1 << 48;

#[derive(Clone, Copy, PartialEq)]
enum Flag {
    Clear,
    Pfail,
    Fail(u64),
}

#[derive(Clone, Copy)]
struct Known {
    follows: Option<u8>,
    config: u64,
    ping: Option<u64>,
    flag: Flag,
    vote: Option<u64>,
}

#[derive(Clone, Copy)]
struct Mark {
    slot: u16,
    importing: bool,
    peer: u8,
}

#[derive(Clone, Copy)]
struct Election {
    epoch: u64,
    opened: u64,
    voters: u64,
    heard: u64,
}

pub struct Node {
    ids: Vec<[u8; 20]>,
    known: Vec<Known>,
    marks: Vec<Mark>,
    me: u16,
    pub current: u64,
    pub voted: u64,
    clock: u64,
    timeout: u64,
    election: Option<Election>,
}

pub enum Answer {
    Is(u64),
    Heard { bound: usize, rebound: usize, stale: Option<usize> },
}

impl Answer {
    pub fn number(&self) -> u64 {
        match self {
            Answer::Is(n) => *n,
            Answer::Heard { .. } => 0,
        }
    }

    /// A heartbeat's counts and stale slot in one number, as the library tells them.
    pub fn digest(&self) -> u64 {
        match self {
            Answer::Is(_) => 0,
            Answer::Heard { bound, rebound, stale } => {
                let stale = stale.map_or(0, |s| s % 65535 + 1);
                (bound % 65536 + rebound % 65536 * 65536 + stale * 4294967296) as u64
            }
        }
    }
}

/// A node in numbers, as the library takes it: the known configEpochs by number and currentEpoch behind them, and the roles, 0 for a
/// master and m + 1 for a replica of m.
#[derive(Clone, PartialEq)]
pub struct Numbered {
    pub epochs: [u64; 65],
    pub roles: [u16; 64],
    pub size: u16,
    pub me: u16,
}

impl Numbered {
    pub fn node(&self) -> Node {
        let mut node = node(Roster { size: self.size, suspected: 0 });
        for (k, known) in node.known.iter_mut().enumerate() {
            known.config = self.epochs[k];
            known.follows = role(self.roles[k]);
        }
        node.me = self.me;
        node.current = self.epochs[64];
        node
    }

    /// What the node is now.
    pub fn take(&mut self, node: &Node) {
        for (k, known) in node.known.iter().enumerate() {
            self.epochs[k] = known.config;
            self.roles[k] = known.follows.map_or(0, |m| m as u16 + 1);
        }
        self.epochs[64] = node.current;
    }
}

/// Whom a node follows, by its role's number.
pub fn role(number: u16) -> Option<u8> {
    number.checked_sub(1).map(|m| m as u8)
}

/// Fresh: nodes 3 and 4 are replicas of 0, the rest masters; the suspected ones, from 2 on, have a ping of time 0 pending.
pub fn node(roster: Roster) -> Node {
    let size = roster.size as usize;
    let id = |k: usize| {
        let mut id = [0; 20];
        id[19] = k as u8;
        id
    };
    let fresh = |k: usize| {
        let silent = k >= 2 && k < roster.suspected as usize + 2;
        Known {
            follows: (k == 3 || k == 4).then_some(0),
            config: 0,
            ping: silent.then_some(0),
            flag: if silent { Flag::Pfail } else { Flag::Clear },
            vote: None,
        }
    };
    Node {
        ids: (0..size).map(id).collect(),
        known: (0..size).map(fresh).collect(),
        marks: Vec::new(),
        me: 1,
        current: 0,
        voted: 0,
        clock: 0,
        timeout: 1000,
        election: None,
    }
}

fn decode<'a>(line: &[u8], bytes: &'a mut [u8; 2076]) -> Option<&'a [u8]> {
    if !matches!(line.len(), 24 | 40 | 4152) {
        return None;
    }
    for (byte, pair) in bytes.iter_mut().zip(line.chunks_exact(2)) {
        let (high, low) = (VALUES[pair[0] as usize], VALUES[pair[1] as usize]);
        if high > 15 || low > 15 {
            return None;
        }
        *byte = high << 4 | low;
    }
    let b = &bytes[..line.len() / 2];
    let good = match (b[0], b.len()) {
        (1, 2076) => b[2] == 0 && b[3] == 0 || b[2] == 1,
        (2, 12) => b[3] <= 2,
        (3, 12) => b[3] == 0,
        (4, 2076) => b[2] == 0 && b[3] == 0,
        (5, 20) => b[3] == 0,
        (6, 12) => b[2] <= 1 && b[3] == 0,
        (7, 12) => b[1] == 0 && b[2] == 0 && b[3] == 0,
        _ => false,
    };
    good.then_some(b)
}

impl Known {
    fn sound(&self, k: usize, size: usize, clock: u64, current: u64) -> bool {
        let past = |time: Option<u64>| time.is_some_and(|t| t > clock);
        !self.follows.is_some_and(|m| m as usize >= size || m as usize == k)
            && !past(self.ping)
            && !past(self.vote)
            && !matches!(self.flag, Flag::Fail(t) if t > clock)
            && self.config <= current
    }
}

impl Node {
    fn sound(&self) -> bool {
        let (size, me) = (self.known.len(), self.me as usize);
        (100..=600_000).contains(&self.timeout)
            && self.clock < TIME_END
            && self.current <= TOP
            && self.voted <= self.current
            && (1..=64).contains(&size)
            && self.ids.len() == size
            && me < size
            && self.ids.windows(2).all(|pair| pair[0] < pair[1])
            && self.known.iter().enumerate().all(|(k, known)| known.sound(k, size, self.clock, self.current))
            && self.known[me].flag == Flag::Clear
            && self.known[me].ping.is_none()
            && self.marks.len() <= 16
            && self.marks.windows(2).all(|pair| pair[0].slot < pair[1].slot)
            && self.marks.iter().all(|m| m.slot < 16384 && (m.peer as usize) < size && m.peer as usize != me)
            && !self.election.is_some_and(|e| !self.election_sound(e))
    }

    fn election_sound(&self, e: Election) -> bool {
        self.known[self.me as usize].follows.is_some()
            && e.epoch <= self.current
            && e.opened <= self.clock
            && e.voters >> (self.known.len() - 1) <= 1
            && e.heard & !e.voters == 0
    }

    fn refusal(&self, kind: u8, x: u8, y: u8, z: u8, current: u64, config: u64, time: u64) -> Option<u64> {
        let (size, me) = (self.known.len() as u16, self.me);
        let (x, y, z) = (x as u16, y as u16, z as u16);
        let replica = kind == 1 && y == 1;
        let second = if replica { z } else if matches!(kind, 2 | 3 | 5) { y } else { 0 };
        if (kind != 7 && x >= size) || second >= size {
            return Some(3);
        }
        if replica && x == z {
            return Some(8);
        }
        if kind != 7 && x == me || matches!(kind, 2 | 3) && y == me || kind == 2 && x == y {
            return Some(6);
        }
        if current > TOP || config > current || time >= TIME_END {
            return Some(5);
        }
        (time < self.clock).then_some(4)
    }

    /// The masters that own some slot, a bit each, by one pass over the table.
    fn voting(&self, slots: &[u16]) -> u64 {
        let owners = slots.iter().filter(|owner| **owner < 64).fold(0, |set, owner| set | 1u64 << owner);
        let master = |set, (k, known): (usize, &Known)| if known.follows.is_none() { set | 1u64 << k } else { set };
        owners & self.known.iter().enumerate().fold(0, master)
    }

    fn look_at(&mut self, voters: u64, reports: &[u64], k: usize) {
        if self.known[k].flag != Flag::Pfail {
            return;
        }
        let recent = |stored: u64| stored != 0 && stored - 1 <= self.clock && self.clock - (stored - 1) <= 2 * self.timeout;
        let mut signals = 0;
        for m in 0..self.known.len() {
            if voters >> m & 1 == 1 {
                signals += (m == self.me as usize || m != k && recent(reports[64 * k + m])) as u32;
            }
        }
        if 2 * signals > voters.count_ones() {
            self.known[k].flag = Flag::Fail(self.clock);
        }
    }

    pub fn heartbeat(&mut self, slots: &mut [u16], bits: &[u8], sender: usize, follows: Option<u8>, config: u64) -> Answer {
        let (mut bound, mut rebound, mut stale) = (0, 0, None);
        self.known[sender].follows = follows;
        if follows.is_some() {
            return Answer::Heard { bound, rebound, stale };
        }
        self.known[sender].config = self.known[sender].config.max(config);
        for (j, (entries, byte)) in slots.chunks_mut(8).zip(bits).enumerate().filter(|(_, (_, byte))| **byte != 0) {
            for (k, entry) in entries.iter_mut().enumerate().filter(|(k, _)| byte >> k & 1 == 1) {
                let owner = *entry as usize;
                if owner >= self.known.len() {
                    *entry = sender as u16;
                    bound += 1;
                } else if owner != sender && self.known[owner].config < config {
                    *entry = sender as u16;
                    rebound += 1;
                } else if owner != sender && self.known[owner].config > config && stale.is_none() {
                    stale = Some(j * 8 + k);
                }
            }
        }
        let me = self.me as usize;
        if self.known[me].follows.is_none() && config == self.known[me].config && me < sender && self.current < TOP {
            self.current += 1;
            self.known[me].config = self.current;
        }
        Answer::Heard { bound, rebound, stale }
    }

    fn request(&mut self, slots: &[u16], bits: &[u8], candidate: usize, epoch: u64, config: u64) -> u64 {
        if self.known[self.me as usize].follows.is_some() || !slots.contains(&self.me) {
            return 11;
        }
        if epoch < self.current {
            return 12;
        }
        if epoch <= self.voted {
            return 13;
        }
        let Some(master) = self.known[candidate].follows else { return 14 };
        let known = self.known[master as usize];
        if known.follows.is_some() {
            return 14;
        }
        if bits.iter().all(|byte| *byte == 0) {
            return 18;
        }
        if !matches!(known.flag, Flag::Fail(_)) {
            return 15;
        }
        if known.vote.is_some_and(|v| self.clock - v < 2 * self.timeout) {
            return 16;
        }
        let newer = |owner: u16| self.known.get(owner as usize).is_some_and(|known| known.config > config);
        for (entries, byte) in slots.chunks(8).zip(bits).filter(|(_, byte)| **byte != 0) {
            if entries.iter().enumerate().any(|(k, owner)| byte >> k & 1 == 1 && newer(*owner)) {
                return 17;
            }
        }
        self.voted = epoch;
        self.known[master as usize].vote = Some(self.clock);
        10
    }

    fn probe(&mut self, slots: &[u16], k: usize, pong: bool) {
        if !pong {
            self.known[k].ping.get_or_insert(self.clock);
            return;
        }
        self.known[k].ping = None;
        match self.known[k].flag {
            Flag::Pfail => self.known[k].flag = Flag::Clear,
            Flag::Fail(at)
                if self.known[k].follows.is_some() || !slots.contains(&(k as u16)) || self.clock - at > 2 * self.timeout =>
            {
                self.known[k].flag = Flag::Clear
            }
            _ => {}
        }
    }

    fn tick(&mut self, slots: &[u16], reports: &[u64]) {
        let (me, clock, timeout) = (self.me as usize, self.clock, self.timeout);
        for (k, known) in self.known.iter_mut().enumerate() {
            if k != me && known.flag == Flag::Clear && known.ping.is_some_and(|p| clock - p > timeout) {
                known.flag = Flag::Pfail;
            }
        }
        if self.known.iter().any(|known| known.flag == Flag::Pfail) {
            let voters = self.voting(slots);
            (0..self.known.len()).for_each(|k| self.look_at(voters, reports, k));
        }
    }

    pub fn frame<const CHECKED: bool>(&mut self, t: &mut Tables, line: &[u8]) -> Answer {
        if CHECKED && (t.slots.len() != 16384 || t.reports.len() != 4096) {
            return Answer::Is(1);
        }
        if CHECKED && !self.sound() {
            return Answer::Is(7);
        }
        let mut bytes = [0u8; 2076];
        let Some(b) = decode(line, &mut bytes) else { return Answer::Is(2) };
        let number = |i: usize| u64::from_be_bytes(b[i..i + 8].try_into().unwrap());
        let [kind, x, y, z] = [b[0], b[1], b[2], b[3]];
        let (current, config, time) = match kind {
            1 | 4 => (number(4), number(12), number(20)),
            5 => (number(4), 0, number(12)),
            _ => (0, 0, number(4)),
        };
        if let Some(answer) = self.refusal(kind, x, y, z, current, config, time) {
            return Answer::Is(answer);
        }
        self.clock = time;
        self.current = self.current.max(current);
        let (x, y) = (x as usize, y as usize);
        match kind {
            1 => return self.heartbeat(&mut t.slots, &b[28..], x, (y == 1).then_some(z), config),
            2 if z > 0 => {
                t.reports[64 * y + x] = time + 1;
                if self.known[y].flag == Flag::Pfail {
                    self.look_at(self.voting(&t.slots), &t.reports, y);
                }
            }
            3 if !matches!(self.known[y].flag, Flag::Fail(_)) => self.known[y].flag = Flag::Fail(time),
            4 => return Answer::Is(self.request(&t.slots, &b[28..], x, current, config)),
            // node 1 is a master here, and opens no election
            5 => return Answer::Is(31),
            6 => self.probe(&t.slots, x, y == 1),
            7 => self.tick(&t.slots, &t.reports),
            _ => {}
        }
        Answer::Is(0)
    }
}

pub fn long(head: [u8; 4], numbers: [u64; 3], bits: impl FnMut(usize) -> u8) -> Vec<u8> {
    let mut bytes = head.to_vec();
    numbers.iter().for_each(|n| bytes.extend(n.to_be_bytes()));
    bytes.extend((0..2048).map(bits));
    hex(&bytes)
}

pub fn short(head: [u8; 4], numbers: &[u64]) -> Vec<u8> {
    let mut bytes = head.to_vec();
    numbers.iter().for_each(|n| bytes.extend(n.to_be_bytes()));
    hex(&bytes)
}

/// A frame of any kind for a roster of that size, now and then with something wrong in it.
pub fn any_line(numbers: &mut Numbers, size: u64) -> Vec<u8> {
    let mut byte = |most: u64| numbers.below(most) as u8;
    let (a, b, odd, bits) = (byte(size + 2), byte(size + 2), byte(12), byte(4));
    let (half, verdict) = (byte(2), byte(3));
    let mut epoch = || numbers.below(4) * [1, 1, 1, TOP / 3, u64::MAX / 4][numbers.below(5) as usize];
    let (current, config) = (epoch(), epoch());
    let time = numbers.below(4000) + (numbers.below(20) / 19) * TIME_END;
    let kind = 1 + numbers.below(7) as u8;
    let bitmap = |numbers: &mut Numbers| [0, 255, 0x55, numbers.next() as u8][bits as usize];
    let mut line = match kind {
        1 => long([1, a, half, half * b], [current, config, time], |_| bitmap(numbers)),
        2 => short([2, a, b, verdict], &[time]),
        3 => short([3, a, b, 0], &[time]),
        4 => long([4, a, 0, 0], [current, config, time], |_| bitmap(numbers)),
        5 => short([5, a, b, 0], &[current, time]),
        6 => short([6, a, half, 0], &[time]),
        _ => short([7, 0, 0, 0], &[time]),
    };
    let at = numbers.below(8) as usize;
    match odd {
        0 => line[at] = b"0123456789abcdefAg\r"[numbers.below(19) as usize],
        1 => line.truncate(at * 3),
        _ => {}
    }
    line
}

/// Tables of any entries, now and then of a wrong length.
pub fn any_tables(numbers: &mut Numbers, size: u64) -> Tables {
    let (slots, reports) = (16384 - numbers.below(40) / 39, 4096 - numbers.below(40) / 39);
    let (owners, often) = (size + numbers.below(3), 1 + numbers.below(4));
    Tables {
        slots: (0..slots).map(|s| (s / 512 * 7 % (owners + 1)) as u16).collect(),
        reports: (0..reports).map(|_| if numbers.below(often) == 0 { numbers.below(4000) } else { 0 }).collect(),
    }
}

/// How often each answer was given.
pub fn told(answers: &[u32; 256]) -> String {
    let told = |(answer, count): (usize, &u32)| (*count > 0).then(|| format!("{answer}: {count}"));
    answers.iter().enumerate().filter_map(told).collect::<Vec<String>>().join(", ")
}
