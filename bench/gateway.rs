// The gateway's lookups: one is started and takes a list of replies, beside ordinary Rust that keeps the key's slot in the lookup
// and changes it in place.
mod common;
use common::{any_key, key_slot, letters, row, times, title, Numbers};

extern "C" {
    fn ukweribaso_lookup(
        map: *mut u16,
        map_length: usize,
        epochs: *mut u64,
        epochs_length: usize,
        size: u16,
        household: u64,
        key: *const u8,
        key_length: usize,
        replies: *const u64,
        replies_length: usize,
    ) -> u64;
}

/// The slots' owners, and the epoch beside each of them: two lists, as the proved function takes them.
#[derive(Clone, PartialEq)]
struct Map {
    owners: Vec<u16>,
    epochs: Vec<u64>,
}

/// What a lookup is started with and takes; a reply is one number.
#[derive(Clone, Debug)]
struct Walk {
    size: u16,
    household: u64,
    key: Vec<u8>,
    replies: Vec<u64>,
}

fn proved(map: &mut Map, walk: &Walk) -> u64 {
    let Walk { size, household, key, replies } = walk;
    unsafe {
        ukweribaso_lookup(
            map.owners.as_mut_ptr(),
            map.owners.len(),
            map.epochs.as_mut_ptr(),
            map.epochs.len(),
            *size,
            *household,
            key.as_ptr(),
            key.len(),
            replies.as_ptr(),
            replies.len(),
        )
    }
}

const SLOTS: usize = 16384;
const ROOM: usize = 512;

// ---- the router in ordinary Rust

enum Reply {
    Refused(u8),
    Down,
    Serve,
    Ask { slot: u16, peer: u16 },
    Moved { slot: u16, owner: u16, epoch: u64 },
}

#[derive(Clone, Copy)]
enum Stage {
    Asking { node: u16, asking: bool, hops: u8 },
    Served(u16),
    Bad,
    Down,
    Declined(u8),
    TooMany,
    Stale,
    Refused(u8),
}

struct Lookup {
    household: u64,
    key: Vec<u8>,
    slot: u16,
    stage: Stage,
}

impl Map {
    fn refusal(&self, size: u16) -> Option<u8> {
        if self.owners.len() != SLOTS || self.epochs.len() != SLOTS {
            return Some(1);
        }
        if !(1..=64).contains(&size) {
            return Some(3);
        }
        None
    }

    /// The epoch that a MOVED must not fall below; an entry whose owner is not in the roster is none.
    fn held(&self, size: u16, slot: u16) -> u64 {
        if self.owners[slot as usize] < size {
            self.epochs[slot as usize]
        } else {
            0
        }
    }
}

impl Lookup {
    fn start(map: &Map, size: u16, household: u64, key: &[u8]) -> Lookup {
        let (slot, stage) = match map.refusal(size).or((key.len() > ROOM).then_some(49)) {
            Some(number) => (0, Stage::Refused(number)),
            None => {
                let slot = key_slot(key);
                let owner = map.owners[slot as usize];
                let node = if owner < size { owner } else { 0 };
                (slot, Stage::Asking { node, asking: false, hops: 0 })
            }
        };
        Lookup { household, key: key.to_vec(), slot, stage }
    }

    /// A redirection, with a MOVED's epoch: the next stage, and whether it is followed.
    fn redirected(&self, map: &Map, size: u16, hops: u8, slot: u16, node: u16, epoch: Option<u64>) -> (Stage, bool) {
        if slot != self.slot || node >= size {
            (Stage::Bad, false)
        } else if hops >= 4 {
            (Stage::TooMany, false)
        } else if epoch.is_some_and(|epoch| epoch < map.held(size, slot)) {
            (Stage::Stale, false)
        } else {
            (Stage::Asking { node, asking: epoch.is_none(), hops: hops + 1 }, true)
        }
    }

    fn take(&mut self, map: &mut Map, size: u16, reply: Reply) {
        let Stage::Asking { node, hops, .. } = self.stage else {
            return;
        };
        if let Some(number) = map.refusal(size) {
            self.stage = Stage::Refused(number);
            return;
        }
        self.stage = match reply {
            Reply::Refused(number) => Stage::Declined(number),
            Reply::Down => Stage::Down,
            Reply::Serve => Stage::Served(node),
            Reply::Ask { slot, peer } => self.redirected(map, size, hops, slot, peer, None).0,
            Reply::Moved { slot, owner, epoch } => {
                let (stage, followed) = self.redirected(map, size, hops, slot, owner, Some(epoch));
                if followed {
                    map.owners[slot as usize] = owner;
                    map.epochs[slot as usize] = epoch;
                }
                stage
            }
        };
    }

    /// The stage with its values, the key's ends and length, and the household in one number, as the proved one tells them.
    fn digest(&self) -> u64 {
        let word = |high: u64, middle: u8, low: u16| (high << 24) + ((middle as u64) << 16) + low as u64;
        let stage = match self.stage {
            Stage::Asking { node, asking, hops } => word(asking as u64, hops, node),
            Stage::Served(node) => word(2, 0, node),
            Stage::Bad => word(3, 0, 0),
            Stage::Down => word(4, 0, 0),
            Stage::Declined(number) => word(5, 0, number as u16),
            Stage::TooMany => word(6, 0, 0),
            Stage::Refused(number) => word(7, 0, number as u16),
            Stage::Stale => word(8, 0, 0),
        };
        let kept = &self.key[..self.key.len().min(ROOM)];
        let (first, last) = (kept.first().unwrap_or(&0), kept.last().unwrap_or(&0));
        self.household ^ (stage + (word(*last as u64, *first, self.key.len() as u16) << 32))
    }
}

fn reply_of(code: u64) -> Reply {
    let (slot, node, epoch) = ((code >> 16) as u16, (code >> 32) as u16, code >> 48);
    match code as u16 {
        0 => Reply::Serve,
        1 => Reply::Refused(1),
        2 => Reply::Down,
        7 => Reply::Refused(7),
        3 => Reply::Ask { slot, peer: node },
        _ => Reply::Moved { slot, owner: node, epoch },
    }
}

fn walked(map: &mut Map, walk: &Walk) -> Lookup {
    let mut lookup = Lookup::start(map, walk.size, walk.household, &walk.key);
    for &code in &walk.replies {
        lookup.take(map, walk.size, reply_of(code));
    }
    lookup
}

#[inline(never)]
fn plain(map: &mut Map, walk: &Walk) -> u64 {
    walked(map, walk).digest()
}

// ---- both agree

fn code(kind: u64, slot: u16, node: u64, epoch: u64) -> u64 {
    kind + ((slot as u64) << 16) + (node << 32) + (epoch << 48)
}

fn pick<T: Copy>(numbers: &mut Numbers, from: &[T]) -> T {
    from[numbers.below(from.len() as u64) as usize]
}

/// Mostly short, and about as long as a key may be more often than chance would have it.
fn any_length(numbers: &mut Numbers) -> usize {
    let most = pick(numbers, &[2, 30, 601]);
    match numbers.below(6) {
        0 => pick(numbers, &[511, 512, 513]),
        _ => numbers.below(most) as usize,
    }
}

/// One of so few that lower, equal and higher ones often meet.
fn near_by(numbers: &mut Numbers, near: u64) -> u64 {
    near + numbers.below(6)
}

/// Mostly a redirection that is not bad; else one on another slot or to any node, another reply, or any number.
fn any_reply(numbers: &mut Numbers, slot: u16, size: u16, near: u64) -> u64 {
    let node = numbers.below(size.max(1) as u64);
    let epoch = near_by(numbers, near);
    match numbers.below(16) {
        0 => numbers.next(),
        1 => code(numbers.below(8), numbers.next() as u16, node, epoch),
        2 => code(pick(numbers, &[3, 4]), slot, numbers.below(65536), epoch),
        3 => code(pick(numbers, &[0, 1, 2, 7]), slot, node, epoch),
        _ => code(pick(numbers, &[3, 4]), slot, node, epoch),
    }
}

fn any_walk(numbers: &mut Numbers, near: u64) -> Walk {
    let size = match numbers.below(4) {
        0 => pick(numbers, &[0, 1, 2, 63, 64, 65, 65535]),
        _ => 1 + numbers.below(64) as u16,
    };
    let length = any_length(numbers);
    let key = any_key(numbers, length);
    let slot = key_slot(&key);
    let replies = (0..numbers.below(10)).map(|_| any_reply(numbers, slot, size, near)).collect();
    Walk { size, household: numbers.next(), key, replies }
}

/// A list's length: mostly 16,384.
fn any_entries(numbers: &mut Numbers) -> usize {
    match numbers.below(24) {
        0 => pick(numbers, &[0, 1, SLOTS - 1, SLOTS + 1]),
        _ => SLOTS,
    }
}

/// Mostly one that a reply may have; else one far above them, with low bits as theirs, or the highest.
fn any_epoch(numbers: &mut Numbers, near: u64) -> u64 {
    let epoch = near_by(numbers, near);
    match numbers.below(32) {
        0 => u64::MAX,
        1 | 2 => epoch + (1 << pick(numbers, &[16, 32, 48, 63])),
        _ => epoch,
    }
}

/// Owners in a roster, or any numbers, which are often none; an epoch beside each.
fn any_map(numbers: &mut Numbers, near: u64) -> Map {
    let most = pick(numbers, &[5, 64, 65536]);
    Map {
        owners: (0..any_entries(numbers)).map(|_| numbers.below(most) as u16).collect(),
        epochs: (0..any_entries(numbers)).map(|_| any_epoch(numbers, near)).collect(),
    }
}

const STAGES: [&str; 8] = ["asking", "served", "bad", "down", "declined", "too many", "stale", "refused"];

fn stage_of(lookup: &Lookup) -> usize {
    match lookup.stage {
        Stage::Asking { .. } => 0,
        Stage::Served(_) => 1,
        Stage::Bad => 2,
        Stage::Down => 3,
        Stage::Declined(_) => 4,
        Stage::TooMany => 5,
        Stage::Stale => 6,
        Stage::Refused(_) => 7,
    }
}

/// The same digest, owners and epochs: lists of any length and entries, rosters and keys of any size, replies of all kinds.
fn agree(numbers: &mut Numbers, lookups: usize) {
    let mut stages = [0; STAGES.len()];
    for _ in 0..lookups {
        let near = pick(numbers, &[0, 253, 40_000, 65_530]);
        let map = any_map(numbers, near);
        let walk = any_walk(numbers, near);
        let (mut ours, mut theirs, mut again) = (map.clone(), map.clone(), map);
        let same = proved(&mut ours, &walk) == plain(&mut theirs, &walk) && ours == theirs;
        assert!(same, "they differ at {walk:?}");
        stages[stage_of(&walked(&mut again, &walk))] += 1;
    }
    let told: Vec<String> = STAGES.iter().zip(stages).map(|(name, count)| format!("{name}: {count}")).collect();
    println!("both agree on {lookups} lookups; their stages: {}", told.join(", "));
}

// ---- the times

const SIZE: u16 = 64;

/// Beside every entry, and that of the MOVEDs that are followed, so that a walk goes the same way every time.
const EPOCH: u64 = 7;

/// A lookup of each key, with the replies that `replies` makes of its slot.
fn walks(keys: &[Vec<u8>], replies: impl Fn(u16) -> Vec<u64>) -> Vec<Walk> {
    let walk = |(household, key): (u64, &Vec<u8>)| {
        Walk { size: SIZE, household, key: key.clone(), replies: replies(key_slot(key)) }
    };
    (0..).zip(keys).map(walk).collect()
}

/// Best times of one lookup, in nanoseconds, on a map of so many entries, all of them in the roster.
fn timed(walks: &[Walk], entries: usize) -> [f64; 2] {
    let calls = if walks[0].key.len() > 100 { 1_000 } else { 10_000 };
    let owners = (0..entries).map(|s| (s % SIZE as usize) as u16).collect();
    let mut ours = Map { owners, epochs: vec![EPOCH; entries] };
    let mut theirs = ours.clone();
    let walk = |i| &walks[i % walks.len()];
    times(calls, [&mut |i| proved(&mut ours, walk(i)), &mut |i| plain(&mut theirs, walk(i))])
}

const SERVE: u64 = 0;

/// MOVED, ASK, MOVED and ASK, each to another node.
fn redirections(slot: u16) -> Vec<u64> {
    vec![code(4, slot, 3, EPOCH), code(3, slot, 9, 0), code(4, slot, 17, EPOCH), code(3, slot, 60, 0)]
}

/// A reply's own time: what the rows with more and with fewer replies differ by.
fn differ(name: &str, more: [f64; 2], less: [f64; 2], replies: f64) {
    let [ours, theirs] = [0, 1].map(|k| (more[k] - less[k]) / replies);
    println!("{name:<40} {ours:>12.1} {theirs:>12.1}");
}

fn rows(keys: &[Vec<u8>]) {
    title(&format!("a lookup of a key of {} bytes", keys[0].len()));
    let started = timed(&walks(keys, |_| vec![]), SLOTS);
    row("started", started);
    let served = timed(&walks(keys, |_| vec![SERVE]), SLOTS);
    row("started and served", served);
    let redirected = timed(&walks(keys, |slot| [redirections(slot), vec![SERVE]].concat()), SLOTS);
    row("started, redirected 4 times, served", redirected);
    let ended = timed(&walks(keys, |slot| [vec![SERVE], redirections(slot)].concat()), SLOTS);
    row("started, served, 4 replies after that", ended);
    row("started, one MOVED that is stale", timed(&walks(keys, |slot| vec![code(4, slot, 3, EPOCH - 1)]), SLOTS));
    row("refused with 1", timed(&walks(keys, |_| vec![]), SLOTS - 1));
    differ("serve alone, by difference", served, started, 1.0);
    differ("a redirection alone", redirected, served, 4.0);
    differ("a reply after the end alone", ended, served, 4.0);
}

fn main() {
    let mut numbers = Numbers::new(20261118);
    agree(&mut numbers, 50_000);
    let [short, long, too_long] = [20, ROOM, ROOM + 1].map(|length| {
        let keys: Vec<Vec<u8>> = (0..64).map(|_| letters(&mut numbers, length)).collect();
        keys
    });
    rows(&short);
    rows(&long);
    title("a lookup of a key of 513 bytes");
    row("refused with 49", timed(&walks(&too_long, |_| vec![]), SLOTS));
}
