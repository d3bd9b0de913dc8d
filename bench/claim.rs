// A bitmap read against the slot table, a heartbeat's claims and 17 of a vote request: the proved readings, 64 slots at a time,
// beside the proved reading of every bit and ordinary Rust that passes over zero bytes, and goes by words of 64 bits.
mod common;
use common::{times, Numbers};

extern "C" {
    fn ukweribaso_claim(
        slots: *mut u16,
        slots_length: usize,
        bitmap: *const u8,
        bitmap_length: usize,
        configs: *const u64,
        configs_length: usize,
        size: u16,
        sender: u16,
        config: u64,
    ) -> u64;
    fn ukweribaso_claim_plain(
        slots: *mut u16,
        slots_length: usize,
        bitmap: *const u8,
        bitmap_length: usize,
        configs: *const u64,
        configs_length: usize,
        size: u16,
        sender: u16,
        config: u64,
    ) -> u64;
    fn ukweribaso_newer_owner(
        size: u16,
        configs: *const u64,
        configs_length: usize,
        slots: *const u16,
        slots_length: usize,
        bitmap: *const u8,
        bitmap_length: usize,
        config: u64,
    ) -> u64;
}

/// Who claims, with which configEpoch, and what is known of the owners.
struct Claimant<'a> {
    configs: &'a [u64],
    size: u16,
    sender: u16,
    config: u64,
}

type Reading = fn(&Claimant, &mut [u16], &[u8]) -> u64;

fn proved(c: &Claimant, slots: &mut [u16], bitmap: &[u8]) -> u64 {
    let (s, b, k) = (slots.len(), bitmap.len(), c.configs.len());
    unsafe { ukweribaso_claim(slots.as_mut_ptr(), s, bitmap.as_ptr(), b, c.configs.as_ptr(), k, c.size, c.sender, c.config) }
}

fn every_bit(c: &Claimant, slots: &mut [u16], bitmap: &[u8]) -> u64 {
    let (s, b, k) = (slots.len(), bitmap.len(), c.configs.len());
    unsafe { ukweribaso_claim_plain(slots.as_mut_ptr(), s, bitmap.as_ptr(), b, c.configs.as_ptr(), k, c.size, c.sender, c.config) }
}

fn proved_newer(c: &Claimant, slots: &mut [u16], bitmap: &[u8]) -> u64 {
    let (s, b, k) = (slots.len(), bitmap.len(), c.configs.len());
    unsafe { ukweribaso_newer_owner(c.size, c.configs.as_ptr(), k, slots.as_ptr(), s, bitmap.as_ptr(), b, c.config) }
}

impl Claimant<'_> {
    fn known(&self, owner: u16) -> u64 {
        self.configs.get(owner as usize).copied().unwrap_or(0)
    }

    fn newer(&self, owner: u16) -> bool {
        owner < self.size && self.known(owner) > self.config
    }
}

/// What a claim comes to.
#[derive(Default)]
struct Told {
    bound: u64,
    rebound: u64,
    stale: Option<u64>,
}

impl Told {
    #[inline(always)]
    fn settle(&mut self, c: &Claimant, s: usize, entry: &mut u16) {
        let owner = *entry;
        if owner >= c.size {
            *entry = c.sender;
            self.bound += 1;
        } else if owner != c.sender {
            let known = c.known(owner);
            if known < c.config {
                *entry = c.sender;
                self.rebound += 1;
            } else if known > c.config && self.stale.is_none() {
                self.stale = Some(s as u64);
            }
        }
    }

    fn digest(self) -> u64 {
        self.bound % 65536 + (self.rebound % 65536) * 65536 + self.stale.map_or(0, |s| s % 65535 + 1) * 4294967296
    }
}

/// Passes over zero bytes.
#[inline(never)]
fn by_bytes(c: &Claimant, slots: &mut [u16], bitmap: &[u8]) -> u64 {
    let mut told = Told::default();
    for (j, (entries, &byte)) in slots.chunks_mut(8).zip(bitmap).enumerate() {
        if byte == 0 {
            continue;
        }
        for (k, entry) in entries.iter_mut().enumerate() {
            if byte >> k & 1 == 1 {
                told.settle(c, j * 8 + k, entry);
            }
        }
    }
    told.digest()
}

/// Up to eight bytes, least first.
#[inline(always)]
fn word(bytes: &[u8]) -> u64 {
    match bytes.try_into() {
        Ok(eight) => u64::from_le_bytes(eight),
        Err(_) => bytes.iter().rev().fold(0, |word, byte| word << 8 | *byte as u64),
    }
}

/// Takes the bits of 64 slots from the lowest on.
#[inline(never)]
fn by_words(c: &Claimant, slots: &mut [u16], bitmap: &[u8]) -> u64 {
    let mut told = Told::default();
    for (g, (entries, bytes)) in slots.chunks_mut(64).zip(bitmap.chunks(8)).enumerate() {
        let mut word = word(bytes);
        while word != 0 {
            let k = word.trailing_zeros() as usize;
            let Some(entry) = entries.get_mut(k) else { break };
            told.settle(c, g * 64 + k, entry);
            word &= word - 1;
        }
    }
    told.digest()
}

#[inline(never)]
fn newer_by_bytes(c: &Claimant, slots: &mut [u16], bitmap: &[u8]) -> u64 {
    for (j, (entries, &byte)) in slots.chunks(8).zip(bitmap).enumerate() {
        if byte == 0 {
            continue;
        }
        for (k, &owner) in entries.iter().enumerate() {
            if byte >> k & 1 == 1 && c.newer(owner) {
                return (j * 8 + k) as u64 % 65535 + 1;
            }
        }
    }
    0
}

#[inline(never)]
fn newer_by_words(c: &Claimant, slots: &mut [u16], bitmap: &[u8]) -> u64 {
    for (g, (entries, bytes)) in slots.chunks(64).zip(bitmap.chunks(8)).enumerate() {
        let mut word = word(bytes);
        while word != 0 {
            let k = word.trailing_zeros() as usize;
            let Some(&owner) = entries.get(k) else { break };
            if c.newer(owner) {
                return (g * 64 + k) as u64 % 65535 + 1;
            }
            word &= word - 1;
        }
    }
    0
}

const CLAIMS: [Reading; 4] = [proved, every_bit, by_bytes, by_words];
const NEWER: [Reading; 3] = [proved_newer, newer_by_bytes, newer_by_words];
const SLOTS: usize = 16384;
const SENDER: u16 = 5;
const SIZE: u16 = 60;
const CONFIG: u64 = 40;

/// All give the same answer and the same table.
fn same(readings: &[Reading], c: &Claimant, table: &[u16], bitmap: &[u8]) {
    let outcome = |reading: &Reading| {
        let mut slots = table.to_vec();
        (reading(c, &mut slots, bitmap), slots)
    };
    let first = outcome(&readings[0]);
    assert!(readings.iter().all(|r| outcome(r) == first), "they differ: {} slots, {} bytes", table.len(), bitmap.len());
}

/// Tables, bitmaps and epochs of any length, entries and owners in and out of the roster, and stretches: of the sender's own slots,
/// of zero bytes and of full ones.
fn agree(numbers: &mut Numbers) {
    let length = [SLOTS as u64, 0, 7, 100, 640][numbers.below(5) as usize] + numbers.below(65);
    let (sender, own) = (numbers.below(66) as u16, numbers.below(300));
    let table: Vec<u16> = (0..length).map(|s| if s % 300 < own { sender } else { numbers.below(70) as u16 }).collect();
    let bytes = [2048, 0, 1, 20][numbers.below(4) as usize] + numbers.below(9);
    let (alike, byte) = (numbers.below(90), [0, 255, 1, 128][numbers.below(4) as usize]);
    let bitmap: Vec<u8> = (0..bytes).map(|j| if j % 90 < alike { byte } else { numbers.next() as u8 }).collect();
    let known = numbers.below(65);
    let configs: Vec<u64> = (0..known).map(|_| numbers.below(80)).collect();
    let c = Claimant { configs: &configs, size: numbers.below(66) as u16, sender, config: numbers.below(80) };
    same(&CLAIMS, &c, &table, &bitmap);
    same(&NEWER, &c, &table, &bitmap);
}

/// The times of all readings, the table copied back before each where the claim changes it (`changes`).
fn timed<const N: usize>(readings: [Reading; N], c: &Claimant, table: &[u16], bitmaps: &[Vec<u8>], changes: bool) -> [f64; N] {
    let mut works = readings.map(|reading| {
        let mut slots = table.to_vec();
        move |i: usize| {
            if changes {
                slots.copy_from_slice(table);
            }
            reading(c, &mut slots, &bitmaps[i % bitmaps.len()])
        }
    });
    times(64, works.each_mut().map(|work| work as &mut dyn FnMut(usize) -> u64))
}

fn row(name: &str, times: &[f64]) {
    print!("{name:<46}");
    times.iter().for_each(|time| print!(" {time:>11.0}"));
    times[1..].iter().for_each(|time| print!(" {:>8.2}", times[0] / time));
    println!();
}

fn copied(table: &[u16]) {
    let mut slots = table.to_vec();
    let mut copy = |_: usize| {
        slots.copy_from_slice(table);
        slots[0] as u64
    };
    println!("{:<46} {:>11.0}", "(a table copied)", times(64, [&mut copy])[0]);
}

/// Bitmaps by their names. A random one is another each time, so that no processor learns it.
fn bitmaps(numbers: &mut Numbers) -> [(&'static str, Vec<Vec<u8>>); 6] {
    let mut typical = vec![0; SLOTS / 8];
    (5461..2 * 5461).for_each(|s: usize| typical[s / 8] |= 1 << (s % 8));
    let striped = |k: usize| if k % 2 == 0 { 255 } else { 0 };
    [
        ("empty", vec![vec![0; SLOTS / 8]]),
        ("5,461 slots in one stretch", vec![typical]),
        ("full", vec![vec![255; SLOTS / 8]]),
        ("every other slot", vec![vec![0x55; SLOTS / 8]]),
        ("every other byte", vec![(0..SLOTS / 8).map(striped).collect()]),
        ("random", (0..64).map(|_| (0..SLOTS / 8).map(|_| numbers.next() as u8).collect()).collect()),
    ]
}

fn main() {
    let mut numbers = Numbers::new(20261115);
    for _ in 0..6_000 {
        agree(&mut numbers);
    }
    println!("all agree on 6000 bitmaps and tables");
    let bitmaps = bitmaps(&mut numbers);
    let configs: Vec<u64> = (0..64).map(|k| k * 37 % 64 + 10).collect();
    let tables: [(&str, Vec<u16>); 4] = [
        ("own", vec![SENDER; SLOTS]),
        ("unowned", vec![65535; SLOTS]),
        ("others in ranges", (0..SLOTS).map(|s| (s * 60 / SLOTS) as u16).collect()),
        ("others in turn", (0..SLOTS).map(|s| (s % 60) as u16).collect()),
    ];
    println!("a claim of 16384 slots, ns (*: the table's copy included), and the ratio of the first to each of the others");
    println!("{:<46} {:>11} {:>11} {:>11} {:>11} {:>8} {:>8} {:>8}", "", "proved", "every bit", "Rust: bytes", "words", "to bits", "bytes", "words");
    let c = Claimant { configs: &configs, size: SIZE, sender: SENDER, config: CONFIG };
    for (bits, bitmaps) in &bitmaps {
        for (owners, table) in &tables {
            let mut slots = table.clone();
            proved(&c, &mut slots, &bitmaps[0]);
            let changes = slots != *table;
            let name = format!("{bits}, {owners}{}", if changes { " *" } else { "" });
            row(&name, &timed(CLAIMS, &c, table, bitmaps, changes));
        }
    }
    copied(&tables[0].1);
    println!("17 of a vote request where no owner is newer, ns, and the ratio of the first to each of the others");
    println!("{:<46} {:>11} {:>11} {:>11} {:>8} {:>8}", "", "proved", "Rust: bytes", "words", "to bytes", "words");
    let c = Claimant { config: 80, ..c };
    for (bits, bitmaps) in &bitmaps {
        row(&format!("{bits}, others in ranges"), &timed(NEWER, &c, &tables[2].1, bitmaps, false));
    }
}
