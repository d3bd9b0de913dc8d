// Whole heartbeats past the refusals, from node, table and bitmap to answer, node and table: the fast engine, the plain one, which
// reads every bit, and ordinary Rust that changes a node in place and passes over zero bytes.
mod common;
mod node;
use common::{times, Numbers};
use node::{role, Numbered, TOP};

extern "C" {
    fn ukweribaso_heartbeats(
        epochs: *mut u64,
        roles: *mut u16,
        slots: *mut u16,
        slots_length: usize,
        bitmap: *const u8,
        bitmap_length: usize,
        size: u16,
        me: u16,
        sender: u8,
        role: u16,
        config: u64,
        times: usize,
    ) -> u64;
    fn ukweribaso_heartbeats_plain(
        epochs: *mut u64,
        roles: *mut u16,
        slots: *mut u16,
        slots_length: usize,
        bitmap: *const u8,
        bitmap_length: usize,
        size: u16,
        me: u16,
        sender: u8,
        role: u16,
        config: u64,
        times: usize,
    ) -> u64;
}

/// A heartbeat's parts.
#[derive(Clone, Copy)]
struct Frame<'a> {
    sender: u8,
    role: u16,
    config: u64,
    bitmap: &'a [u8],
}

/// Hands a heartbeat to a node so many times.
type Engine = fn(&mut Numbered, &mut [u16], Frame, usize) -> u64;

fn fast(n: &mut Numbered, slots: &mut [u16], f: Frame, times: usize) -> u64 {
    let (e, r, s, b) = (n.epochs.as_mut_ptr(), n.roles.as_mut_ptr(), slots.as_mut_ptr(), f.bitmap.as_ptr());
    unsafe { ukweribaso_heartbeats(e, r, s, slots.len(), b, f.bitmap.len(), n.size, n.me, f.sender, f.role, f.config, times) }
}

fn plain(n: &mut Numbered, slots: &mut [u16], f: Frame, times: usize) -> u64 {
    let (e, r, s, b) = (n.epochs.as_mut_ptr(), n.roles.as_mut_ptr(), slots.as_mut_ptr(), f.bitmap.as_ptr());
    unsafe { ukweribaso_heartbeats_plain(e, r, s, slots.len(), b, f.bitmap.len(), n.size, n.me, f.sender, f.role, f.config, times) }
}

#[inline(never)]
fn ordinary(n: &mut Numbered, slots: &mut [u16], f: Frame, times: usize) -> u64 {
    let mut node = n.node();
    let mut told = 0;
    for _ in 0..times {
        told = node.heartbeat(slots, f.bitmap, f.sender as usize, role(f.role), f.config).digest();
    }
    n.take(&node);
    told
}

const ENGINES: [Engine; 3] = [fast, plain, ordinary];
const SLOTS: usize = 16384;

/// The same answer, node and table: rosters of any size, tables and bitmaps with stretches and without, epochs that are often equal.
fn agree(numbers: &mut Numbers) {
    let size = 1 + numbers.below(64);
    let top = numbers.below(16) == 0;
    let mut epoch = |most: u64| if top && numbers.below(4) == 0 { TOP - numbers.below(2) } else { numbers.below(most) };
    let (mut epochs, mut roles) = ([0; 65], [0; 64]);
    epochs.iter_mut().for_each(|e| *e = epoch(6));
    let config = epoch(6);
    roles.iter_mut().for_each(|r| *r = numbers.below(8).saturating_sub(5) as u16);
    let node = Numbered { epochs, roles, size: size as u16, me: numbers.below(size) as u16 };
    let (own, alike) = (numbers.below(300), numbers.below(90));
    let (sender, byte) = (numbers.below(size) as u8, [0, 255, 1, 128][numbers.below(4) as usize]);
    let table: Vec<u16> = (0..SLOTS as u64).map(|s| if s % 300 < own { sender as u16 } else { numbers.below(size + 6) as u16 }).collect();
    let bitmap: Vec<u8> = (0..2048).map(|j| if j % 90 < alike { byte } else { numbers.next() as u8 }).collect();
    let frame = Frame { sender, role: numbers.below(6).saturating_sub(4) as u16, config, bitmap: &bitmap };
    let times = 1 + numbers.below(3) as usize;
    let outcome = |engine: &Engine| {
        let (mut node, mut slots) = (node.clone(), table.clone());
        (engine(&mut node, &mut slots, frame, times), node, slots)
    };
    let first = outcome(&ENGINES[0]);
    assert!(ENGINES.iter().all(|engine| outcome(engine) == first), "they differ: {size} nodes, sender {sender}");
}

/// Best times of a call that hands each heartbeat over so many times, in nanoseconds. Where it is `renewed`, the node is made anew
/// and the table copied back before each call.
fn timed(node: &Numbered, table: &[u16], frames: &[Frame], often: usize, renewed: bool) -> [f64; 3] {
    let mut works = ENGINES.map(|engine| {
        let (mut n, mut slots) = (node.clone(), table.to_vec());
        move |i: usize| {
            if renewed {
                n.clone_from(node);
                slots.copy_from_slice(table);
            }
            engine(&mut n, &mut slots, frames[i % frames.len()], often)
        }
    });
    times(if renewed { 64 } else { frames.len() }, works.each_mut().map(|work| work as &mut dyn FnMut(usize) -> u64))
}

/// Of one heartbeat, which is `renewed` where it changes the table, or another each time; else it is handed over again and again.
fn heartbeat(node: &Numbered, table: &[u16], frames: &[Frame], renewed: bool) -> [f64; 3] {
    const OFTEN: usize = 100;
    if renewed {
        return timed(node, table, frames, 1, true);
    }
    timed(node, table, frames, OFTEN, false).map(|time| time / OFTEN as f64)
}

/// Bitmaps by their names. A random one is another each time, so that no processor learns it.
fn bitmaps(numbers: &mut Numbers) -> [(&'static str, Vec<Vec<u8>>); 6] {
    let third = |j: usize| if (683..1366).contains(&j) { 255 } else { 0 };
    let striped = |j: usize| if j % 2 == 0 { 255 } else { 0 };
    [
        ("empty", vec![vec![0; SLOTS / 8]]),
        ("a third in one stretch", vec![(0..SLOTS / 8).map(third).collect()]),
        ("full", vec![vec![255; SLOTS / 8]]),
        ("every other slot", vec![vec![0x55; SLOTS / 8]]),
        ("every other byte", vec![(0..SLOTS / 8).map(striped).collect()]),
        ("random", (0..64).map(|_| (0..SLOTS / 8).map(|_| numbers.next() as u8).collect()).collect()),
    ]
}

fn row(name: &str, [fast, plain, rust]: [f64; 3]) {
    println!("{name:<46} {fast:>11.0} {plain:>11.0} {rust:>11.0} {:>8.2} {:>8.2} {:>8.2}", fast / rust, plain / rust, fast / plain);
}

const SENDER: u16 = 5;

fn main() {
    let mut numbers = Numbers::new(20261118);
    for _ in 0..4_000 {
        agree(&mut numbers);
    }
    println!("all agree on 4000 heartbeats");
    let mut epochs = [0; 65];
    (0..64).for_each(|k| epochs[k] = k as u64 * 37 % 64 + 10);
    epochs[64] = 100;
    let node = Numbered { epochs, roles: [0; 64], size: 60, me: 1 };
    let tables: [(&str, Vec<u16>); 4] = [
        ("own", vec![SENDER; SLOTS]),
        ("unowned", vec![65535; SLOTS]),
        ("others in ranges", (0..SLOTS).map(|s| (s * 60 / SLOTS) as u16).collect()),
        ("others in turn", (0..SLOTS).map(|s| (s % 60) as u16).collect()),
    ];
    println!("a heartbeat to a node of 60, ns (*: with the node's making and the table's copy), and ratios");
    println!("{:<46} {:>11} {:>11} {:>11} {:>8} {:>8} {:>8}", "", "fast", "plain", "Rust", "f/Rust", "p/Rust", "f/p");
    let mut most = (0.0, String::new());
    for (bits, bitmaps) in &bitmaps(&mut numbers) {
        let frames: Vec<Frame> = bitmaps.iter().map(|bitmap| Frame { sender: SENDER as u8, role: 0, config: 40, bitmap }).collect();
        for (owners, table) in &tables {
            let mut slots = table.clone();
            ordinary(&mut node.clone(), &mut slots, frames[0], 1);
            let renewed = slots != *table || frames.len() > 1;
            let name = format!("{bits}, {owners}{}", if renewed { " *" } else { "" });
            let found = heartbeat(&node, table, &frames, renewed);
            if found[0] / found[2] > most.0 {
                most = (found[0] / found[2], name.clone());
            }
            row(&name, found);
        }
    }
    let none = Frame { sender: SENDER as u8, role: 0, config: 40, bitmap: &[] };
    row("(*: no heartbeat)", timed(&node, &tables[0].1, &[none], 0, true));
    println!("the greatest ratio of the fast engine to Rust (aim: 2; ours: 1): {:.2}, {}", most.0, most.1);
}
