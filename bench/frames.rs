// Whole frames: the proved step, a line handed to a node again and again, beside ordinary Rust that changes a node in place.
// The Rust node is timed twice: with the checks 1 and 7, so that it does the same work, and without them.
mod common;
mod node;
use common::{times, Numbers};
use node::{any_line, any_tables, long, node, short, told, Answer, Roster, Tables};
use std::time::Instant;

extern "C" {
    fn ukweribaso_roster_frames(
        slots: *mut u16,
        slots_length: usize,
        reports: *mut u64,
        reports_length: usize,
        line: *const u8,
        line_length: usize,
        times: usize,
        size: u16,
        suspected: u16,
    ) -> u64;
    fn ukweribaso_decode(line: *const u8, length: usize, bitmap: *mut u8) -> u64;
    fn ukweribaso_claim(
        slots: *mut u16,
        slots_length: usize,
        bitmap: *const u8,
        bitmap_length: usize,
        configs: *const u64,
        configs_length: usize,
        size: u16,
        sender: u16,
        config: u64,
    ) -> u64;
}

fn proved(roster: Roster, t: &mut Tables, line: &[u8], times: usize) -> u64 {
    unsafe {
        ukweribaso_roster_frames(
            t.slots.as_mut_ptr(),
            t.slots.len(),
            t.reports.as_mut_ptr(),
            t.reports.len(),
            line.as_ptr(),
            line.len(),
            times,
            roster.size,
            roster.suspected,
        )
    }
}

#[inline(never)]
fn plain<const CHECKED: bool>(roster: Roster, t: &mut Tables, line: &[u8], times: usize) -> u64 {
    let mut node = node(roster);
    let mut answer = Answer::Is(0);
    for _ in 0..times {
        answer = node.frame::<CHECKED>(t, line);
    }
    answer.number() + node.current % 65536 * 256 + node.voted % 65536 * 16777216
}

/// The same answers, epochs and tables: any frames on rosters of any size, and the node of the cases on its stored run.
fn agree(numbers: &mut Numbers) {
    let mut answers = [0; 256];
    for _ in 0..20_000 {
        let size = if numbers.below(8) == 0 { numbers.below(70) } else { [2, 5, 6, 63, 64][numbers.below(5) as usize] };
        let roster = Roster { size: size as u16, suspected: numbers.below(size + 3) as u16 };
        let (line, tables) = (any_line(numbers, size), any_tables(numbers, size));
        let (mut ours, mut theirs) = (tables.clone(), tables.clone());
        let times = 1 + numbers.below(3) as usize;
        let answer = proved(roster, &mut ours, &line, times);
        let same = answer == plain::<true>(roster, &mut theirs, &line, times) && ours == theirs;
        assert!(same, "they differ at size {size}: {}", String::from_utf8_lossy(&line));
        answers[answer as usize % 256] += 1;
        // without the checks 1 and 7 only where these pass
        if !matches!(answer % 256, 1 | 7) {
            let mut theirs = tables;
            let same = answer == plain::<false>(roster, &mut theirs, &line, times) && ours == theirs;
            assert!(same, "they differ at size {size}: {}", String::from_utf8_lossy(&line));
        }
    }
    println!("all agree on 20000 frames; the answers: {}", told(&answers));
    stored::<true>();
    stored::<false>();
}

/// The program's stored input, and what it must write.
fn stored<const CHECKED: bool>() {
    let (input, output) = (include_bytes!("../crates/ukweribaso/stdin"), include_bytes!("../crates/ukweribaso/stdout"));
    let (mut node, mut tables) = (node(Roster { size: 5, suspected: 0 }), Tables::fresh());
    let (mut told, mut lines) = (String::new(), 0);
    for line in input.split_inclusive(|c| *c == b'\n').filter_map(|line| line.strip_suffix(b"\n")) {
        let answer = node.frame::<CHECKED>(&mut tables, line).number();
        told += &format!("{answer} {} {}\n", node.current, node.voted);
        lines += 1;
    }
    assert!(told.as_bytes() == output, "they differ on the program's stored run");
    if CHECKED {
        println!("and on the program's stored run of {lines} lines");
    }
}

/// Best times of one frame, in nanoseconds: the proved step, Rust, and Rust without the checks 1 and 7. One line is handed to
/// a node again and again, for about two milliseconds a round. Of several each is handed to a fresh node with the tables as they
/// were, whose making and copying is timed too: no processor learns to foresee them all.
fn timed(roster: Roster, tables: &Tables, lines: &[Vec<u8>]) -> [f64; 3] {
    let frames = match lines {
        [line] => {
            let start = Instant::now();
            proved(roster, &mut tables.clone(), line, 20);
            (20 * 2_000_000 / start.elapsed().as_nanos().max(1)).clamp(20, 2000) as usize
        }
        _ => 1,
    };
    let (mut t, mut t2, mut t3) = (tables.clone(), tables.clone(), tables.clone());
    let again = |t: &mut Tables| {
        if lines.len() > 1 {
            t.slots.copy_from_slice(&tables.slots);
        }
    };
    let works: [&mut dyn FnMut(usize) -> u64; 3] = [
        &mut |i| {
            again(&mut t);
            proved(roster, &mut t, &lines[i], frames)
        },
        &mut |i| {
            again(&mut t2);
            plain::<true>(roster, &mut t2, &lines[i], frames)
        },
        &mut |i| {
            again(&mut t3);
            plain::<false>(roster, &mut t3, &lines[i], frames)
        },
    ];
    times(lines.len(), works).map(|time| time / frames as f64)
}

/// The node whose heartbeats are timed, and its configEpoch.
const SENDER: u8 = 2;
const CONFIG: u64 = 3;

fn heartbeat(bits: impl FnMut(usize) -> u8) -> Vec<u8> {
    long([1, SENDER, 0, 0], [9, CONFIG, 5], bits)
}

/// Heartbeats that change nothing after the first. One claims a third of the slots, as one of three masters has them.
fn heartbeats() -> [(&'static str, Vec<u8>); 4] {
    [
        ("heartbeat, empty bitmap", heartbeat(|_| 0)),
        ("heartbeat, a third of the slots", heartbeat(|j| if (683..1366).contains(&j) { 255 } else { 0 })),
        ("heartbeat, full bitmap", heartbeat(|_| 255)),
        ("heartbeat, every other slot", heartbeat(|_| 0x55)),
    ]
}

/// Of these alone this node owns no slot.
const EMPTY: &str = "vote request, answered 11";

/// What is timed, by its name: a line, or several.
fn kinds(numbers: &mut Numbers) -> Vec<(&'static str, Vec<Vec<u8>>)> {
    let random = (0..16).map(|_| heartbeat(|_| numbers.next() as u8)).collect();
    let request = |bits: u8| long([4, 3, 0, 0], [9, 3, 5], |_| bits);
    let one = [
        ("heartbeat refused with 3", long([1, 99, 0, 0], [9, 3, 5], |_| 0)),
        (EMPTY, request(255)),
        ("vote request, answered 15", request(255)),
        ("vote request, answered 18", request(0)),
        ("report", short([2, 2, 3, 1], &[5])),
        ("fail", short([3, 2, 0, 0], &[5])),
        ("ack, answered 31", short([5, 2, 3, 0], &[9, 5])),
        ("probe, ping", short([6, 2, 0, 0], &[5])),
        ("probe, pong", short([6, 2, 1, 0], &[5])),
        ("tick", short([7, 0, 0, 0], &[5])),
        ("not a frame, 24 digits", short([9, 0, 0, 0], &[5])),
    ];
    let alone = |(name, line)| (name, vec![line]);
    heartbeats().map(alone).into_iter().chain([("heartbeat, random bitmaps", random)]).chain(one.map(alone)).collect()
}

/// Where a heartbeat's time goes: the whole frame, its line decoded and its claims read, to a node of five whose table is as the
/// first such frame left it.
fn parts(name: &str, line: &[u8]) {
    const TIMES: usize = 500;
    const SIZE: u16 = 5;
    let roster = Roster { size: SIZE, suspected: 0 };
    let mut configs = [0; SIZE as usize];
    configs[SENDER as usize] = CONFIG;
    let (mut tables, mut bitmap, mut read) = (Tables::dealt(SIZE, None), [0u8; 2048], [0u8; 2048]);
    proved(roster, &mut tables, line, 1);
    unsafe { ukweribaso_decode(line.as_ptr(), line.len(), bitmap.as_mut_ptr()) };
    let mut slots = tables.slots.clone();
    let mut decode = || unsafe { ukweribaso_decode(line.as_ptr(), line.len(), read.as_mut_ptr()) };
    let (b, k) = (bitmap.as_ptr(), configs.as_ptr());
    let mut claim = || unsafe { ukweribaso_claim(slots.as_mut_ptr(), 16384, b, 2048, k, configs.len(), SIZE, SENDER as u16, CONFIG) };
    let works: [&mut dyn FnMut(usize) -> u64; 3] = [
        &mut |_| proved(roster, &mut tables, line, TIMES),
        &mut |_| (0..TIMES).fold(0, |told, _| told ^ decode()),
        &mut |_| (0..TIMES).fold(0, |told, _| told ^ claim()),
    ];
    let [whole, decoded, claimed] = times(1, works).map(|time| time / TIMES as f64);
    println!("{name:<33} {whole:>12.1} {decoded:>12.1} {:>8.2} {claimed:>12.1} {:>8.2}", decoded / whole, claimed / whole);
}

fn main() {
    let mut numbers = Numbers::new(20261115);
    agree(&mut numbers);
    let kinds = kinds(&mut numbers);
    let rosters = [
        ("5 nodes", Roster { size: 5, suspected: 0 }),
        ("64 nodes", Roster { size: 64, suspected: 0 }),
        ("64 nodes, 32 of them PFAIL", Roster { size: 64, suspected: 32 }),
    ];
    let mut most = [(0.0, String::new()), (0.0, String::new())];
    for (who, roster) in rosters {
        println!("a frame to a node of {who}");
        println!("{:<33} {:>12} {:>12} {:>8} {:>14} {:>8}", "", "proved, ns", "Rust, ns", "ratio", "unchecked, ns", "ratio");
        for (name, lines) in &kinds {
            let tables = Tables::dealt(roster.size, (*name == EMPTY).then_some(1));
            let [ours, checked, unchecked] = timed(roster, &tables, lines);
            let ratios = [ours / checked, ours / unchecked];
            println!("{name:<33} {ours:>12.1} {checked:>12.1} {:>8.2} {unchecked:>14.1} {:>8.2}", ratios[0], ratios[1]);
            for (most, ratio) in most.iter_mut().zip(ratios) {
                if ratio > most.0 {
                    *most = (ratio, format!("{name}, {who}"));
                }
            }
        }
    }
    println!("a heartbeat to a node of 5 nodes, and its parts");
    println!("{:<33} {:>12} {:>12} {:>8} {:>12} {:>8}", "", "proved, ns", "its line", "share", "its claims", "share");
    heartbeats().iter().for_each(|(name, line)| parts(name, line));
    println!("the greatest ratio to Rust (aim: 2): {:.2}, {}", most[0].0, most[0].1);
    println!("the greatest ratio to Rust, unchecked (aim: 4): {:.2}, {}", most[1].0, most[1].1);
}
