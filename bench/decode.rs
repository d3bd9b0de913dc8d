// The proved decoder of a line, bitmap included, beside two ordinary Rust versions.
mod common;
use common::{compare, hex, title, Numbers, VALUES};

extern "C" {
    fn ukweribaso_decode(line: *const u8, length: usize, bitmap: *mut u8) -> u64;
}

fn proved(line: &[u8], bitmap: &mut [u8; 2048]) -> u64 {
    unsafe { ukweribaso_decode(line.as_ptr(), line.len(), bitmap.as_mut_ptr()) }
}

/// A digit by a match, as most people write it.
fn by_match(c: u8) -> u8 {
    match c {
        b'0'..=b'9' => c - b'0',
        b'a'..=b'f' => c - b'a' + 10,
        _ => 255,
    }
}

/// A digit by a table.
fn by_table(c: u8) -> u8 {
    VALUES[c as usize]
}

/// The kind and the numbers of a frame in one number, 0 for what is no frame.
fn digest(kind: u8, bytes: [u8; 3], numbers: [u64; 3]) -> u64 {
    u32::from_le_bytes([kind, bytes[0], bytes[1], bytes[2]]) as u64
        ^ numbers[0]
        ^ (numbers[1] << 1)
        ^ (numbers[2] << 2)
}

/// One pass over the line into bytes, which stops at the first character that is no digit; then the table of kinds.
#[inline(always)]
fn plain(line: &[u8], bitmap: &mut [u8; 2048], value: impl Fn(u8) -> u8) -> u64 {
    let mut bytes = [0u8; 2076];
    if !matches!(line.len(), 24 | 40 | 4152) {
        return 0;
    }
    for (byte, pair) in bytes.iter_mut().zip(line.chunks_exact(2)) {
        let (high, low) = (value(pair[0]), value(pair[1]));
        if high > 15 || low > 15 {
            return 0;
        }
        *byte = high << 4 | low;
    }
    let number = |i: usize| u64::from_be_bytes(bytes[i..i + 8].try_into().unwrap());
    let [kind, x, y, z] = [bytes[0], bytes[1], bytes[2], bytes[3]];
    let good = match (kind, line.len()) {
        (1, 4152) => y == 0 && z == 0 || y == 1,
        (2, 24) => z <= 2,
        (3, 24) => z == 0,
        (4, 4152) => y == 0 && z == 0,
        (5, 40) => z == 0,
        (6, 24) => y <= 1 && z == 0,
        (7, 24) => x == 0 && y == 0 && z == 0,
        _ => false,
    };
    if !good {
        return 0;
    }
    match kind {
        1 | 4 => {
            bitmap.copy_from_slice(&bytes[28..]);
            digest(kind, [x, y, z], [number(4), number(12), number(20)])
        }
        5 => digest(kind, [x, y, z], [number(4), 0, number(12)]),
        _ => digest(kind, [x, y, z], [0, 0, number(4)]),
    }
}

#[inline(never)]
fn matched(line: &[u8], bitmap: &mut [u8; 2048]) -> u64 {
    plain(line, bitmap, by_match)
}

#[inline(never)]
fn tabled(line: &[u8], bitmap: &mut [u8; 2048]) -> u64 {
    plain(line, bitmap, by_table)
}

/// A frame of that kind with any numbers.
fn frame(numbers: &mut Numbers, kind: u8) -> Vec<u8> {
    let length = [0, 2076, 12, 12, 2076, 20, 12, 12][kind as usize];
    let mut bytes: Vec<u8> = (0..length).map(|_| numbers.next() as u8).collect();
    let listed = |numbers: &mut Numbers, n| numbers.below(n) as u8;
    bytes[0] = kind;
    match kind {
        1 => {
            bytes[2] = listed(numbers, 2);
            bytes[3] *= bytes[2];
        }
        2 => bytes[3] = listed(numbers, 3),
        4 => bytes[2..4].fill(0),
        6 => {
            bytes[2] = listed(numbers, 2);
            bytes[3] = 0;
        }
        7 => bytes[1..4].fill(0),
        _ => bytes[3] = 0,
    }
    hex(&bytes)
}

/// A frame, most often with something wrong in it.
fn any_line(numbers: &mut Numbers) -> Vec<u8> {
    let kind = 1 + numbers.below(7) as u8;
    let mut line = frame(numbers, kind);
    let place = if numbers.below(2) == 0 { 8 } else { line.len() as u64 };
    let at = numbers.below(place) as usize;
    match numbers.below(5) {
        0 => line[at] = numbers.next() as u8,
        1 => line[at] = b"0123456789abcdef"[numbers.below(16) as usize],
        2 => line[at] = line[at].to_ascii_uppercase(),
        3 => line.truncate(at),
        _ => {}
    }
    line
}

fn main() {
    let mut numbers = Numbers::new(20261115);
    let (mut ours, mut theirs) = ([0u8; 2048], [0u8; 2048]);
    let mut taken = 0;
    for _ in 0..100_000 {
        let line = any_line(&mut numbers);
        let answer = proved(&line, &mut ours);
        assert_eq!(answer, matched(&line, &mut theirs), "they differ at {:?}", String::from_utf8_lossy(&line));
        assert_eq!(ours, theirs, "bitmaps differ at {:?}", String::from_utf8_lossy(&line));
        taken += (answer != 0) as usize;
    }
    println!("all agree on 100000 lines, {taken} of them frames");
    title("a line decoded, bitmap included");
    for (kind, name) in [(1, "heartbeat, any bitmap"), (2, "report"), (5, "ack")] {
        let lines: Vec<Vec<u8>> = (0..64).map(|_| frame(&mut numbers, kind)).collect();
        let calls = if kind == 1 { 200 } else { 20_000 };
        compare(&format!("{name}, digits by table"), calls, |i| proved(&lines[i % 64], &mut ours), |i| tabled(&lines[i % 64], &mut theirs));
        compare(&format!("{name}, digits by match"), calls, |i| proved(&lines[i % 64], &mut ours), |i| matched(&lines[i % 64], &mut theirs));
    }
    let mut empty = frame(&mut numbers, 1);
    empty[56..].fill(b'0');
    compare("heartbeat, empty bitmap, by table", 200, |_| proved(&empty, &mut ours), |_| tabled(&empty, &mut theirs));
    compare("heartbeat, empty bitmap, by match", 200, |_| proved(&empty, &mut ours), |_| matched(&empty, &mut theirs));
}
