// What the benchmarks share: numbers made from a seed, the timing loop and the line of a report.
use std::hint::black_box;
use std::time::Instant;

/// Numbers that are the same in every run (xorshift).
pub struct Numbers(u64);

impl Numbers {
    pub fn new(seed: u64) -> Self {
        Numbers(seed)
    }

    pub fn next(&mut self) -> u64 {
        self.0 ^= self.0 << 13;
        self.0 ^= self.0 >> 7;
        self.0 ^= self.0 << 17;
        self.0
    }

    pub fn below(&mut self, n: u64) -> u64 {
        self.next() % n
    }
}

/// The head of a report.
pub fn title(what: &str) {
    println!("{what}");
    println!("{:<40} {:>12} {:>12} {:>8}", "", "proved, ns", "Rust, ns", "ratio");
}

fn once(calls: usize, work: &mut dyn FnMut(usize) -> u64) -> f64 {
    let start = Instant::now();
    for i in 0..calls {
        black_box(work(i));
    }
    start.elapsed().as_nanos() as f64 / calls as f64
}

/// The best of 41 rounds of each, in nanoseconds a call. They take turns, so that all meet the same machine. `work(i)` does the
/// i-th call; what it answers is only kept from being optimised away.
pub fn times<const N: usize>(calls: usize, mut works: [&mut dyn FnMut(usize) -> u64; N]) -> [f64; N] {
    let mut best = [f64::MAX; N];
    for _ in 0..41 {
        for (time, work) in best.iter_mut().zip(&mut works) {
            *time = time.min(once(calls, work));
        }
    }
    best
}

/// Times the two, and prints both times and the ratio.
pub fn compare(
    name: &str,
    calls: usize,
    mut proved: impl FnMut(usize) -> u64,
    mut plain: impl FnMut(usize) -> u64,
) {
    row(name, times(calls, [&mut proved, &mut plain]));
}

/// Both times and the ratio.
pub fn row(name: &str, [ours, theirs]: [f64; 2]) {
    println!("{name:<40} {ours:>12.1} {theirs:>12.1} {:>8.2}", ours / theirs);
}

pub fn hex(bytes: &[u8]) -> Vec<u8> {
    bytes.iter().flat_map(|b| format!("{b:02x}").into_bytes()).collect()
}

/// The values of the hexadecimal digits, 255 for any other character.
pub static VALUES: [u8; 256] = {
    let mut values = [255; 256];
    let mut v = 0;
    while v < 16 {
        values[b"0123456789abcdef"[v] as usize] = v as u8;
        v += 1;
    }
    values
};

const fn crc_table() -> [u16; 256] {
    let mut table = [0; 256];
    let mut k = 0;
    while k < 256 {
        let mut crc = (k as u16) << 8;
        let mut bit = 0;
        while bit < 8 {
            crc = if crc & 0x8000 != 0 { (crc << 1) ^ 0x1021 } else { crc << 1 };
            bit += 1;
        }
        table[k] = crc;
        k += 1;
    }
    table
}

static CRC_TABLE: [u16; 256] = crc_table();

fn hashed(key: &[u8]) -> &[u8] {
    if let Some(open) = key.iter().position(|&b| b == b'{') {
        let rest = &key[open + 1..];
        if let Some(close) = rest.iter().position(|&b| b == b'}') {
            if close > 0 {
                return &rest[..close];
            }
        }
    }
    key
}

/// A key's slot in ordinary Rust.
pub fn key_slot(key: &[u8]) -> u16 {
    hashed(key)
        .iter()
        .fold(0u16, |crc, &b| (crc << 8) ^ CRC_TABLE[((crc >> 8) ^ b as u16) as usize])
        % 16384
}

/// Any bytes, braces among them more often than chance would have it.
pub fn any_key(numbers: &mut Numbers, length: usize) -> Vec<u8> {
    let braces = numbers.below(8);
    (0..length)
        .map(|_| match numbers.below(20) {
            0 if braces > 1 => b'{',
            1 if braces > 2 => b'}',
            _ => numbers.next() as u8,
        })
        .collect()
}

pub fn letters(numbers: &mut Numbers, length: usize) -> Vec<u8> {
    (0..length).map(|_| b'a' + numbers.below(26) as u8).collect()
}
