// The feed: a stream of lines handed to a node in pieces, beside ordinary Rust that changes a node and a kept part in place.
mod common;
mod node;
use common::{row, times, title, Numbers};
use node::{any_line, any_tables, long, node, short, told, Answer, Node, Roster, Tables};

extern "C" {
    fn ukweribaso_feed(
        slots: *mut u16,
        slots_length: usize,
        reports: *mut u64,
        reports_length: usize,
        bytes: *const u8,
        bytes_length: usize,
        size: usize,
    ) -> u64;
}

fn proved(t: &mut Tables, bytes: &[u8], size: usize) -> u64 {
    unsafe {
        ukweribaso_feed(
            t.slots.as_mut_ptr(),
            t.slots.len(),
            t.reports.as_mut_ptr(),
            t.reports.len(),
            bytes.as_ptr(),
            bytes.len(),
            size,
        )
    }
}

/// The most characters of a line that is not too long.
const ROOM: usize = 4200;

/// The node, and what is kept of the line that has not ended yet.
struct Feed {
    node: Node,
    kept: Vec<u8>,
    long: bool,
}

impl Feed {
    fn keep(&mut self, more: &[u8]) {
        self.long |= more.len() > ROOM - self.kept.len();
        if !self.long {
            self.kept.extend_from_slice(more);
        }
    }

    /// A line of which the last characters are lent; where nothing was kept before them they are the line.
    fn answer(&mut self, t: &mut Tables, last: &[u8]) -> Answer {
        if self.kept.is_empty() && !self.long {
            return self.node.frame::<true>(t, last);
        }
        self.keep(last);
        let line = if self.long { &[] } else { &self.kept[..] };
        let answer = self.node.frame::<true>(t, line);
        self.kept.clear();
        self.long = false;
        answer
    }

    /// The answer if a line ended, and how many bytes of the piece were used.
    fn feed(&mut self, t: &mut Tables, piece: &[u8]) -> (Option<Answer>, usize) {
        match piece.iter().position(|b| *b == b'\n') {
            Some(end) => (Some(self.answer(t, &piece[..end])), end + 1),
            None => {
                self.keep(piece);
                (None, piece.len())
            }
        }
    }
}

/// The whole stream, to the node of the cases; each answer is handed to `hear`.
fn fed(t: &mut Tables, bytes: &[u8], size: usize, mut hear: impl FnMut(u64)) -> Node {
    let node = node(Roster { size: 5, suspected: 0 });
    let mut feed = Feed { node, kept: Vec::with_capacity(ROOM), long: false };
    let size = if size == 0 { bytes.len().max(1) } else { size };
    for piece in bytes.chunks(size) {
        let mut left = piece;
        while !left.is_empty() {
            let (answer, used) = feed.feed(t, left);
            if let Some(answer) = answer {
                hear(answer.number());
            }
            left = &left[used..];
        }
    }
    feed.node
}

/// The answers and the epochs in one number, as the proved one tells them.
#[inline(never)]
fn plain(t: &mut Tables, bytes: &[u8], size: usize) -> u64 {
    let mut notes = 0u64;
    let node = fed(t, bytes, size, |answer| notes = notes % 16777216 * 131 + answer + 1);
    notes + (node.current % 65536 << 32) + (node.voted % 65536 << 48)
}

/// A line of any kind: good, mangled at any place, empty, or about as long as a line may be.
fn any_text(numbers: &mut Numbers) -> Vec<u8> {
    let mut line = any_line(numbers, 5);
    match numbers.below(10) {
        0 if !line.is_empty() => {
            let at = numbers.below(line.len() as u64) as usize;
            line[at] = numbers.next() as u8;
        }
        1 => line.clear(),
        2 => line.resize([4152, 4199, 4200, 4201, 4202, 9000][numbers.below(6) as usize], b'0'),
        _ => {}
    }
    line.push(b'\n');
    line
}

/// The same answers, epochs and tables: any lines cut into pieces of any size, and the program's stored input.
fn agree(numbers: &mut Numbers) {
    let mut answers = [0; 256];
    for _ in 0..4000 {
        let mut bytes: Vec<u8> = (0..numbers.below(24)).flat_map(|_| any_text(numbers)).collect();
        bytes.truncate(bytes.len() - (numbers.below(30) as usize).min(bytes.len()));
        let most = [3, 60, 5000, 100_000][numbers.below(4) as usize];
        let size = numbers.below(most) as usize;
        let tables = any_tables(numbers, 5);
        let (mut ours, mut theirs, mut again) = (tables.clone(), tables.clone(), tables);
        let same = proved(&mut ours, &bytes, size) == plain(&mut theirs, &bytes, size) && ours == theirs;
        assert!(same, "they differ in pieces of {size}: {}", String::from_utf8_lossy(&bytes));
        fed(&mut again, &bytes, size, |answer| answers[answer as usize] += 1);
    }
    println!("both agree on 4000 streams; the answers: {}", told(&answers));
    let stored = include_bytes!("../crates/ukweribaso/stdin");
    for size in [0, 7, 100, 4153, 65536] {
        let (mut ours, mut theirs) = (Tables::fresh(), Tables::fresh());
        let same = proved(&mut ours, stored, size) == plain(&mut theirs, stored, size) && ours == theirs;
        assert!(same, "they differ on the program's stored input in pieces of {size}");
    }
    println!("and on the program's stored input in pieces of five sizes");
}

/// So many lines, in turn from those given, behind a short one, so that pieces of a round size do not end where lines do.
fn stream(lines: &[Vec<u8>], count: usize) -> Vec<u8> {
    let first = b"zz".to_vec();
    let all = std::iter::once(&first).chain(lines.iter().cycle());
    all.take(count).flat_map(|line| [&line[..], b"\n"].concat()).collect()
}

/// Best times of one line, in nanoseconds: the stream is handed to a fresh node at each round.
fn timed(bytes: &[u8], count: usize, size: usize) -> [f64; 2] {
    let (mut t, mut t2) = (Tables::fresh(), Tables::fresh());
    let works: [&mut dyn FnMut(usize) -> u64; 2] =
        [&mut |_| proved(&mut t, bytes, size), &mut |_| plain(&mut t2, bytes, size)];
    times(1, works).map(|time| time / count as f64)
}

fn main() {
    let mut numbers = Numbers::new(20261116);
    agree(&mut numbers);
    let tick = short([7, 0, 0, 0], &[5]);
    let heartbeat = long([1, 2, 0, 0], [9, 3, 5], |_| 0x55);
    let mut mix = vec![heartbeat.clone()];
    for _ in 0..5 {
        mix.push(tick.clone());
        mix.push(short([6, 2, 0, 0], &[5]));
        mix.push(short([6, 2, 1, 0], &[5]));
        mix.push(short([2, 2, 3, 1], &[5]));
        mix.push(b"0700zz".to_vec());
    }
    let streams = [
        ("ticks", vec![tick], 4000),
        ("mixed lines", mix, 2000),
        ("heartbeats", vec![heartbeat], 100),
    ];
    title("a stream of lines in pieces, per line");
    for (name, lines, count) in streams {
        for (cut, size, part) in [("64 KiB", 65536, 1), ("1,000 bytes", 1000, 1), ("100 bytes", 100, 1), ("1 byte", 1, 10)] {
            let count = count / part;
            row(&format!("{name}, {cut}"), timed(&stream(&lines, count), count, size));
        }
    }
}
