// The proved listing of a slot table's ranges, beside an ordinary Rust version. Both count first and then write, since a list that
// is too short must stay as it is.
mod common;
use common::{compare, title, Numbers};

extern "C" {
    fn ukweribaso_ranges(slots: *const u16, slots_length: usize, size: u16, list: *mut u16, list_length: usize) -> u8;
}

fn proved(slots: &[u16], size: u16, list: &mut [u16]) -> u64 {
    unsafe { ukweribaso_ranges(slots.as_ptr(), slots.len(), size, list.as_mut_ptr(), list.len()) as u64 }
}

#[inline(never)]
fn plain(slots: &[u16], size: u16, list: &mut [u16]) -> u64 {
    if slots.len() != SLOTS {
        return 1;
    }
    let ends = slots.windows(2).filter(|pair| pair[0] < size && pair[0] != pair[1]).count();
    let count = ends + (slots[SLOTS - 1] < size) as usize;
    if list.len() < 3 * count {
        return 40;
    }
    let mut room = list.chunks_exact_mut(3);
    let mut first = 0;
    while first < SLOTS {
        let owner = slots[first];
        let mut end = first + 1;
        while end < SLOTS && slots[end] == owner {
            end += 1;
        }
        if owner < size {
            room.next().expect("room").copy_from_slice(&[first as u16, end as u16 - 1, owner]);
        }
        first = end;
    }
    0
}

const SLOTS: usize = 16384;
const SIZE: u16 = 60;

/// A table of so many stretches, no two neighbours alike; one owner in eight is in no roster of SIZE.
fn table(numbers: &mut Numbers, stretches: usize, unowned: bool) -> Vec<u16> {
    let mut starts = vec![false; SLOTS];
    starts[0] = true;
    let mut left = stretches - 1;
    while left > 0 {
        let s = numbers.below(SLOTS as u64) as usize;
        left -= !starts[s] as usize;
        starts[s] = true;
    }
    let mut owner = 0;
    let mut next = || {
        let before = owner;
        while owner == before {
            owner = if unowned && numbers.below(8) == 0 { 65535 } else { numbers.below(SIZE as u64) as u16 };
        }
        owner
    };
    let mut here = next();
    let mut slots = vec![here];
    for &start in &starts[1..] {
        here = if start { next() } else { here };
        slots.push(here);
    }
    slots
}

/// Tables of any length and entries, lists of any length, too short ones among them.
fn agree(numbers: &mut Numbers) {
    let stretches = [1, 2, 9, 300, 5_000, SLOTS][numbers.below(6) as usize];
    let mut slots = table(numbers, stretches, true);
    match numbers.below(8) {
        0 => slots.truncate(numbers.below(SLOTS as u64) as usize),
        1 => slots.push(3),
        _ => {}
    }
    let length = [0, 1, 2, 3, 6, 3 * stretches, 3 * stretches + 1, 3 * SLOTS][numbers.below(8) as usize];
    let list: Vec<u16> = (0..length).map(|_| numbers.next() as u16).collect();
    let size = [0, 1, 59, SIZE, 64, 65535][numbers.below(6) as usize];
    let (mut ours, mut theirs) = (list.clone(), list);
    let r = proved(&slots, size, &mut ours);
    let p = plain(&slots, size, &mut theirs);
    assert!(r == p && ours == theirs, "they differ");
}

fn main() {
    let mut numbers = Numbers::new(20261117);
    for _ in 0..2_000 {
        agree(&mut numbers);
    }
    println!("both agree on 2000 listings");
    title("the ranges of 16384 slots");
    let mut list = vec![0; 3 * SLOTS];
    let mut other = vec![0; 3 * SLOTS];
    let tables = [
        ("one range", vec![3; SLOTS]),
        ("1,000 ranges", table(&mut numbers, 1_000, false)),
        ("16,384 ranges", table(&mut numbers, SLOTS, false)),
        ("none, all unowned", vec![65535; SLOTS]),
    ];
    for (name, slots) in &tables {
        compare(name, 64, |_| proved(slots, SIZE, &mut list), |_| plain(slots, SIZE, &mut other));
    }
    compare(
        "16,384 ranges, refused with 40",
        64,
        |_| proved(&tables[2].1, SIZE, &mut list[1..]),
        |_| plain(&tables[2].1, SIZE, &mut other[1..]),
    );
}
