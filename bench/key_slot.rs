// The proved way from a key to its slot, beside an ordinary Rust version.
mod common;
use common::{any_key, compare, key_slot, letters, title, Numbers};

extern "C" {
    fn ukweribaso_key_slot(key: *const u8, length: usize) -> u16;
}

fn proved(key: &[u8]) -> u16 {
    unsafe { ukweribaso_key_slot(key.as_ptr(), key.len()) }
}

#[inline(never)]
fn plain(key: &[u8]) -> u16 {
    key_slot(key)
}

/// A key of letters; a tag of some length, if any, stands behind its first three.
fn key_of(numbers: &mut Numbers, length: usize, tag: usize) -> Vec<u8> {
    let mut key = letters(numbers, length);
    if tag > 0 {
        key[3] = b'{';
        key[4 + tag] = b'}';
    }
    key
}

fn main() {
    let mut numbers = Numbers::new(20261115);
    for _ in 0..200_000 {
        let length = numbers.below(300) as usize;
        let key = any_key(&mut numbers, length);
        assert_eq!(proved(&key), plain(&key), "they differ at {key:?}");
    }
    println!("both agree on 200000 keys");
    title("key to slot, per key");
    for length in [16, 64, 256] {
        for tag in [0, 4, length - 7] {
            let keys: Vec<Vec<u8>> = (0..64).map(|_| key_of(&mut numbers, length, tag)).collect();
            let name = match tag {
                0 => format!("{length} bytes, no tag"),
                _ => format!("{length} bytes, a tag of {tag}"),
            };
            compare(&name, 400_000 / length, |i| proved(&keys[i % 64]) as u64, |i| plain(&keys[i % 64]) as u64);
        }
    }
}
