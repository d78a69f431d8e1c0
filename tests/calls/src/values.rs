//! Numbers for calls: at random, and often at the ends of their ranges.

use crate::areas::Sizes;
use crate::prng::Prng;

/// The most of n, m and p.
const MOST: [usize; 3] = [6, 4, 4];

/// Any i32, often at an end, around zero or around a power of two.
pub fn value(prng: &mut Prng) -> i32 {
    match prng.below(8) {
        0 => i32::MIN,
        1 => i32::MAX,
        2 => prng.between(-1, 1),
        3 => prng.between(-300, 300),
        4 => (1 << prng.below(31)) + prng.between(-1, 1),
        _ => noise(prng),
    }
}

/// The same as 32 bits: both ends of i32 come to the middle and -1 to the end.
pub fn counter(prng: &mut Prng) -> u32 {
    value(prng) as u32
}

pub fn noise(prng: &mut Prng) -> i32 {
    prng.next() as i32
}

pub fn byte(prng: &mut Prng) -> u8 {
    prng.next() as u8
}

/// Any byte but this one.
pub fn other_byte(prng: &mut Prng, byte: u8) -> u8 {
    byte.wrapping_add(prng.between(1, 255) as u8)
}

/// The mark of a present or an absent reading; any but 0 is present.
pub fn mark(prng: &mut Prng) -> u8 {
    prng.pick(&[0, 0, 0, 1, 1, 1, 2, 128, 255])
}

/// Sizes in their ranges.
pub fn sizes(prng: &mut Prng) -> Sizes {
    let [n, m, p] = MOST.map(|most| 1 + prng.below(most));
    Sizes { n, m, p }
}

/// The same sizes, or at times with one out of its range: just outside, or
/// such that its lowest bits alone are in the range.
pub fn perhaps_outside(prng: &mut Prng, sizes: Sizes) -> Sizes {
    let mut asked = [sizes.n, sizes.m, sizes.p];
    if prng.chance(6) {
        let which = prng.below(3);
        asked[which] = outside(prng, asked[which], MOST[which]);
    }
    let [n, m, p] = asked;
    Sizes { n, m, p }
}

fn outside(prng: &mut Prng, size: usize, most: usize) -> usize {
    prng.pick(&[0, most + 1, 256 + size, (1 << 32) + size, usize::MAX])
}

/// A p in its range, for calls that have no other size.
pub fn commands(prng: &mut Prng) -> usize {
    1 + prng.below(MOST[2])
}

/// The same p, or at times one out of its range.
pub fn perhaps_other_commands(prng: &mut Prng, p: usize) -> usize {
    match prng.chance(6) {
        true => outside(prng, p, MOST[2]),
        false => p,
    }
}
