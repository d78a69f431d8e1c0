//! Frames whole and damaged, as bytes.

use second::frame::{ACK, DECIDE, ESTIMATE, PROPOSE};

use crate::draft::Draft;
use crate::prng::Prng;
use crate::values::{byte, other_byte};

/// What is done to a frame; all from `OtherSizes` on need one with parts.
#[derive(Clone, Copy, Debug, PartialEq, PartialOrd)]
pub enum Damage {
    None,
    ByteChanged,
    CutOff,
    Added,
    Noise,
    ByteThree,
    NoKind,
    PartCount,
    OtherSizes,
    PartsSwapped,
    Gap,
    Overlap,
    PartLength,
    PairNumber,
    MarkBeyond,
    AbsentValue,
}

/// Every damage with its name.
pub const NAMES: [(Damage, &str); 16] = [
    (Damage::None, "whole"),
    (Damage::ByteChanged, "one byte changed"),
    (Damage::CutOff, "bytes cut off"),
    (Damage::Added, "bytes added"),
    (Damage::Noise, "noise"),
    (Damage::ByteThree, "byte 3 not 0"),
    (Damage::NoKind, "kind 0 or above 4"),
    (Damage::PartCount, "another part count"),
    (Damage::OtherSizes, "whole for another n and m"),
    (Damage::PartsSwapped, "parts or pairs swapped"),
    (Damage::Gap, "a gap ahead of a part"),
    (Damage::Overlap, "parts that overlap"),
    (Damage::PartLength, "a longer or shorter part"),
    (Damage::PairNumber, "an offset or length off by 1"),
    (Damage::MarkBeyond, "a mark at or above m"),
    (Damage::AbsentValue, "an absent value not 0"),
];

/// The longest bytes that are handed to a reader.
pub const LONGEST: usize = 80;

/// A frame as bytes, with what was done to it; its place in `NAMES`.
pub struct Made {
    pub kind: u8,
    pub damage: usize,
    pub bytes: Vec<u8>,
}

/// A frame for these sizes, which are in range: one in four is whole.
pub fn make(prng: &mut Prng, n: usize, m: usize) -> Made {
    let damage = match prng.chance(25) {
        true => 0,
        false => 1 + prng.below(NAMES.len() - 1),
    };
    let kinds: &[u8] = match NAMES[damage].0 >= Damage::OtherSizes {
        true => &[PROPOSE, DECIDE, ESTIMATE],
        false => &[PROPOSE, ACK, DECIDE, ESTIMATE],
    };
    let kind = prng.pick(kinds);
    let draft = Draft::whole(prng, kind, n, m);
    let bytes = damaged(prng, NAMES[damage].0, draft, n, m);
    Made {
        kind,
        damage,
        bytes,
    }
}

/// Any damage that a frame of this kind can take.
pub fn for_kind(prng: &mut Prng, kind: u8) -> Damage {
    let takes = |(damage, _): &&(Damage, &str)| kind != ACK || *damage < Damage::OtherSizes;
    let count = NAMES.iter().filter(takes).count();
    NAMES[1 + prng.below(count - 1)].0
}

/// The bytes of a frame for these sizes, with this damage done to it.
pub fn damaged(prng: &mut Prng, damage: Damage, mut draft: Draft, n: usize, m: usize) -> Vec<u8> {
    let kind = draft.header[0];
    match damage {
        Damage::None => {}
        Damage::ByteChanged => return byte_changed(prng, draft.bytes()),
        Damage::CutOff => return cut_off(prng, draft.bytes()),
        Damage::Added => return added(prng, draft.bytes()),
        Damage::Noise => return noise(prng, kind),
        Damage::ByteThree => draft.header[3] = other_byte(prng, 0),
        Damage::NoKind => draft.header[0] = prng.pick(&[0, 5, 6, 7, 128 + kind, 255]),
        Damage::PartCount => draft.header[2] = other_count(prng, draft.header[2]),
        Damage::OtherSizes => draft = of_other_sizes(prng, kind, n, m),
        Damage::PartsSwapped => swap_parts(prng, &mut draft),
        Damage::Gap => leave_gap(prng, &mut draft),
        Damage::Overlap => overlap(prng, &mut draft),
        Damage::PartLength => stretch(prng, &mut draft),
        Damage::PairNumber => change_pair(prng, &mut draft),
        Damage::MarkBeyond => draft.parts[1][0] |= 1 << (m + prng.below(8 - m)),
        Damage::AbsentValue => leave_absent_value(prng, &mut draft, m),
    }
    draft.bytes()
}

fn byte_changed(prng: &mut Prng, mut bytes: Vec<u8>) -> Vec<u8> {
    let at = prng.below(bytes.len());
    bytes[at] = other_byte(prng, bytes[at]);
    bytes
}

fn cut_off(prng: &mut Prng, mut bytes: Vec<u8>) -> Vec<u8> {
    let most = if prng.chance(50) { 4 } else { bytes.len() };
    bytes.truncate(bytes.len() - 1 - prng.below(most));
    bytes
}

fn added(prng: &mut Prng, mut bytes: Vec<u8>) -> Vec<u8> {
    let room = LONGEST - bytes.len();
    let most = if prng.chance(50) { 4 } else { room };
    let count = 1 + prng.below(most);
    let zeros = prng.chance(50);
    bytes.extend((0..count).map(|_| if zeros { 0 } else { byte(prng) }));
    bytes
}

/// Bytes at random; half of them begin as a frame does.
fn noise(prng: &mut Prng, kind: u8) -> Vec<u8> {
    let length = match prng.chance(20) {
        true => 20,
        false => prng.below(LONGEST + 1),
    };
    let mut bytes: Vec<u8> = (0..length).map(|_| byte(prng)).collect();
    if length >= 4 && prng.chance(50) {
        let part_count = if kind == ACK { 0 } else { 2 };
        bytes[..4].copy_from_slice(&[kind, byte(prng), part_count, 0]);
    }
    bytes
}

fn other_count(prng: &mut Prng, count: u8) -> u8 {
    match prng.chance(50) {
        true => 2 - count,
        false => other_byte(prng, count),
    }
}

/// A whole frame for other sizes; if there are such, of the same length.
fn of_other_sizes(prng: &mut Prng, kind: u8, n: usize, m: usize) -> Draft {
    let (n, m) = match (n, m) {
        (2..=6, 1..=3) => (n - 1, m + 1),
        (1..=5, 2..=4) => (n + 1, m - 1),
        _ => (7 - n, 5 - m),
    };
    Draft::whole(prng, kind, n, m)
}

fn swap_parts(prng: &mut Prng, draft: &mut Draft) {
    match prng.below(3) {
        0 => {
            draft.parts.swap(0, 1);
            draft.pair_anew();
        }
        1 => draft.parts.swap(0, 1),
        _ => draft.pairs.rotate_left(2),
    }
}

/// A few bytes of no part, ahead of the state's part or of the readings'; the
/// offsets after them are right.
fn leave_gap(prng: &mut Prng, draft: &mut Draft) {
    let gap = vec![byte(prng); 1 + prng.below(4)];
    let width = gap.len() as u16;
    let ahead_of = prng.below(2);
    for offset in draft.pairs.iter_mut().step_by(2).skip(ahead_of) {
        *offset += width;
    }
    draft.parts.insert(ahead_of, gap);
}

/// The readings' part starts with the last bytes of the state's.
fn overlap(prng: &mut Prng, draft: &mut Draft) {
    let width = 1 + prng.below(4);
    let left = draft.parts[0].len() - width;
    draft.parts[0].truncate(left);
    draft.pairs[2] -= width as u16;
}

/// A part that is longer or shorter, with pairs that fit.
fn stretch(prng: &mut Prng, draft: &mut Draft) {
    let part = prng.below(2);
    let width = prng.pick(&[1, 4]);
    let length = draft.parts[part].len();
    let length = match prng.chance(50) {
        true => length + width,
        false => length - width,
    };
    draft.parts[part].resize(length, byte(prng));
    draft.pair_anew();
}

/// One number of the pairs, off by 1 in its lower or its higher byte.
fn change_pair(prng: &mut Prng, draft: &mut Draft) {
    let number = prng.below(4);
    let by = prng.pick(&[1, u16::MAX, 256]);
    draft.pairs[number] = draft.pairs[number].wrapping_add(by);
}

/// One byte of an absent reading's value is not 0.
fn leave_absent_value(prng: &mut Prng, draft: &mut Draft, m: usize) {
    let j = prng.below(m);
    let value = 1 + 4 * j;
    let part = &mut draft.parts[1];
    part[0] &= !(1 << j);
    part[value..value + 4].fill(0);
    part[value + prng.below(4)] = other_byte(prng, 0);
}

#[cfg(test)]
mod tests {
    use super::*;
    use second::frame;

    /// Those that may leave a frame of these sizes behind.
    const HARMLESS: [Damage; 4] = [
        Damage::None,
        Damage::ByteChanged,
        Damage::Noise,
        Damage::PartsSwapped,
    ];

    #[test]
    fn every_other_damage_is_refused() {
        let mut prng = Prng::new(2);
        for _ in 0..50_000 {
            let (n, m) = (1 + prng.below(6), 1 + prng.below(4));
            let made = make(&mut prng, n, m);
            let read = frame::read(n as u8, m as u8, &made.bytes).is_ok();
            let damage = NAMES[made.damage].0;
            assert!(made.bytes.len() <= LONGEST);
            assert!(!read || HARMLESS.contains(&damage), "{damage:?}");
            assert!(read || damage != Damage::None);
        }
    }
}
