//! Damages to a shift page wherever its bytes stand.

use second::page::PAGE_AREA;

use crate::page_columns::{LINE, LINE_FEED};
use crate::prng::Prng;
use crate::values::byte;

/// The place of a space.
fn space_of(prng: &mut Prng, bytes: &[u8]) -> usize {
    let line = prng.below(bytes.len() / LINE) * LINE;
    let is_space = |&at: &usize| bytes[at] == b' ';
    let spaces: Vec<usize> = (line..line + LINE).filter(is_space).collect();
    prng.pick(&spaces)
}

pub fn remove_space(prng: &mut Prng, mut bytes: Vec<u8>) -> Vec<u8> {
    let at = space_of(prng, &bytes);
    bytes.remove(at);
    bytes
}

pub fn insert_space(prng: &mut Prng, mut bytes: Vec<u8>) -> Vec<u8> {
    bytes.insert(prng.below(bytes.len() + 1), b' ');
    bytes
}

/// Within its line or to another place; whatever is between moves by one. In
/// a run of spaces that leaves the page as it was.
pub fn move_space(prng: &mut Prng, mut bytes: Vec<u8>) -> Vec<u8> {
    let from = space_of(prng, &bytes);
    let to = match prng.chance(70) {
        true => from / LINE * LINE + prng.below(LINE_FEED),
        false => prng.below(bytes.len()),
    };
    match from < to {
        true => bytes[from..=to].rotate_left(1),
        false => bytes[to..=from].rotate_right(1),
    }
    bytes
}

pub fn lose_end(_: &mut Prng, mut bytes: Vec<u8>) -> Vec<u8> {
    bytes.pop();
    bytes
}

pub fn lose_all(_: &mut Prng, _: Vec<u8>) -> Vec<u8> {
    vec![]
}

/// At times its lower bits are those that were there.
pub fn high_byte(prng: &mut Prng, mut bytes: Vec<u8>) -> Vec<u8> {
    let at = prng.below(bytes.len());
    let lower = byte(prng);
    bytes[at] = 128 | prng.pick(&[lower, bytes[at]]);
    bytes
}

/// At times as many as a line has, with the line feed in its place.
pub fn add(prng: &mut Prng, mut bytes: Vec<u8>) -> Vec<u8> {
    let filler = prng.pick(b" \n0-\0");
    let mut added = match prng.chance(50) {
        true => vec![filler; LINE],
        false => vec![filler; 1 + prng.below(80)],
    };
    if prng.chance(50) {
        added.fill_with(|| byte(prng));
    }
    if prng.chance(50) && added.len() == LINE {
        added[LINE_FEED] = b'\n';
    }
    bytes.append(&mut added);
    bytes
}

/// From the start of a line on what is left is a page.
pub fn cut_off(prng: &mut Prng, mut bytes: Vec<u8>) -> Vec<u8> {
    let left = match prng.below(3) {
        0 => bytes.len() - 1 - prng.below(LINE),
        1 => LINE * prng.below(bytes.len() / LINE),
        _ => prng.below(bytes.len()),
    };
    bytes.truncate(left);
    bytes
}

/// Bytes at random, of all or of those that a page has; half of them have
/// their line feeds where a page has them.
pub fn noise(prng: &mut Prng, mut bytes: Vec<u8>) -> Vec<u8> {
    let length = match prng.chance(60) {
        true => LINE * (1 + prng.below(60)),
        false => prng.below(PAGE_AREA + LINE),
    };
    let of_page = prng.chance(50);
    bytes.resize_with(length, || match of_page {
        true => prng.pick(b"0123456789-        "),
        false => byte(prng),
    });
    if prng.chance(50) {
        let ends = bytes.iter_mut().skip(LINE_FEED).step_by(LINE);
        ends.for_each(|end| *end = b'\n');
    }
    bytes
}
