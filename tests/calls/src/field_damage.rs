//! What damages do to one field of a record.

use second::law::LARGEST_COEFFICIENT;

use crate::handed_in::near;
use crate::prng::Prng;
use crate::record_layout::*;
use crate::values::{byte, other_byte};

/// The longest bytes that are handed in as a record.
const LONGEST_RECORD: usize = 700;

/// A mode or a mark, of a meaning or of none.
pub fn mark(prng: &mut Prng) -> u8 {
    prng.pick(&[0, 1, 2, 128, 255])
}

/// At an end of the range of n, m or p, or just outside.
pub fn size(prng: &mut Prng, most: u8) -> u8 {
    prng.pick(&[0, 1, most, most + 1, 255])
}

/// At an end of the group, or outside.
pub fn box_number(prng: &mut Prng, record: &[u8]) -> u8 {
    let boxes = record[BOXES];
    prng.pick(&[0, 1, boxes, boxes + 1, 255])
}

/// From no byte to more than a record has.
pub fn other_length(prng: &mut Prng, record: &mut Record) {
    let length = match prng.below(4) {
        0 => prng.pick(&[0, 1, 496, 614, 618]),
        _ => prng.below(LONGEST_RECORD + 1),
    };
    record.resize_with(length, || byte(prng));
}

/// A coefficient at an end of its range or outside, mostly where the law looks
/// at it: in the first of so many rows and columns.
pub fn coefficient(
    prng: &mut Prng,
    record: &mut Record,
    table: usize,
    used: [usize; 2],
    all: [usize; 2],
) {
    let places = match prng.chance(75) {
        true => used,
        false => all,
    };
    let [i, j] = places.map(|places| prng.below(places));
    let largest = LARGEST_COEFFICIENT;
    let ends = [
        largest,
        -largest,
        largest + 1,
        -largest - 1,
        i32::MAX,
        i32::MIN,
    ];
    put_value(record, table + 4 * (i * all[1] + j), prng.pick(&ends));
}

/// The place of a limit, mostly of one that the law looks at.
fn limit_place(prng: &mut Prng, record: &[u8]) -> usize {
    match prng.chance(75) {
        true => 4 * prng.below(sizes(record).p),
        false => 4 * prng.below(4),
    }
}

/// Above its upper, equal to it, or just below.
pub fn lower_limit(prng: &mut Prng, record: &mut Record) {
    let place = limit_place(prng, record);
    let upper = value(record, UPPER + place);
    let around = [
        upper,
        upper.saturating_add(1),
        upper.saturating_sub(1),
        i32::MAX,
    ];
    put_value(record, LOWER + place, prng.pick(&around));
}

/// Below its lower, equal to it, or just above.
pub fn upper_limit(prng: &mut Prng, record: &mut Record) {
    let place = limit_place(prng, record);
    let lower = value(record, LOWER + place);
    let around = [
        lower,
        lower.saturating_add(1),
        lower.saturating_sub(1),
        i32::MIN,
    ];
    put_value(record, UPPER + place, prng.pick(&around));
}

/// A counter becomes one close to another.
pub fn near_to(prng: &mut Prng, record: &mut Record, counter: usize, other: usize) {
    let close = near(prng, number(record, other));
    put_number(record, counter, close);
}

pub fn heard_above(prng: &mut Prng, record: &mut Record) {
    let above = usize::from(record[BOXES]) + 1;
    let place = above + prng.below(HEARD_PLACES - above);
    record[HEARD + place] = prng.pick(&[1, 2, 255]);
}

pub fn has_unused_state(record: &[u8]) -> bool {
    sizes(record).n < 6
}

pub fn has_unused_value(record: &[u8]) -> bool {
    sizes(record).m < 4
}

/// One byte of a value becomes another than 0.
fn spoil(prng: &mut Prng, record: &mut Record, at: usize) {
    record[at + prng.below(4)] = other_byte(prng, 0);
}

pub fn state_from_n(prng: &mut Prng, record: &mut Record, estimate: Estimate) {
    let n = sizes(record).n;
    let place = n + prng.below(6 - n);
    spoil(prng, record, estimate.state + 4 * place);
}

pub fn mark_from_m(prng: &mut Prng, record: &mut Record, estimate: Estimate) {
    let m = sizes(record).m;
    record[estimate.marks] |= 1 << (m + prng.below(8 - m));
}

pub fn absent_value(prng: &mut Prng, record: &mut Record, estimate: Estimate) {
    let j = prng.below(sizes(record).m);
    let at = estimate.values + 4 * j;
    record[estimate.marks] &= !(1 << j);
    record[at..at + 4].fill(0);
    spoil(prng, record, at);
}

pub fn value_from_m(prng: &mut Prng, record: &mut Record, estimate: Estimate) {
    let m = sizes(record).m;
    let place = m + prng.below(4 - m);
    spoil(prng, record, estimate.values + 4 * place);
}

pub fn absent_best(prng: &mut Prng, record: &mut Record) {
    record[BEST..].fill(0);
    let at = BEST_BOX + prng.below(record.len() - BEST_BOX);
    record[at] = other_byte(prng, 0);
}

/// Where there is no best estimate, one of some box of the group, as the one
/// held; the record stays whole.
pub fn put_best(prng: &mut Prng, record: &mut Record) {
    if record[BEST] == 1 {
        return;
    }
    record[BEST] = 1;
    record[BEST_BOX] = 1 + prng.below(record[BOXES].into()) as u8;
    record.copy_within(BASE_VIEW..MODE, BEST_BASE_VIEW);
    record.copy_within(HELD.state..BEST, HEARD_BEST.state);
}
