//! Where everything stands in a record (docs/RECORD.md), and its numbers.

use second::replica::Quorums;

use crate::areas::Sizes;
use crate::quorums::are_allowed;

/// A record, or bytes handed in as one.
pub type Record = Vec<u8>;

pub const LETTER: usize = 0;
pub const VERSION: usize = 1;
pub const BOXES: usize = 2;
pub const OWN: usize = 3;
pub const N: usize = 4;
pub const M: usize = 5;
pub const P: usize = 6;
pub const QUORUMS: usize = 7;

pub const A: usize = 8;
pub const L: usize = 152;
pub const C: usize = 248;
pub const K: usize = 344;
pub const LOWER: usize = 440;
pub const UPPER: usize = 456;
pub const START: usize = 472;

pub const PERIOD: usize = 496;
pub const VIEW: usize = 500;
pub const BASE_VIEW: usize = 504;
pub const BASE_PERIOD: usize = 508;
pub const MODE: usize = 512;
pub const DECIDED: usize = 513;
pub const HEARD: usize = 514;
pub const HEARD_PLACES: usize = 10;

/// Whether there is a best estimate; all that is said of it stands behind.
pub const BEST: usize = 565;
pub const BEST_BOX: usize = 566;
pub const BEST_BASE_VIEW: usize = 567;
pub const BEST_BASE_PERIOD: usize = 571;

/// Where an estimate's state, present marks and readings stand.
#[derive(Clone, Copy)]
pub struct Estimate {
    pub state: usize,
    pub marks: usize,
    pub values: usize,
}

pub const HELD: Estimate = Estimate {
    state: 524,
    marks: 548,
    values: 549,
};

pub const HEARD_BEST: Estimate = Estimate {
    state: 575,
    marks: 599,
    values: 600,
};

pub fn number(record: &[u8], at: usize) -> u32 {
    let bytes = record[at..at + 4].try_into();
    u32::from_le_bytes(bytes.expect("four bytes"))
}

pub fn put_number(record: &mut [u8], at: usize, number: u32) {
    record[at..at + 4].copy_from_slice(&number.to_le_bytes());
}

pub fn value(record: &[u8], at: usize) -> i32 {
    number(record, at) as i32
}

pub fn put_value(record: &mut [u8], at: usize, value: i32) {
    put_number(record, at, value as u32);
}

pub fn sizes(record: &[u8]) -> Sizes {
    let [n, m, p] = [N, M, P].map(|at| record[at].into());
    Sizes { n, m, p }
}

/// a in the four low bits, b in the four high ones.
pub fn quorums_of(record: &[u8]) -> Quorums {
    Quorums {
        to_decide: record[QUORUMS] & 15,
        to_propose: record[QUORUMS] >> 4,
    }
}

pub fn has_allowed_quorums(record: &[u8]) -> bool {
    are_allowed(record[BOXES], quorums_of(record))
}

#[cfg(test)]
mod tests {
    use super::*;

    #[test]
    fn the_parts_follow_each_other_to_the_end() {
        assert_eq!(
            [L - A, C - L, K - C, LOWER - K],
            [36, 24, 24, 24].map(|n| 4 * n)
        );
        assert_eq!([UPPER - LOWER, START - UPPER, PERIOD - START], [16, 16, 24]);
        assert_eq!(HEARD + HEARD_PLACES, HELD.state);
        for estimate in [HELD, HEARD_BEST] {
            assert_eq!(estimate.state + 24, estimate.marks);
            assert_eq!(estimate.marks + 1, estimate.values);
        }
        assert_eq!(HELD.values + 16, BEST);
        assert_eq!(HEARD_BEST.values + 16, winder::RECORD);
    }
}
