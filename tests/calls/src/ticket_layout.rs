//! Where the tickets stand behind the record in a replica with tickets
//! (docs/RECORD.md), and their numbers.

use std::ops::Range;

use winder::{RECORD, TICKETED};

use crate::record_layout::{Record, PERIOD};

/// A replica with tickets, or bytes handed in as one.
pub type Replica = Vec<u8>;

pub const TICKET_LETTER: usize = RECORD;
pub const TICKET_VERSION: usize = 617;

/// 1 where the latest ticket can be committed: it is open.
pub const OPEN: usize = 618;

pub const ZEROS: Range<usize> = 619..624;
pub const LATEST: Range<usize> = 624..632;

/// What the step leaves of the latest ask that was ok.
pub const LEFT: Range<usize> = 632..TICKETED;

/// What a step changes in a record; such bytes also stand in `LEFT`.
pub const STEPPED: Range<usize> = PERIOD..RECORD;

pub fn is_open(replica: &[u8]) -> bool {
    replica[OPEN] == 1
}

pub fn latest(replica: &[u8]) -> u64 {
    let bytes = replica[LATEST].try_into();
    u64::from_le_bytes(bytes.expect("eight bytes"))
}

pub fn put_latest(replica: &mut [u8], ticket: u64) {
    replica[LATEST].copy_from_slice(&ticket.to_le_bytes());
}

/// The record that the step leaves.
pub fn left_record(replica: &[u8]) -> Record {
    [&replica[..PERIOD], &replica[LEFT]].concat()
}

/// Of this record what a step changes.
pub fn put_left(replica: &mut [u8], record: &[u8]) {
    replica[LEFT].copy_from_slice(&record[STEPPED]);
}

#[cfg(test)]
mod tests {
    use super::*;

    #[test]
    fn the_parts_follow_each_other_to_the_end() {
        assert_eq!(TICKET_LETTER + 1, TICKET_VERSION);
        assert_eq!(TICKET_VERSION + 1, OPEN);
        assert_eq!(OPEN + 1, ZEROS.start);
        assert_eq!([ZEROS.end, LATEST.end], [LATEST.start, LEFT.start]);
        assert_eq!(LEFT.len(), STEPPED.len());
    }
}
