//! What the files with power cycles in their histories share: what a host
//! stores, what a box misses, and the groups that they try.

use second::law::Readings;
use second::record::{self, LENGTH};
use second::replica::{Quorums, Replica};

use crate::pairs;
use crate::random::Random;

impl Random {
    /// The periods that a box misses, mostly none.
    pub fn missed(&mut self) -> u32 {
        [0, 0, 0, 0, 0, 0, 1, 2][self.below(8)]
    }
}

/// A record with the rows behind it: row k is that of the k-th tick.
#[derive(Clone)]
pub struct Stored {
    pub record: Vec<u8>,
    pub rows: Vec<Readings>,
}

impl Stored {
    pub fn new(replica: &Replica, rows: &[Readings]) -> Stored {
        let mut record = vec![0; LENGTH];
        record::write(replica, &mut record).unwrap();
        let rows = rows.to_vec();
        Stored { record, rows }
    }

    /// The replica that returns, and the rows behind it: the missed periods
    /// count as ticks without a reading.
    pub fn come_back(&self, missed: u32) -> (Replica, Vec<Readings>) {
        let replica = record::return_from(&self.record, missed).unwrap();
        let mut rows = self.rows.clone();
        rows.extend(std::iter::repeat_n(Readings::default(), missed as usize));
        (replica, rows)
    }
}

/// Groups of three, four and five boxes, each with all its allowed pairs in
/// turn.
pub fn groups() -> Vec<(u8, Quorums)> {
    let group = |round: usize| {
        let boxes = 3 + (round % 3) as u8;
        let pairs = pairs::allowed(boxes);
        (boxes, pairs[round / 3 % pairs.len()])
    };
    (0..6000).map(group).collect()
}
