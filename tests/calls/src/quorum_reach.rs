//! By which numbers boxes decide and propose: below the majority, at it and
//! above.

use std::cmp::Ordering;
use std::fmt;

use second::frame::{ACK, DECIDE, ESTIMATE, PROPOSE};
use second::replica::{majority, Quorums};

/// The rows of a count: an Ack makes its coordinator decide, by a, and an
/// Estimate makes it propose, by b.
const ROWS: [&str; 6] = [
    "Ack: decided, a below majority",
    "Ack: decided, a at majority",
    "Ack: decided, a above majority",
    "Estimate: proposed, b below majority",
    "Estimate: proposed, b at majority",
    "Estimate: proposed, b above majority",
];

#[derive(Clone, Copy, Debug, Default)]
pub struct Reached(pub [usize; ROWS.len()]);

impl Reached {
    /// A step that was done, with the kinds of the frame that arrived and of
    /// the frame that it sent, 0 for none.
    pub fn count(&mut self, boxes: u8, quorums: Quorums, arrived: u8, sent: u8) {
        let (rows, number) = match (arrived, sent) {
            (ACK, DECIDE) => (0, quorums.to_decide),
            (ESTIMATE, PROPOSE) => (3, quorums.to_propose),
            _ => return,
        };
        let row = match number.cmp(&majority(boxes)) {
            Ordering::Less => 0,
            Ordering::Equal => 1,
            Ordering::Greater => 2,
        };
        self.0[rows + row] += 1;
    }

    pub fn add(&mut self, others: Reached) {
        for (count, other) in self.0.iter_mut().zip(others.0) {
            *count += other;
        }
    }
}

/// A table of several counts, a column each.
pub fn write(out: &mut fmt::Formatter<'_>, columns: &[(&str, Reached)]) -> fmt::Result {
    write!(out, "{:<35}", "quorums")?;
    for (head, _) in columns {
        write!(out, "{head:>12}")?;
    }
    for (row, name) in ROWS.iter().enumerate() {
        write!(out, "\n  {name:<36}")?;
        let mut width = 9;
        for (_, reached) in columns {
            write!(out, "{:>width$}", reached.0[row])?;
            width = 12;
        }
    }
    writeln!(out)
}
