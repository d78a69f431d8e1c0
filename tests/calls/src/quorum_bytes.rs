//! Byte 7 of records, which has both quorums: that every value was handed in.

use std::collections::BTreeSet;
use std::fmt;

use crate::record_layout::QUORUMS;

#[derive(Debug, Default)]
pub struct QuorumBytes(BTreeSet<u8>);

impl QuorumBytes {
    /// A record that is whole in all other bytes.
    pub fn count(&mut self, record: &[u8]) {
        self.0.insert(record[QUORUMS]);
    }

    /// An error if there is a value that no record had.
    pub fn check(&self) -> Result<(), String> {
        match (0..=u8::MAX).find(|value| !self.0.contains(value)) {
            Some(value) => Err(format!("no record had {value} as its byte 7")),
            None => Ok(()),
        }
    }

    pub fn write(&self, out: &mut fmt::Formatter<'_>) -> fmt::Result {
        writeln!(out, "values of byte 7: {} of 256", self.0.len())
    }
}
