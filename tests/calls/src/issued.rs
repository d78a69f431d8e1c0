//! Commands that calls issue, counted by their byte 2.

use std::fmt;

use second::frame::{command_limited, COMMAND_AREA};

use crate::report::write_row;

/// The rows of a count.
pub const BYTES: [&str; 2] = ["byte 2 of 0", "byte 2 of 1"];

/// At place 0 the commands with byte 2 of 0, at place 1 those with 1.
#[derive(Clone, Copy, Debug, Default)]
pub struct Issued(pub [usize; 2]);

impl Issued {
    /// The command at the start of an area, of the length that a call gave.
    /// Where none was issued it is 0; a call that gives no lengths leaves one
    /// that no command has.
    pub fn count(&mut self, area: &[u8], length: usize) {
        if !(1..=COMMAND_AREA).contains(&length) {
            return;
        }
        if let Some(limited) = command_limited(&area[..length]) {
            self.0[usize::from(limited)] += 1;
        }
    }

    pub fn add(&mut self, others: Issued) {
        for (count, other) in self.0.iter_mut().zip(others.0) {
            *count += other;
        }
    }

    pub fn write(&self, out: &mut fmt::Formatter<'_>, what: &str) -> fmt::Result {
        writeln!(out, "{what}")?;
        for (name, &count) in BYTES.iter().zip(&self.0) {
            write_row(out, &format!("  {name}"), count)?;
        }
        Ok(())
    }
}
