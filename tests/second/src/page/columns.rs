//! Where everything stands on a line: "period right-aligned in 10 columns, a
//! space, view in 10, a space, then the commands in 12 columns each,
//! right-aligned, and spaces to the end". Columns are counted from 0.

use std::ops::Range;

use crate::fault::{planted, Fault};

/// "lines of exactly 72 bytes plus a line feed"
pub const WIDTH: usize = 72;
pub const LINE: usize = WIDTH + 1;

/// "period right-aligned in 10 columns"
pub const PERIOD: Range<usize> = 0..10;

const FIRST_COMMAND: usize = 22;
const COMMAND: usize = 12;

/// "view in 10"
pub fn view() -> Range<usize> {
    if planted(Fault::ViewColumn) {
        return 10..20;
    }
    11..21
}

/// Those of command j, counted from 0: "12 columns each".
pub fn command(j: usize) -> Range<usize> {
    let first = FIRST_COMMAND + COMMAND * j;
    first..first + COMMAND
}

/// Those of all p commands.
pub fn commands(p: usize) -> Range<usize> {
    FIRST_COMMAND..FIRST_COMMAND + COMMAND * p
}

/// "a hyphen in the last column of the first command"
pub fn hyphen() -> usize {
    let columns = command(0);
    if planted(Fault::HyphenColumn) {
        return columns.start;
    }
    columns.end - 1
}
