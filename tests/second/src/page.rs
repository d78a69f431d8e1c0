//! Document 02, L3, "The shift page": "Foremen print what the group did."
//!
//! "The page's reading back gives the same periods, views and commands". Of
//! refusals "p is given both ways and refused by 2 first", and then "page area
//! checked before entries".

mod columns;
mod read;
mod write;

pub use read::read;
pub use write::write;

use crate::fault::{planted, Fault};
use crate::law::{Command, MAX_COMMANDS};
use crate::refusal::Refusal;

/// "area under 4,380 bytes" is refused, whatever the page has.
pub const PAGE_AREA: usize = 4_380;

/// "At most 60 periods stand on a page"
pub const MOST_PERIODS: usize = 60;

/// One period of what the group did.
#[derive(Clone, Copy, Debug, PartialEq, Eq)]
pub struct Entry {
    pub period: u32,
    pub view: u32,
    /// None for "a period without a command". Places beyond p are not looked
    /// at on writing, and 0 in what is read.
    pub command: Option<Command>,
}

/// "p is given both ways and refused by 2 first"
fn check_commands(p: usize) -> Result<(), Refusal> {
    if (1..=MAX_COMMANDS).contains(&p) {
        Ok(())
    } else {
        Err(Refusal::Sizes)
    }
}

/// Refusal 14 where more periods stand on a page than may.
fn check_periods(count: usize) -> Result<(), Refusal> {
    if count > MOST_PERIODS + usize::from(planted(Fault::SixtyFirstPeriod)) {
        return Err(Refusal::Page);
    }
    Ok(())
}
