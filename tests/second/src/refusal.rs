//! Document 01, "Where each refusal is made". Document 02: "refusals added
//! from here on join demand 1's twelve".

use std::fmt;

/// A refusal; its value as `u8` is the number in document 01's table or in
/// document 02's request.
#[derive(Clone, Copy, Debug, PartialEq, Eq)]
#[repr(u8)]
pub enum Refusal {
    /// "N not 3 to 9, or own number not 1 to N"
    Group = 1,
    /// "n, m or p outside its range"
    Sizes = 2,
    /// "a coefficient outside its range"
    Coefficient = 3,
    /// "a lower limit above its upper"
    Limits = 4,
    /// "frame area under 69 bytes or command area under 24"; document 02, L4:
    /// "5 also for a record area too short"
    Areas = 5,
    /// "period already 4,294,967,295"
    LastPeriod = 6,
    /// "a present mark at or above m"; document 02: "7 looks at them
    /// converted"
    Marks = 7,
    /// "length, kind, part count, byte 3, pairs, marks or absent values not as above"
    Form = 8,
    /// "sender not 1 to N, or the own number"
    Sender = 9,
    /// "Propose or Decide not from its view's coordinator; Ack or Estimate at a box that isn't"
    Coordinator = 10,
    /// "base fields not as above"
    Bases = 11,
    /// "view already 4,294,967,295"
    LastView = 12,
    /// Document 02, L3: "on writing, area under 4,380 bytes"
    PageArea = 13,
    /// Document 02, L3: "more than 60 distinct periods, or on reading back a
    /// page that no writing gives"
    Page = 14,
    /// Document 02, L4: "record not of the layout, or with settings refused at
    /// making, a mode or mark of no meaning, a box heard above N, a base above
    /// its counter, or an absent value not 0"
    Record = 15,
    /// Document 02, L4: "missed count over 10,000, or a period or view that
    /// would pass its largest value"
    Missed = 16,
    /// Document 02, L6: "at commit: 17 ticket not the latest ask's, void or
    /// committed, or that ask ignored or refused"
    Ticket = 17,
    /// Document 02, L8: "with the settings, after 4: 18 a or b outside 2 to N,
    /// or a + b not above N"
    Quorums = 18,
}

impl Refusal {
    /// The number in document 01's table or in document 02's request.
    pub fn number(self) -> u8 {
        self as u8
    }
}

/// "`r` and the number, as `r9`"
impl fmt::Display for Refusal {
    fn fmt(&self, out: &mut fmt::Formatter<'_>) -> fmt::Result {
        write!(out, "r{}", self.number())
    }
}
