//! Returning: "Returning takes a record and a count of missed periods, and
//! yields the replica that a box would be which stayed up, was handed no
//! reading in those periods and lost every frame."

use super::read::read;
use crate::fault::{planted, Fault};
use crate::frame::{COMMAND_AREA, FRAME_AREA};
use crate::law::MAX_READINGS;
use crate::reading::{Reading, Row};
use crate::refusal::Refusal;
use crate::replica::{Answer, Areas, Replica, Step};

/// "missed count over 10,000" is refused.
const MOST_MISSED: u32 = 10_000;

/// "was handed no reading in those periods"
const NO_READING: Row = [Reading::Missing; MAX_READINGS];

/// The replica that returns from a record; refuses "on return, in order: 15 ..
/// 16".
pub fn return_from(bytes: &[u8], missed: u32) -> Result<Replica, Refusal> {
    come_back(read(bytes)?, missed)
}

/// The replica after so many missed periods; refuses by 16 for the count, or
/// for a tick among them.
pub fn come_back(mut replica: Replica, missed: u32) -> Result<Replica, Refusal> {
    check_missed(missed)?;
    for _ in 0..ticks(missed) {
        replica = miss(replica)?;
    }
    Ok(replica)
}

/// Refusal 16: "missed count over 10,000".
fn check_missed(missed: u32) -> Result<(), Refusal> {
    if missed > MOST_MISSED + u32::from(planted(Fault::MissedBeyondTaken)) {
        return Err(Refusal::Missed);
    }
    Ok(())
}

/// A tick for each missed period.
fn ticks(missed: u32) -> u32 {
    if planted(Fault::MissedOneFewer) {
        return missed.saturating_sub(1);
    }
    missed
}

/// One missed period: a tick with no reading, whose frame is lost. Refusal 16:
/// "a period or view that would pass its largest value", where 6 or 12 would
/// refuse the tick. Of a record that 15 takes nothing else refuses one.
fn miss(replica: Replica) -> Result<Replica, Refusal> {
    let (mut next, step) = tick(replica);
    if planted(Fault::MissedWithoutUpdate) {
        next.estimate.state = replica.estimate.state;
    }
    match step.answer {
        Answer::Refused(Refusal::LastView) if planted(Fault::MissedViewSkipped) => Ok(replica),
        Answer::Refused(_) => Err(Refusal::Missed),
        Answer::Ok | Answer::Ignored => Ok(next),
    }
}

/// "lost every frame": what the tick sends is dropped.
fn tick(replica: Replica) -> (Replica, Step) {
    let (mut frame, mut command) = ([0; FRAME_AREA], [0; COMMAND_AREA]);
    let areas = Areas {
        frame: &mut frame,
        command: &mut command,
    };
    replica.tick(&NO_READING, areas)
}
