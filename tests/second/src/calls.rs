//! Document 02, L4: "The C firmware of the boxes calls making, stepping,
//! recording and returning through functions on numbers and byte areas. There
//! a replica is its record; one that 15 would refuse gets 15 before the lent
//! areas."
//!
//! Changes: "Every call: 15 first, then 5 for each lent area (the record's own
//! among them), then 16 or the event. A step writes the new record where the
//! old one was, and only if the answer is ok." Here the record's own area is
//! the record: any other length than its own is 15.
//!
//! Each answer is a number: 0 done, 256 ignored, else that of the refusal.
//! Refused or ignored, record and areas hold what they held.

use crate::fault::{planted, Fault};
use crate::law::{Settings, MAX_READINGS};
use crate::reading::{Reading, Row};
use crate::record::{self, LENGTH};
use crate::refusal::Refusal;
use crate::replica::{Answer, Areas, Quorums, Replica, Step};

/// The answer of a call that took place.
pub const DONE: u32 = 0;

/// The answer of an event that is ignored; no refusal has this number.
pub const IGNORED: u32 = 256;

/// Makes the record of a fresh replica; refuses settings by 1 to 4, then by
/// 18, then by 5 an area under 616 bytes.
pub fn make(boxes: u8, own: u8, quorums: Quorums, settings: Settings, area: &mut [u8]) -> u32 {
    let made = Replica::new(boxes, own, quorums, settings);
    answer_of(made.and_then(|replica| record::write(&replica, area)))
}

/// A tick with four readings. Changes: "for each of four places a kind byte (0
/// missing, 1 count, 2 single, anything else missing) and 32 bits".
pub fn tick(
    record: &mut [u8],
    kinds: &[u8; MAX_READINGS],
    bits: &[u32; MAX_READINGS],
    areas: Areas,
    lengths: &mut [usize; 2],
) -> u32 {
    step(record, areas, lengths, tick_of(kinds, bits))
}

/// "Give up the view."
pub fn give_up(record: &mut [u8], areas: Areas, lengths: &mut [usize; 2]) -> u32 {
    step(record, areas, lengths, Replica::give_up)
}

/// A frame arrives.
pub fn arrive(record: &mut [u8], bytes: &[u8], areas: Areas, lengths: &mut [usize; 2]) -> u32 {
    let event = |replica: Replica, areas: Areas| replica.arrive(bytes, areas);
    step(record, areas, lengths, event)
}

/// Recording: the record's bytes at the start of the area; refuses by 15, then
/// by 5 an area under 616 bytes.
pub fn copy(record: &[u8], area: &mut [u8]) -> u32 {
    answer_of(copied(record, area))
}

/// Returning: the record of the replica that comes back at the start of the
/// area; refuses by 15, then by 5 an area under 616 bytes, then by 16.
pub fn return_to(record: &[u8], missed: u32, area: &mut [u8]) -> u32 {
    answer_of(returned(record, missed, area))
}

/// The tick whose row is handed as kinds and bits.
pub(crate) fn tick_of(
    kinds: &[u8; MAX_READINGS],
    bits: &[u32; MAX_READINGS],
) -> impl FnOnce(Replica, Areas) -> (Replica, Step) {
    let row: Row = std::array::from_fn(|j| reading(kinds[j], bits[j]));
    move |replica, areas| replica.tick(&row, areas)
}

/// A reading of its kind and bits: of a count those of an i32 in two's
/// complement, of a single its own.
fn reading(kind: u8, bits: u32) -> Reading {
    match kind {
        1 => Reading::Count(i32::from_le_bytes(bits.to_le_bytes())),
        2 => Reading::Newtons(f32::from_bits(bits)),
        _ => Reading::Missing,
    }
}

/// One event at the replica of a record. "A step gives the length written to
/// each area": frame's and command's, 0 where nothing was written, whatever
/// the answer is.
fn step(
    record: &mut [u8],
    areas: Areas,
    lengths: &mut [usize; 2],
    event: impl FnOnce(Replica, Areas) -> (Replica, Step),
) -> u32 {
    let step = stepped(record, areas, event)
        .unwrap_or_else(|refusal| Step::silent(Answer::Refused(refusal)));
    if step.answer != Answer::Ignored || !planted(Fault::LengthsLeft) {
        *lengths = [step.frame_length, step.command_length];
    }
    number_of(step.answer)
}

/// "the record's reading, the step, the record's writing"
fn stepped(
    record: &mut [u8],
    areas: Areas,
    event: impl FnOnce(Replica, Areas) -> (Replica, Step),
) -> Result<Step, Refusal> {
    if planted(Fault::AreasBeforeRecord) {
        areas.check()?;
    }
    let before = record::read(record)?;
    let (after, step) = event(before, areas);
    if let Some(replica) = recorded(before, after, step.answer) {
        record::write(&replica, record)?;
    }
    Ok(step)
}

/// The replica whose record a step writes: "only if the answer is ok".
fn recorded(before: Replica, after: Replica, answer: Answer) -> Option<Replica> {
    match answer {
        Answer::Ok if planted(Fault::RecordBeforeStep) => Some(before),
        Answer::Ok => Some(after),
        Answer::Ignored if planted(Fault::IgnoredRecorded) => Some(Replica {
            period: before.period.wrapping_add(1),
            ..before
        }),
        Answer::Ignored | Answer::Refused(_) => None,
    }
}

fn copied(record: &[u8], area: &mut [u8]) -> Result<(), Refusal> {
    read_for(record, area)?;
    area[..LENGTH].copy_from_slice(record);
    Ok(())
}

fn returned(record: &[u8], missed: u32, area: &mut [u8]) -> Result<(), Refusal> {
    if planted(Fault::MissedBeforeArea) {
        record::return_from(record, missed)?;
    }
    let replica = read_for(record, area)?;
    record::write(&record::come_back(replica, missed)?, area)
}

/// Refusal 15 for a record, then 5 for the area that is lent for another.
fn read_for(record: &[u8], area: &[u8]) -> Result<Replica, Refusal> {
    if planted(Fault::AreasBeforeRecord) {
        record::check_area(area)?;
    }
    let replica = record::read(record)?;
    record::check_area(area)?;
    Ok(replica)
}

/// The number of an event's answer.
pub(crate) fn number_of(answer: Answer) -> u32 {
    match answer {
        Answer::Ok => DONE,
        Answer::Ignored => IGNORED,
        Answer::Refused(refusal) => refusal.number().into(),
    }
}

pub(crate) fn answer_of(done: Result<(), Refusal>) -> u32 {
    match done {
        Ok(()) => DONE,
        Err(refusal) => refusal.number().into(),
    }
}
