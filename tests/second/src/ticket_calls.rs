//! Document 02, L6: "The firmware needs the new record first, so C gets both
//! calls." Asking and committing as functions on numbers and byte areas.
//!
//! A replica with tickets is an area of 752 bytes, in which its record comes
//! first. Each call refuses one that is not of the layout by 15 before all
//! else; then nothing changes but the lengths and the ticket, which are given
//! as 0. Answers are numbers, as those of the calls on records.

use crate::calls::{answer_of, number_of, tick_of};
use crate::fault::{planted, Fault};
use crate::law::MAX_READINGS;
use crate::record;
use crate::refusal::Refusal;
use crate::replica::{Answer, Areas, Replica, Step};
use crate::tickets::{area, Asked, Ticketed};

/// Puts no ticket beside the replica of a record that was made or returned;
/// refuses by 15, then by 5 an area under 752 bytes.
pub fn tickets(record: &[u8], area: &mut [u8]) -> u32 {
    answer_of(put_beside(record, area))
}

/// Asks a tick, with readings as the plain one takes them.
pub fn ask_tick(
    area: &mut [u8],
    kinds: &[u8; MAX_READINGS],
    bits: &[u32; MAX_READINGS],
    record: &mut [u8],
    areas: Areas,
    lengths: &mut [usize; 2],
    ticket: &mut u64,
) -> u32 {
    let asked = asked(area, record, areas, tick_of(kinds, bits));
    answered(asked, lengths, ticket)
}

/// Asks what giving up the view would give.
pub fn ask_give_up(
    area: &mut [u8],
    record: &mut [u8],
    areas: Areas,
    lengths: &mut [usize; 2],
    ticket: &mut u64,
) -> u32 {
    let asked = asked(area, record, areas, Replica::give_up);
    answered(asked, lengths, ticket)
}

/// Asks what an arriving frame would give.
pub fn ask_arrive(
    area: &mut [u8],
    bytes: &[u8],
    record: &mut [u8],
    areas: Areas,
    lengths: &mut [usize; 2],
    ticket: &mut u64,
) -> u32 {
    let event = |replica: Replica, areas: Areas| replica.arrive(bytes, areas);
    let asked = asked(area, record, areas, event);
    answered(asked, lengths, ticket)
}

/// Commits a ticket; refuses by 15, then by 17. Refused, the area holds what
/// it held.
pub fn commit(area: &mut [u8], ticket: u64) -> u32 {
    answer_of(committed(area, ticket))
}

/// A plain tick at a replica with tickets.
pub fn ticketed_tick(
    area: &mut [u8],
    kinds: &[u8; MAX_READINGS],
    bits: &[u32; MAX_READINGS],
    areas: Areas,
    lengths: &mut [usize; 2],
) -> u32 {
    step(area, areas, lengths, tick_of(kinds, bits))
}

/// A view given up at a replica with tickets.
pub fn ticketed_give_up(area: &mut [u8], areas: Areas, lengths: &mut [usize; 2]) -> u32 {
    step(area, areas, lengths, Replica::give_up)
}

/// A frame that arrives at a replica with tickets.
pub fn ticketed_arrive(
    area: &mut [u8],
    bytes: &[u8],
    areas: Areas,
    lengths: &mut [usize; 2],
) -> u32 {
    let event = |replica: Replica, areas: Areas| replica.arrive(bytes, areas);
    step(area, areas, lengths, event)
}

/// "count from 1 after each making or return"
fn put_beside(record: &[u8], area: &mut [u8]) -> Result<(), Refusal> {
    let mut ticketed = Ticketed::new(record::read(record)?);
    ticketed.tickets.latest = u64::from(planted(Fault::TicketsGoOn));
    area::make(&ticketed, area)
}

/// An ask at the replica of an area. Of the area only its tickets change, and
/// what the step leaves where it can be committed.
fn asked(
    area: &mut [u8],
    record: &mut [u8],
    areas: Areas,
    event: impl FnOnce(Replica, Areas) -> (Replica, Step),
) -> Result<Asked, Refusal> {
    let (after, asked) = area::read(area)?.ask(record, areas, event);
    area::write(&after, area)?;
    Ok(asked)
}

/// The answer's number. Lengths and ticket are given whatever it is: 0 where
/// there is no frame, no command or no ticket.
fn answered(asked: Result<Asked, Refusal>, lengths: &mut [usize; 2], ticket: &mut u64) -> u32 {
    *ticket = asked.map_or(0, |asked| asked.ticket);
    give(asked.map(|asked| asked.step), lengths)
}

fn committed(area: &mut [u8], ticket: u64) -> Result<(), Refusal> {
    let (after, done) = area::read(area)?.commit(ticket);
    done?;
    area::write(&after, area)
}

fn step(
    area: &mut [u8],
    areas: Areas,
    lengths: &mut [usize; 2],
    event: impl FnOnce(Replica, Areas) -> (Replica, Step),
) -> u32 {
    give(stepped(area, areas, event), lengths)
}

fn stepped(
    area: &mut [u8],
    areas: Areas,
    event: impl FnOnce(Replica, Areas) -> (Replica, Step),
) -> Result<Step, Refusal> {
    let (after, step) = area::read(area)?.step(areas, event);
    area::write(&after, area)?;
    Ok(step)
}

/// Gives the lengths and the answer's number of a step made or asked.
fn give(step: Result<Step, Refusal>, lengths: &mut [usize; 2]) -> u32 {
    let step = step.unwrap_or_else(|refusal| Step::silent(Answer::Refused(refusal)));
    *lengths = [step.frame_length, step.command_length];
    number_of(step.answer)
}
