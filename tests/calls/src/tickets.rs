//! The comparison of calls on replicas with tickets: a group lives for some
//! asks, commits and steps, then one of its replicas, whole or damaged, goes
//! into one more call.

use winder::{IGNORED, RECORD, TICKETED};

use crate::digest::Digest;
use crate::prng::Prng;
use crate::record_damage::OF_QUORUMS;
use crate::record_layout::has_allowed_quorums;
use crate::ticket_calls::{called_by_both, Call, Left, Name, Ticket};
pub use crate::ticket_counts::Counts;
use crate::ticket_damage::{self, Damage};
use crate::ticket_events;
use crate::ticket_group::Group;
use crate::ticket_layout::{is_open, latest};
use crate::ticket_lent;

/// The call of one number. The error says what differs.
pub fn compare(seed: u64, number: usize, counts: &mut Counts) -> Result<(), String> {
    let prng = &mut Prng::of_script(seed, number);
    let group = Group::live(prng, None)?;
    counts.count_group(&group);
    let (call, damage) = make(prng, group)?;
    let left = called_by_both(&call)?;
    if damage == Damage::Whole && left.answer == 15 {
        return Err(format!("a whole replica is refused: {call:?}"));
    }
    let is_refused = left.answer == 15;
    if damage == Damage::OfRecord(OF_QUORUMS) && is_refused == has_allowed_quorums(&call.replica) {
        return Err(format!("{call:?}: its quorums are answered by {left:?}"));
    }
    check_answer(&call, &left)?;
    check_as_step(&call, &left, counts)?;
    counts.count(&call, damage, &left);
    Ok(())
}

/// Adds what all calls of one number leave, those of its group first.
pub fn add(seed: u64, number: usize, digest: &mut Digest) -> Result<(), String> {
    let prng = &mut Prng::of_script(seed, number);
    let group = Group::live(prng, Some(Digest::default()))?;
    group.add_to(digest);
    let (call, _) = make(prng, group)?;
    called_by_both(&call)?.add_to(digest);
    Ok(())
}

/// A call for a replica of the group, with what was done to the replica.
fn make(prng: &mut Prng, group: Group) -> Result<(Call, Damage), String> {
    let (mut one, traffic) = group.into_one(prng);
    ticket_events::open_one(prng, &mut one, &traffic)?;
    ticket_events::push_numbers(prng, &mut one);
    let name = ticket_events::make(prng, &one, &traffic);
    let (replica, damage) = ticket_damage::handed_in(prng, &name, one.replica);
    let lent = ticket_lent::make(prng, &name);
    let call = Call {
        replica,
        name,
        lent,
    };
    Ok((call, damage))
}

/// Where the answer is not the event's, it is the only one that may be.
fn check_answer(call: &Call, left: &Left) -> Result<(), String> {
    match answer_before_event(call, left) {
        Some(answer) if answer != left.answer => {
            Err(format!("{call:?}: not answered by {answer}: {left:?}"))
        }
        _ => Ok(()),
    }
}

/// The answer of a commit, and that of an ask which no event is needed for: a
/// step has neither tickets to look at nor a record area.
fn answer_before_event(call: &Call, left: &Left) -> Option<u32> {
    if left.answer == 15 {
        return None;
    }
    match call.name {
        Name::Commit { ticket, .. } => {
            let is_taken = is_open(&call.replica) && latest(&call.replica) == ticket;
            Some(if is_taken { 0 } else { 17 })
        }
        Name::Ask(_) if latest(&call.replica) == u64::MAX => Some(IGNORED),
        Name::Ask(_) if call.lent.area < RECORD => Some(5),
        _ => None,
    }
}

/// An ask gives what the step gives from the same area, and its commit makes
/// that step.
fn check_as_step(call: &Call, asked: &Left, counts: &mut Counts) -> Result<(), String> {
    let Name::Ask(event) = &call.name else {
        return Ok(());
    };
    if asked.answer == 15 || answer_before_event(call, asked).is_some() {
        return Ok(());
    }
    let stepped = called_by_both(&Call {
        name: Name::Step(event.clone()),
        ..call.clone()
    })?;
    let is_ok = asked.answer == 0;
    if !is_alike(asked, &stepped) || is_ok && !is_made(call, asked, &stepped)? {
        return Err(format!(
            "{call:?} is asked otherwise than made\n  asked: {asked:?}\n  made:  {stepped:?}"
        ));
    }
    counts.count_as_step(is_ok);
    Ok(())
}

/// Answer, lengths, frame and command, with the bytes after them.
fn is_alike(asked: &Left, stepped: &Left) -> bool {
    let given = |left: &Left| (left.answer, left.lengths, left.frame, left.command);
    given(asked) == given(stepped)
}

/// Whether the ask's record is that of the replica after the step, and the
/// commit makes that very replica.
fn is_made(call: &Call, asked: &Left, stepped: &Left) -> Result<bool, String> {
    let committed = called_by_both(&Call {
        replica: asked.replica[..TICKETED].to_vec(),
        name: Name::Commit {
            ticket: asked.ticket[0],
            sort: Ticket::Latest,
        },
        lent: call.lent,
    })?;
    let record = &stepped.replica[..RECORD];
    let records = [&asked.area[..RECORD], &committed.replica[..RECORD]];
    Ok(committed.answer == 0 && records == [record, record])
}

#[cfg(test)]
mod tests {
    use super::*;
    use crate::handed_readings;
    use crate::record_calls::{self, Asked};

    /// Else one of them could pass the tickets by.
    #[test]
    fn the_calls_on_records_take_no_replica_with_tickets() {
        for number in 1..=500 {
            let prng = &mut Prng::of_script(3, number);
            let (one, _) = Group::live(prng, None).unwrap().into_one(prng);
            for asked in [
                Asked::Tick {
                    readings: handed_readings::below(prng, 0),
                },
                Asked::GiveUp,
                Asked::Arrive { bytes: vec![] },
                Asked::Record,
                Asked::Return { missed: 0 },
            ] {
                let call = record_calls::Call {
                    record: one.replica.clone(),
                    asked,
                    lent: record_calls::ENOUGH,
                };
                let left = record_calls::called_by_both(&call).unwrap();
                assert_eq!(left.answer, 15, "{call:?}");
            }
        }
    }

    #[test]
    fn every_answer_every_damage_and_every_rule_is_met() {
        let mut counts = Counts::default();
        for number in 1..=20_000 {
            compare(1, number, &mut counts).unwrap();
        }
        assert!(counts.are_everywhere(), "{counts}");
    }
}
