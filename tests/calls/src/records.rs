//! The comparison of calls on records: a group lives for some steps, then one
//! of its records, whole or damaged, goes into one more call.

use crate::digest::Digest;
use crate::prng::Prng;
use crate::quorums;
use crate::record_calls::{called_by_both, Asked, Call, Left};
pub use crate::record_counts::Counts;
use crate::record_damage::OF_QUORUMS;
use crate::record_group::Group;
use crate::record_layout::has_allowed_quorums;
use crate::{record_damage, record_events};

/// The call of one number. The error says what differs.
pub fn compare(seed: u64, number: usize, counts: &mut Counts) -> Result<(), String> {
    let prng = &mut Prng::of_script(seed, number);
    let group = Group::live(prng, None)?;
    let (call, damage) = make(prng, &group);
    let left = called_by_both(&call)?;
    if damage == 0 && left.answer == 15 {
        return Err(format!("a whole record is refused: {call:?}"));
    }
    check_given_back(&call, &left)?;
    check_quorums(&call, damage, &left)?;
    counts.count_group(&group);
    counts.count(&call, damage, &left);
    Ok(())
}

/// Adds what all calls of one number leave, those of its group first.
pub fn add(seed: u64, number: usize, digest: &mut Digest) -> Result<(), String> {
    let prng = &mut Prng::of_script(seed, number);
    let mut group = Group::live(prng, Some(digest.clone()))?;
    *digest = group.digest.take().expect("the digest of its calls");
    let (call, _) = make(prng, &group);
    called_by_both(&call)?.add_to(digest);
    Ok(())
}

/// A call for a record of the group, with what was done to the record: the
/// place in `DAMAGES`.
fn make(prng: &mut Prng, group: &Group) -> (Call, usize) {
    let mut record = group.record_of_one(prng);
    if prng.chance(20) {
        record_events::push_counters(prng, &mut record);
    }
    let asked = record_events::make(prng, &record, group);
    let damage = match asked {
        Asked::Make(_) => {
            record.clear();
            0
        }
        _ => record_damage::damage(prng, &mut record),
    };
    let lent = record_events::lent(prng);
    let call = Call {
        record,
        asked,
        lent,
    };
    (call, damage)
}

/// Recording gives the very bytes, and so does returning with none missed.
fn check_given_back(call: &Call, left: &Left) -> Result<(), String> {
    let gives_back = matches!(call.asked, Asked::Record | Asked::Return { missed: 0 });
    match left.answer == 0 && gives_back && left.given(&call.asked) != call.record {
        true => Err(format!("{call:?}: another record: {left:?}")),
        false => Ok(()),
    }
}

/// Making is refused by 18 where it should be; on a record that is whole but for
/// its quorums it is 15.
fn check_quorums(call: &Call, damage: usize, left: &Left) -> Result<(), String> {
    if let Asked::Make(making) = &call.asked {
        return quorums::check_answer(making.boxes, making.quorums, left.answer);
    }
    let is_refused = left.answer == 15;
    match damage == OF_QUORUMS && is_refused == has_allowed_quorums(&call.record) {
        true => Err(format!("{call:?}: its quorums are answered by {left:?}")),
        false => Ok(()),
    }
}

#[cfg(test)]
mod tests {
    use super::*;

    #[test]
    fn every_answer_every_damage_and_every_rule_is_met() {
        let mut counts = Counts::default();
        for number in 1..=20_000 {
            compare(1, number, &mut counts).unwrap();
        }
        assert!(counts.are_everywhere(), "{counts}");
    }
}
