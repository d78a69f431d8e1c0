//! What the compared calls on records reach.

use std::fmt;

use winder::IGNORED;

use crate::issued::Issued;
use crate::quorum_bytes::QuorumBytes;
use crate::quorum_pairs::Pairs;
use crate::quorum_reach::{self, Reached};
use crate::record_calls::{Asked, Call, Left};
use crate::record_damage::{DAMAGES, OF_QUORUMS};
use crate::record_group::Group;
use crate::record_layout::{quorums_of, BOXES, M, N, P};
use crate::record_tables::{arrived, sent, CallTest, DONE, GROUNDS, HANDED};
use crate::report::write_row;

/// The calls, in the order of `Counts::answers`.
const CALLS: [&str; 6] = [
    "making",
    "ticks",
    "give-ups",
    "arrivals",
    "recordings",
    "returns",
];

/// Answers that the header names for each call: 0 is done, 17 is ignored.
const ANSWERS: [&[usize]; 6] = [
    &[0, 1, 2, 3, 4, 18, 5],
    &[0, 5, 6, 7, 12, 15],
    &[0, 17, 5, 12, 15],
    &[0, 17, 5, 8, 9, 10, 11, 15],
    &[0, 5, 15],
    &[0, 5, 15, 16],
];

/// Of whole records: N, n, m and p, from the least to the most.
const SIZES: [(&str, usize, [usize; 2]); 4] = [
    ("N 3 to 9", BOXES, [3, 9]),
    ("n 1 to 6", N, [1, 6]),
    ("m 1 to 4", M, [1, 4]),
    ("p 1 to 4", P, [1, 4]),
];

#[derive(Debug, Default)]
pub struct Counts {
    /// Calls of the groups that the records come from.
    of_groups: usize,
    issued_by_groups: Issued,
    reached_by_groups: Reached,
    /// By call and answer; ignored is at place 17.
    answers: [[usize; 19]; 6],
    damages: ByDamage,
    sizes: [[usize; 10]; SIZES.len()],
    handed: [usize; HANDED.len()],
    handed_done: [usize; HANDED.len()],
    done: [usize; DONE.len()],
    quorum_bytes: QuorumBytes,
    pairs: Pairs,
    reached: Reached,
    issued: Issued,
    grounds: [usize; GROUNDS.len()],
}

/// By damage: how many, and how many of these are refused by 15.
#[derive(Debug)]
struct ByDamage([(usize, usize); DAMAGES.len()]);

impl Default for ByDamage {
    fn default() -> ByDamage {
        ByDamage([(0, 0); DAMAGES.len()])
    }
}

impl Counts {
    pub fn count_group(&mut self, group: &Group) {
        self.of_groups += group.calls;
        self.issued_by_groups.add(group.issued);
        self.reached_by_groups.add(group.reached);
    }

    /// A call, with what was done to its record: the place in `DAMAGES`.
    pub fn count(&mut self, call: &Call, damage: usize, left: &Left) {
        let name = match call.asked {
            Asked::Make(_) => 0,
            Asked::Tick { .. } => 1,
            Asked::GiveUp => 2,
            Asked::Arrive { .. } => 3,
            Asked::Record => 4,
            Asked::Return { .. } => 5,
        };
        let answer = match left.answer {
            IGNORED => 17,
            number => number as usize,
        };
        self.answers[name][answer] += 1;
        count_each(&mut self.grounds, &GROUNDS, call, left);
        if left.answer == 0 {
            count_each(&mut self.done, &DONE, call, left);
            self.count_quorums(call, left);
            self.issued.count(&left.command, left.lengths[1]);
        }
        if name != 0 {
            self.count_record(call, damage, left);
        }
    }

    fn count_quorums(&mut self, call: &Call, left: &Left) {
        if call.asked.is_step() {
            let (boxes, quorums) = (call.record[BOXES], quorums_of(&call.record));
            self.pairs.count(boxes, quorums);
            self.reached
                .count(boxes, quorums, arrived(call), sent(left));
        }
    }

    fn count_record(&mut self, call: &Call, damage: usize, left: &Left) {
        let (count, refused) = &mut self.damages.0[damage];
        *count += 1;
        *refused += usize::from(left.answer == 15);
        if [0, OF_QUORUMS].contains(&damage) {
            self.quorum_bytes.count(&call.record);
        }
        if damage != 0 {
            return;
        }
        for (counts, (_, at, _)) in self.sizes.iter_mut().zip(SIZES) {
            counts[usize::from(call.record[at])] += 1;
        }
        for (place, (_, test)) in HANDED.iter().enumerate() {
            self.handed[place] += usize::from(test(&call.record));
            self.handed_done[place] += usize::from(left.answer == 0 && test(&call.record));
        }
    }

    /// An error if there is an allowed pair of quorums without a step, or a
    /// byte 7 that no record had.
    pub fn check(&self) -> Result<(), String> {
        self.pairs.check()?;
        self.quorum_bytes.check()
    }

    /// Whether each answer that a call can come to, each damage, each size,
    /// each byte 2 and each row of the tables was met.
    #[cfg(test)]
    pub fn are_everywhere(&self) -> bool {
        let mut calls = self.answers.iter().zip(ANSWERS);
        let mut sizes = self.sizes.iter().zip(SIZES);
        calls.all(|(answers, possible)| possible.iter().all(|&answer| answers[answer] > 0))
            && sizes.all(|(counts, (_, _, [least, most]))| !counts[least..=most].contains(&0))
            && self.damages.0.iter().all(|&(count, _)| count > 0)
            && self.pairs.check().is_ok()
            && [
                &self.handed[..],
                &self.handed_done,
                &self.done,
                &self.reached_by_groups.0,
                &self.issued.0,
                &self.issued_by_groups.0,
                &self.grounds,
            ]
            .iter()
            .all(|counts| !counts.contains(&0))
    }

    fn write_records(&self, out: &mut fmt::Formatter<'_>) -> fmt::Result {
        writeln!(out, "{:<38}{:>9}{:>12}", "records", "calls", "refused: 15")?;
        for (damage, (count, refused)) in DAMAGES.iter().zip(&self.damages.0) {
            writeln!(out, "  {:<36}{count:>9}{refused:>12}", damage.name)?;
        }
        for (counts, (name, _, [least, most])) in self.sizes.iter().zip(SIZES) {
            writeln!(out, "whole, {name}: {:?}", &counts[least..=most])?;
        }
        self.quorum_bytes.write(out)?;
        writeln!(out, "{:<38}{:>9}{:>12}", "whole", "calls", "done")?;
        for (place, (name, _)) in HANDED.iter().enumerate() {
            let (count, done) = (self.handed[place], self.handed_done[place]);
            writeln!(out, "  {name:<36}{count:>9}{done:>12}")?;
        }
        Ok(())
    }
}

/// Counts a call in each row of a table that it is of.
fn count_each(counts: &mut [usize], rows: &[(&str, CallTest)], call: &Call, left: &Left) {
    for (count, (_, test)) in counts.iter_mut().zip(rows) {
        *count += usize::from(test(call, left));
    }
}

fn answer_name(answer: usize) -> String {
    match answer {
        0 => "done".to_string(),
        17 => "ignored".to_string(),
        number => format!("refused by {number}"),
    }
}

impl fmt::Display for Counts {
    fn fmt(&self, out: &mut fmt::Formatter<'_>) -> fmt::Result {
        write_row(out, "calls of their groups before", self.of_groups)?;
        self.issued_by_groups
            .write(out, "commands issued by them")?;
        for (call, (answers, possible)) in CALLS.iter().zip(self.answers.iter().zip(ANSWERS)) {
            write_row(out, call, answers.iter().sum())?;
            for &answer in possible {
                write_row(out, &format!("  {}", answer_name(answer)), answers[answer])?;
            }
        }
        self.write_records(out)?;
        writeln!(out, "what was done")?;
        for ((name, _), &count) in DONE.iter().zip(&self.done) {
            write_row(out, &format!("  {name}"), count)?;
        }
        let reached = [("before", self.reached_by_groups), ("calls", self.reached)];
        quorum_reach::write(out, &reached)?;
        self.pairs.write(out)?;
        self.issued.write(out, "commands issued")?;
        writeln!(out, "grounds and areas")?;
        for ((name, _), &count) in GROUNDS.iter().zip(&self.grounds) {
            write_row(out, &format!("  {name}"), count)?;
        }
        Ok(())
    }
}
