//! What the compared calls on replicas with tickets reach.

use std::fmt;

use winder::IGNORED;

use crate::issued::{Issued, BYTES};
use crate::quorum_bytes::QuorumBytes;
use crate::quorum_pairs::Pairs;
use crate::quorum_reach::{self, Reached};
use crate::record_damage::OF_QUORUMS;
use crate::record_layout::{quorums_of, BOXES};
use crate::report::write_row;
use crate::ticket_calls::{Call, Event, Left, Name};
use crate::ticket_damage::Damage;
use crate::ticket_damage_counts::ByDamage;
use crate::ticket_events::TICKETS;
use crate::ticket_group::{self, Group};
use crate::ticket_layout::is_open;
use crate::ticket_tables::{done, event, CallTest, DONE, GROUNDS, HANDED, OPENED};

/// The calls, in the order of `Counts::answers`.
const CALLS: [&str; 8] = [
    "tickets put beside",
    "asks of ticks",
    "asks of give-ups",
    "asks of arrivals",
    "commits",
    "ticks",
    "give-ups",
    "arrivals",
];

/// Where an ignored event is counted: no refusal has this number.
const AS_IGNORED: usize = 19;

/// Answers that the header names for each call. A tick is ignored only where it
/// is asked, after the largest ticket.
const ANSWERS: [&[usize]; 8] = [
    &[0, 5, 15],
    &[0, AS_IGNORED, 5, 6, 7, 12, 15],
    &[0, AS_IGNORED, 5, 12, 15],
    &[0, AS_IGNORED, 5, 8, 9, 10, 11, 15],
    &[0, 15, 17],
    &[0, 5, 6, 7, 12, 15],
    &[0, AS_IGNORED, 5, 12, 15],
    &[0, AS_IGNORED, 5, 8, 9, 10, 11, 15],
];

#[derive(Debug, Default)]
pub struct Counts {
    of_groups: [usize; ticket_group::CALLS.len()],
    issued_by_groups: Issued,
    reached_by_groups: Reached,
    answers: [[usize; AS_IGNORED + 1]; CALLS.len()],
    /// Asks that were held against their steps; those that were ok also
    /// against their commits.
    as_steps: [usize; 2],
    damages: ByDamage,
    handed: [[usize; 2]; HANDED.len()],
    /// Committed at whole replicas, and refused by 17.
    tickets: [[usize; 2]; TICKETS.len()],
    /// Asked, and made.
    done: [[usize; 2]; DONE.len()],
    quorum_bytes: QuorumBytes,
    pairs: Pairs,
    /// Asked, and made.
    reached: [Reached; 2],
    /// The same of commands.
    issued: [Issued; 2],
    opened: [usize; OPENED.len()],
    grounds: [usize; GROUNDS.len()],
}

impl Counts {
    pub fn count_group(&mut self, group: &Group) {
        for (count, calls) in self.of_groups.iter_mut().zip(group.calls) {
            *count += calls;
        }
        self.issued_by_groups.add(group.issued());
        self.reached_by_groups.add(group.reached());
    }

    /// An ask that gave what its step gives.
    pub fn count_as_step(&mut self, is_committed: bool) {
        self.as_steps[0] += 1;
        self.as_steps[1] += usize::from(is_committed);
    }

    /// A call, with what was done to its replica.
    pub fn count(&mut self, call: &Call, damage: Damage, left: &Left) {
        let answer = match left.answer {
            IGNORED => AS_IGNORED,
            number => number as usize,
        };
        self.answers[place_of(&call.name)][answer] += 1;
        let is_ticketed = !matches!(call.name, Name::Tickets);
        let is_open = call.replica.len() == winder::TICKETED && is_open(&call.replica);
        self.damages.count(damage, is_open, left.answer == 15);
        if [Damage::Whole, Damage::OfRecord(OF_QUORUMS)].contains(&damage) {
            self.quorum_bytes.count(&call.replica);
        }
        count_each(&mut self.grounds, &GROUNDS, call, left);
        self.count_done(call, left);
        if damage == Damage::Whole && is_ticketed {
            self.count_whole(call, left);
        }
    }

    fn count_done(&mut self, call: &Call, left: &Left) {
        let (Some(event), Some((arrived, sent))) = (event(call), done(call, left)) else {
            return;
        };
        let column = usize::from(matches!(call.name, Name::Step(_)));
        for (counts, (_, test)) in self.done.iter_mut().zip(DONE) {
            counts[column] += usize::from(test(event, arrived, sent));
        }
        let (boxes, quorums) = (call.replica[BOXES], quorums_of(&call.replica));
        self.pairs.count(boxes, quorums);
        self.reached[column].count(boxes, quorums, arrived, sent);
        self.issued[column].count(&left.command, left.lengths[1]);
    }

    fn count_whole(&mut self, call: &Call, left: &Left) {
        for ([count, done], (_, test)) in self.handed.iter_mut().zip(HANDED) {
            let is_such = test(&call.replica);
            *count += usize::from(is_such);
            *done += usize::from(is_such && left.answer == 0);
        }
        if is_open(&call.replica) {
            count_each(&mut self.opened, &OPENED, call, left);
        }
        if let Name::Commit { sort, .. } = call.name {
            let place = TICKETS.iter().position(|(known, _)| *known == sort);
            let place = place.expect("a sort of tickets");
            self.tickets[place][usize::from(left.answer == 17)] += 1;
        }
    }

    fn write_done(&self, out: &mut fmt::Formatter<'_>) -> fmt::Result {
        let names = DONE.iter().map(|(name, _)| *name);
        write_table(out, ["what was done", "asked", "made"], names, &self.done)?;
        let [asked, made] = self.reached;
        let before = ("before", self.reached_by_groups);
        quorum_reach::write(out, &[before, ("asked", asked), ("made", made)])?;
        self.pairs.write(out)?;
        let [asked, made] = self.issued;
        let issued = [0, 1].map(|byte| [asked.0[byte], made.0[byte]]);
        let names = BYTES.iter().copied();
        write_table(out, ["commands", "asked", "made"], names, &issued)
    }

    /// An error if there is an allowed pair of quorums without a step, made or
    /// asked, or a byte 7 that no replica had.
    pub fn check(&self) -> Result<(), String> {
        self.pairs.check()?;
        self.quorum_bytes.check()
    }

    /// Whether each answer that a call can come to, each damage, each byte 2 and
    /// each row of the tables was met.
    #[cfg(test)]
    pub fn are_everywhere(&self) -> bool {
        let mut calls = self.answers.iter().zip(ANSWERS);
        let pairs: [&[[usize; 2]]; 2] = [&self.handed, &self.done];
        let [asked, made] = &self.issued;
        let single: [&[usize]; 8] = [
            &self.of_groups,
            &self.issued_by_groups.0,
            &self.as_steps,
            &self.reached_by_groups.0,
            &asked.0,
            &made.0,
            &self.opened,
            &self.grounds,
        ];
        calls.all(|(answers, possible)| possible.iter().all(|&answer| answers[answer] > 0))
            && self.damages.are_everywhere()
            && self.pairs.check().is_ok()
            && self.tickets[0][0] > 0
            && self.tickets.iter().all(|&[_, refused]| refused > 0)
            && pairs
                .iter()
                .all(|counts| !counts.as_flattened().contains(&0))
            && single.iter().all(|counts| !counts.contains(&0))
    }
}

fn place_of(name: &Name) -> usize {
    let place = |event: &Event| match event {
        Event::Tick { .. } => 0,
        Event::GiveUp => 1,
        Event::Arrive { .. } => 2,
    };
    match name {
        Name::Tickets => 0,
        Name::Ask(event) => 1 + place(event),
        Name::Commit { .. } => 4,
        Name::Step(event) => 5 + place(event),
    }
}

/// Counts a call in each row of a table that it is of.
fn count_each(counts: &mut [usize], rows: &[(&str, CallTest)], call: &Call, left: &Left) {
    for (count, (_, test)) in counts.iter_mut().zip(rows) {
        *count += usize::from(test(call, left));
    }
}

fn answer_name(answer: usize) -> String {
    match answer {
        0 => "done".to_string(),
        AS_IGNORED => "ignored".to_string(),
        number => format!("refused by {number}"),
    }
}

/// A table of two columns of numbers.
fn write_table<'a>(
    out: &mut fmt::Formatter<'_>,
    head: [&str; 3],
    names: impl Iterator<Item = &'a str>,
    counts: &[[usize; 2]],
) -> fmt::Result {
    let [what, first, second] = head;
    writeln!(out, "{what:<38}{first:>9}{second:>12}")?;
    for (name, [first, second]) in names.zip(counts) {
        writeln!(out, "  {name:<36}{first:>9}{second:>12}")?;
    }
    Ok(())
}

fn write_rows<T>(
    out: &mut fmt::Formatter<'_>,
    what: &str,
    rows: &[(&str, T)],
    counts: &[usize],
) -> fmt::Result {
    writeln!(out, "{what}")?;
    for ((name, _), &count) in rows.iter().zip(counts) {
        write_row(out, &format!("  {name}"), count)?;
    }
    Ok(())
}

impl fmt::Display for Counts {
    fn fmt(&self, out: &mut fmt::Formatter<'_>) -> fmt::Result {
        write_row(
            out,
            "calls of their groups before",
            self.of_groups.iter().sum(),
        )?;
        for (name, &count) in ticket_group::CALLS.iter().zip(&self.of_groups) {
            write_row(out, &format!("  {name}"), count)?;
        }
        self.issued_by_groups
            .write(out, "commands asked or issued by them")?;
        for (call, (answers, possible)) in CALLS.iter().zip(self.answers.iter().zip(ANSWERS)) {
            write_row(out, call, answers.iter().sum())?;
            for &answer in possible {
                write_row(out, &format!("  {}", answer_name(answer)), answers[answer])?;
            }
        }
        let [asked, committed] = self.as_steps;
        write_row(out, "asks held against their steps", asked)?;
        write_row(out, "  and against their commits", committed)?;
        write!(out, "{}", self.damages)?;
        self.quorum_bytes.write(out)?;
        let names = HANDED.iter().map(|(name, _)| *name);
        write_table(out, ["whole", "calls", "done"], names, &self.handed)?;
        let names = TICKETS.iter().map(|(_, name)| *name);
        write_table(
            out,
            ["tickets at whole", "taken", "refused: 17"],
            names,
            &self.tickets,
        )?;
        self.write_done(out)?;
        write_rows(out, "open tickets", &OPENED, &self.opened)?;
        write_rows(out, "grounds and areas", &GROUNDS, &self.grounds)
    }
}
