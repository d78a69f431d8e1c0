//! What the compared steps reach.

use std::fmt;

use steps::IGNORED;

use crate::events::Event;
use crate::handed_in::HandedIn;
use crate::issued::Issued;
use crate::quorum_pairs::Pairs;
use crate::quorum_reach::{self, Reached};
use crate::report::write_row;
use crate::step_tables::{arrived, sent, StepTest, DONE, GROUNDS, ODD, ORDERS, READINGS};
use crate::steps::{Call, Left};

/// The events, in the order of `Counts::answers`.
const EVENTS: [&str; 4] = ["making", "ticks", "give-ups", "arrivals"];

/// Answers that each event can come to: 0 is done, 13 is ignored.
const ANSWERS: [&[usize]; 4] = [
    &[0, 1, 2, 3, 4, 18],
    &[0, 1, 2, 3, 4, 18, 5, 6, 7, 12],
    &[0, 13, 1, 2, 3, 4, 18, 5, 12],
    &[0, 13, 1, 2, 3, 4, 18, 5, 8, 9, 10, 11],
];

#[derive(Debug, Default)]
pub struct Counts {
    /// By event and answer; ignored is at place 13.
    answers: [[usize; 19]; 4],
    done: [usize; DONE.len()],
    pairs: Pairs,
    reached: Reached,
    issued: Issued,
    readings: [usize; READINGS.len()],
    /// Ignored on this ground and no other.
    grounds: [usize; GROUNDS.len()],
    orders: [usize; ORDERS.len()],
    odd: [usize; ODD.len()],
    odd_done: [usize; ODD.len()],
}

impl Counts {
    pub fn count(&mut self, call: &Call, left: &Left) {
        let event = match call.event {
            Event::Make => 0,
            Event::Tick { .. } => 1,
            Event::GiveUp => 2,
            Event::Arrive { .. } => 3,
        };
        let answer = match left.answer {
            IGNORED => 13,
            number => number as usize,
        };
        self.answers[event][answer] += 1;
        for (place, (_, test)) in ODD.iter().enumerate() {
            self.odd[place] += usize::from(test(call));
            self.odd_done[place] += usize::from(left.answer == 0 && test(call));
        }
        if left.answer == IGNORED {
            self.count_ground(call);
        }
        if left.answer == 0 {
            count_each(&mut self.done, &DONE, call, left);
            self.count_quorums(call, left);
            self.issued.count(&left.command, left.lengths[1]);
        }
        count_each(&mut self.readings, &READINGS, call, left);
        count_each(&mut self.orders, &ORDERS, call, left);
    }

    /// Making is no step.
    fn count_quorums(&mut self, call: &Call, left: &Left) {
        if !matches!(call.event, Event::Make) {
            let HandedIn { boxes, quorums, .. } = call.handed_in;
            self.pairs.count(boxes, quorums);
            self.reached
                .count(boxes, quorums, arrived(call), sent(left));
        }
    }

    fn count_ground(&mut self, call: &Call) {
        let places = 0..GROUNDS.len();
        let met: Vec<usize> = places.filter(|&place| GROUNDS[place].1(call)).collect();
        if let [ground] = met[..] {
            self.grounds[ground] += 1;
        }
    }

    /// An error if there is an allowed pair of quorums without a step.
    pub fn check(&self) -> Result<(), String> {
        self.pairs.check()
    }

    /// Whether each answer that an event can come to, each rule, each byte 2,
    /// each ground for ignoring, each order and each oddity was met.
    #[cfg(test)]
    pub fn are_everywhere(&self) -> bool {
        let mut events = self.answers.iter().zip(ANSWERS);
        events.all(|(answers, possible)| possible.iter().all(|&answer| answers[answer] > 0))
            && self.pairs.check().is_ok()
            && [
                &self.done[..],
                &self.reached.0,
                &self.issued.0,
                &self.readings,
                &self.grounds,
                &self.orders,
                &self.odd,
            ]
            .iter()
            .all(|counts| counts.iter().all(|&count| count > 0))
    }
}

/// Counts a step in each row of a table that it is of.
fn count_each(counts: &mut [usize], rows: &[(&str, StepTest)], call: &Call, left: &Left) {
    for (count, (_, test)) in counts.iter_mut().zip(rows) {
        *count += usize::from(test(call, left));
    }
}

fn answer_name(answer: usize) -> String {
    match answer {
        0 => "done".to_string(),
        13 => "ignored".to_string(),
        number => format!("refused by {number}"),
    }
}

impl fmt::Display for Counts {
    fn fmt(&self, out: &mut fmt::Formatter<'_>) -> fmt::Result {
        for (event, (answers, possible)) in EVENTS.iter().zip(self.answers.iter().zip(ANSWERS)) {
            write_row(out, event, answers.iter().sum())?;
            for &answer in possible {
                write_row(out, &format!("  {}", answer_name(answer)), answers[answer])?;
            }
        }
        writeln!(out, "what was done")?;
        for ((name, _), &count) in DONE.iter().zip(&self.done) {
            write_row(out, &format!("  {name}"), count)?;
        }
        quorum_reach::write(out, &[("steps", self.reached)])?;
        self.pairs.write(out)?;
        self.issued.write(out, "commands issued")?;
        writeln!(out, "readings of ticks")?;
        for ((name, _), &count) in READINGS.iter().zip(&self.readings) {
            write_row(out, &format!("  {name}"), count)?;
        }
        writeln!(out, "ignored on one ground alone")?;
        for ((name, _), &count) in GROUNDS.iter().zip(&self.grounds) {
            write_row(out, &format!("  {name}"), count)?;
        }
        writeln!(out, "refused, and something else is wrong")?;
        for ((name, _), &count) in ORDERS.iter().zip(&self.orders) {
            write_row(out, &format!("  {name}"), count)?;
        }
        writeln!(out, "{:<38}{:>9}{:>12}", "handed in", "steps", "done")?;
        for (place, (name, _)) in ODD.iter().enumerate() {
            let (count, done) = (self.odd[place], self.odd_done[place]);
            writeln!(out, "  {name:<36}{count:>9}{done:>12}")?;
        }
        Ok(())
    }
}
