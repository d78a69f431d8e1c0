//! What occurred over a run, counted by the generator while it writes.

mod asks;
mod marks;
mod quorums;

use std::fmt;

use second::reading::Reading;

pub use asks::{Asks, Ground};
pub use marks::Marks;
pub use quorums::Pairs;

use crate::single_bits::{converted, CLASSES};

/// What returns are counted by; one may be of several.
pub const RETURNS: [&str; 10] = [
    "with 0 missed",
    "with 1 missed",
    "with 2 to 9,999 missed",
    "with 10,000 missed",
    "past all others",
    "of an open proposal's coordinator",
    "of a decided box",
    "in a view change",
    "twice in a row",
    "that undo steps",
];

#[derive(Clone, Debug, Default, PartialEq, Eq)]
pub struct Counts {
    pub bench_scripts: usize,
    pub rig_scripts: usize,
    /// Rig scripts whose first line makes no group.
    pub spoiled_scripts: usize,
    /// Rig scripts with power cycles.
    pub storing_scripts: usize,
    /// Of these, such as have asks.
    pub asking_scripts: usize,
    pub lines: usize,
    pub ticks: usize,
    /// Readings handed to ticks, by kind.
    pub handed_counts: usize,
    pub handed_missing: usize,
    pub handed_singles: usize,
    /// Singles that count as missing.
    pub missing_singles: usize,
    /// Singles, by their class.
    pub single_classes: [usize; CLASSES.len()],
    pub give_ups: usize,
    pub deliveries: usize,
    pub proposals_after_estimates: usize,
    /// Of these, such as took over what a box had accepted in this period.
    pub open_taken_over: usize,
    /// Of these, such as took over what a box had accepted in an earlier one.
    pub older_taken_over: usize,
    /// Steps that wrote a command.
    pub decisions: usize,
    pub decisions_above_view_0: usize,
    pub decided_periods: usize,
    /// Decided periods, the period before which nobody decided.
    pub decided_after_missed: usize,
    pub doubled: usize,
    pub late: usize,
    pub misdirected: usize,
    pub stopped_boxes: usize,
    /// Periods that a box sat out and made up for by ticks.
    pub made_up_ticks: usize,
    pub malformed: usize,
    pub ignored: usize,
    pub stores: usize,
    /// Returns not refused, by their case.
    pub returns: [usize; RETURNS.len()],
    /// Of more than half of the boxes at once.
    pub blackouts: usize,
    pub steps_lost: usize,
    pub frames_never_left: usize,
    pub commands_never_left: usize,
    pub asks: Asks,
    pub marks: Marks,
    pub pairs: Pairs,
    /// By refusal number; place 0 is unused. Those of asks are counted apart.
    pub refused: [usize; 19],
}

impl Counts {
    pub fn count_reading(&mut self, reading: &Reading) {
        match reading {
            Reading::Count(_) => self.handed_counts += 1,
            Reading::Newtons(single) => self.count_single(single.to_bits()),
            Reading::Missing => self.handed_missing += 1,
        }
    }

    fn count_single(&mut self, bits: u32) {
        self.handed_singles += 1;
        self.missing_singles += usize::from(converted(bits).is_none());
        for (count, (_, test)) in self.single_classes.iter_mut().zip(CLASSES) {
            *count += usize::from(test(bits));
        }
    }

    /// Counts what a spoiled first line was answered.
    pub fn refused_first_line(&mut self, output: &[u8]) {
        match output {
            [b'r', digit @ b'1'..=b'4', b'\n'] => self.refused[usize::from(digit - b'0')] += 1,
            b"r18\n" => self.refused[18] += 1,
            _ => self.malformed += 1,
        }
    }

    /// Whether a script can be answered by this refusal: 13 to 15 are those
    /// of pages and records.
    fn is_an_answer(number: usize) -> bool {
        !(13..=15).contains(&number)
    }

    fn write_power(&self, out: &mut fmt::Formatter<'_>) -> fmt::Result {
        let of_returns = RETURNS.iter().zip(self.returns);
        // The first four cases are those of the missed count.
        let returns: usize = self.returns[..4].iter().sum();
        writeln!(out, "{:<34}{:>9}", "stores", self.stores)?;
        writeln!(out, "{:<34}{returns:>9}", "returns")?;
        for (name, count) in of_returns {
            writeln!(out, "  {name:<32}{count:>9}")?;
        }
        let named = [
            ("  steps that they undo", self.steps_lost),
            ("frames that never left", self.frames_never_left),
            ("commands that never left", self.commands_never_left),
            ("power cuts of a majority", self.blackouts),
        ];
        for (name, count) in named {
            writeln!(out, "{name:<34}{count:>9}")?;
        }
        Ok(())
    }

    fn write_readings(&self, out: &mut fmt::Formatter<'_>) -> fmt::Result {
        let named = [
            ("readings: counts", self.handed_counts),
            ("readings: missing", self.handed_missing),
            ("readings: singles", self.handed_singles),
            ("  that count as missing", self.missing_singles),
        ];
        for (name, count) in named {
            writeln!(out, "{name:<34}{count:>9}")?;
        }
        for ((name, _), count) in CLASSES.iter().zip(self.single_classes) {
            writeln!(out, "  {name:<32}{count:>9}")?;
        }
        Ok(())
    }
}

impl fmt::Display for Counts {
    fn fmt(&self, out: &mut fmt::Formatter<'_>) -> fmt::Result {
        let named = [
            ("bench scripts", self.bench_scripts),
            ("rig scripts", self.rig_scripts),
            ("  with a spoiled first line", self.spoiled_scripts),
            ("  with power cycles", self.storing_scripts),
            ("  of these, with asks", self.asking_scripts),
            ("lines", self.lines),
            ("ticks", self.ticks),
            ("  to make up for missed periods", self.made_up_ticks),
            ("give-ups", self.give_ups),
            ("deliveries", self.deliveries),
            ("  doubled", self.doubled),
            ("  late", self.late),
            ("  misdirected", self.misdirected),
            ("decisions", self.decisions),
            ("  in views above 0", self.decisions_above_view_0),
            ("decided periods", self.decided_periods),
            ("  after a missed one", self.decided_after_missed),
            ("proposals after estimates", self.proposals_after_estimates),
            ("  open proposals taken over", self.open_taken_over),
            ("  older estimates taken over", self.older_taken_over),
            ("stopped boxes", self.stopped_boxes),
            ("malformed lines", self.malformed),
            ("ignored answers", self.ignored),
        ];
        for (name, count) in named {
            writeln!(out, "{name:<34}{count:>9}")?;
        }
        self.write_power(out)?;
        write!(out, "{}{}{}", self.pairs, self.asks, self.marks)?;
        self.write_readings(out)?;
        for (number, count) in self.refused.iter().enumerate().skip(1) {
            if !Self::is_an_answer(number) {
                continue;
            }
            writeln!(
                out,
                "{:<34}{count:>9}",
                format!("refused answers r{number}")
            )?;
        }
        Ok(())
    }
}
