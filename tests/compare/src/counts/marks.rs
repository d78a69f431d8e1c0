//! What occurred of marked commands, and of values at their limits that mark
//! nothing.

use std::fmt;

use crate::decision::Decision;

/// One of the sorts of decided periods.
struct Case {
    name: &'static str,
    test: fn(&Decision) -> bool,
    /// Whether it occurs on the bench, where no update leaves i32 and the
    /// limits are the widest.
    on_the_bench: bool,
}

/// A case that occurs on the bench too.
const fn anywhere(name: &'static str, test: fn(&Decision) -> bool) -> Case {
    Case {
        name,
        test,
        on_the_bench: true,
    }
}

const fn on_the_rig(name: &'static str, test: fn(&Decision) -> bool) -> Case {
    Case {
        name,
        test,
        on_the_bench: false,
    }
}

/// What decided periods are counted by; one may be of several.
const CASES: [Case; 15] = [
    anywhere("marked", |of| of.is_marked),
    anywhere("not marked", |of| !of.is_marked),
    anywhere("by an e(j) above i32", |of| of.clamps.errors.above),
    anywhere("by an e(j) below i32", |of| of.clamps.errors.below),
    on_the_rig("by an x'(i) above i32", |of| of.clamps.states.above),
    on_the_rig("by an x'(i) below i32", |of| of.clamps.states.below),
    on_the_rig("by a command's lower limit", |of| of.clamps.commands.below),
    on_the_rig("by a command's upper limit", |of| of.clamps.commands.above),
    anywhere("by the update alone", |of| {
        of.clamps.of_update() && !of.clamps.of_command()
    }),
    on_the_rig("by the command alone", |of| {
        !of.clamps.of_update() && of.clamps.of_command()
    }),
    on_the_rig("by both", |of| {
        of.clamps.of_update() && of.clamps.of_command()
    }),
    anywhere("not marked: an e(j) at an end", |of| {
        !of.is_marked && of.clamps.errors.at_an_end
    }),
    anywhere("not marked: an x'(i) at an end", |of| {
        !of.is_marked && of.clamps.states.at_an_end
    }),
    anywhere("not marked: a command at a limit", |of| {
        !of.is_marked && of.clamps.commands.at_an_end
    }),
    anywhere("not marked: an absent one beyond", |of| {
        !of.is_marked && of.clamps.absent.is_changed()
    }),
];

#[derive(Clone, Debug, Default, PartialEq, Eq)]
pub struct Marks {
    /// Decisions, by whether they are marked.
    marked: usize,
    unmarked: usize,
    /// Decisions not marked of a box whose decision before was.
    unmarked_next: usize,
    /// Decisions marked otherwise than the law's formulas have it, as these
    /// are worked out for the counts.
    pub otherwise: usize,
    /// Asks whose command is marked.
    pub asked: usize,
    /// Commits whose command is.
    pub committed: usize,
    /// Decided periods, by their case.
    periods: [usize; CASES.len()],
    /// The same of those on the bench.
    on_the_bench: [usize; CASES.len()],
}

impl Marks {
    /// A decision, and whether the one before of the same box was marked.
    pub fn count_decision(&mut self, decision: &Decision, was_marked: bool) {
        match decision.is_marked {
            true => self.marked += 1,
            false => self.unmarked += 1,
        }
        self.unmarked_next += usize::from(was_marked && !decision.is_marked);
        let is_limited = decision.clamps.of_update() || decision.clamps.of_command();
        self.otherwise += usize::from(decision.is_marked != is_limited);
    }

    /// The first decision of a period that left.
    pub fn count_period(&mut self, decision: &Decision, on_the_bench: bool) {
        for (at, case) in CASES.iter().enumerate() {
            let count = usize::from((case.test)(decision));
            self.periods[at] += count;
            self.on_the_bench[at] += count * usize::from(on_the_bench);
        }
    }

    /// All counts but those of the bench, for a test that none is 0.
    #[cfg(test)]
    pub fn all(&self) -> Vec<usize> {
        let named = self.named().into_iter().map(|(_, count)| count);
        named.chain(self.periods).collect()
    }

    /// Those of the bench that occur there, and the others.
    #[cfg(test)]
    pub fn on_the_bench(&self) -> (Vec<usize>, Vec<usize>) {
        let counted = CASES.iter().zip(self.on_the_bench);
        let (can, cannot): (Vec<_>, Vec<_>) = counted.partition(|(case, _)| case.on_the_bench);
        let counts = |cases: Vec<(&Case, usize)>| cases.iter().map(|(_, count)| *count).collect();
        (counts(can), counts(cannot))
    }

    fn named(&self) -> [(&'static str, usize); 5] {
        [
            ("decisions marked", self.marked),
            ("decisions not marked", self.unmarked),
            ("  after a marked one of the box", self.unmarked_next),
            ("asks of a marked command", self.asked),
            ("commits of a marked command", self.committed),
        ]
    }
}

impl fmt::Display for Marks {
    fn fmt(&self, out: &mut fmt::Formatter<'_>) -> fmt::Result {
        for (name, count) in self.named() {
            writeln!(out, "{name:<34}{count:>9}")?;
        }
        writeln!(
            out,
            "{:<34}{:>9}{:>14}",
            "decided periods", "all", "on the bench"
        )?;
        for (at, case) in CASES.iter().enumerate() {
            let all = self.periods[at];
            let bench = match case.on_the_bench {
                true => self.on_the_bench[at].to_string(),
                false => "-".to_string(),
            };
            writeln!(out, "  {:<32}{all:>9}{bench:>14}", case.name)?;
        }
        Ok(())
    }
}
