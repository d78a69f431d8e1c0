//! What taken law calls reach, by their sums. This only counts: nothing is
//! compared with it.

use std::fmt;

use crate::law_call::LawCall;
use crate::law_sums::{clamp, command_sum, divided, error, is_present, nearest};
use crate::law_sums::{prediction_sum, state_sum, UNIT};
use crate::report::write_row;

/// Counts of sums below zero and above.
#[derive(Debug, Default)]
struct Sides {
    below: usize,
    above: usize,
}

impl Sides {
    fn count(&mut self, sum: i64) {
        self.below += usize::from(sum < 0);
        self.above += usize::from(sum > 0);
    }

    #[cfg(test)]
    fn least(&self) -> usize {
        self.below.min(self.above)
    }
}

#[derive(Debug, Default)]
pub struct Reach {
    divisions: usize,
    /// Ties whose even neighbour is the lower one, and the upper one.
    ties_down: Sides,
    ties_up: Sides,
    /// 1 below or above a tie.
    near_ties: Sides,
    /// With another remainder.
    others: Sides,
    errors_clamped: usize,
    states_clamped: usize,
    limited_below: usize,
    limited_above: usize,
}

impl Reach {
    /// Counts what an update divides and clamps.
    pub fn count_update(&mut self, call: &LawCall) {
        for j in (0..call.sizes.m).filter(|&j| is_present(call, j)) {
            self.divide(prediction_sum(call, j));
            let error = error(call, j);
            self.errors_clamped += usize::from(clamp(error) != error);
        }
        for i in 0..call.sizes.n {
            let quotient = self.divide(state_sum(call, i));
            self.states_clamped += usize::from(clamp(quotient) != quotient);
        }
    }

    /// Counts what a command divides and limits.
    pub fn count_command(&mut self, call: &LawCall) {
        let settings = &call.settings;
        for j in 0..call.sizes.p {
            let wanted = self.divide(command_sum(call, j));
            self.limited_below += usize::from(wanted < settings.lower[j].into());
            self.limited_above += usize::from(wanted > settings.upper[j].into());
        }
    }

    #[cfg(test)]
    pub fn is_everywhere(&self) -> bool {
        let clamped = self.errors_clamped.min(self.states_clamped);
        let limited = self.limited_below.min(self.limited_above);
        let sides = [
            &self.ties_down,
            &self.ties_up,
            &self.near_ties,
            &self.others,
        ];
        clamped.min(limited) > 0 && sides.iter().all(|sides| sides.least() > 0)
    }

    fn divide(&mut self, sum: i64) -> i64 {
        let (below, from_tie) = divided(sum);
        self.divisions += 1;
        match (from_tie, below % 2 == 0) {
            (0, true) => self.ties_down.count(sum),
            (0, false) => self.ties_up.count(sum),
            (-1 | 1, _) => self.near_ties.count(sum),
            _ if sum % UNIT != 0 => self.others.count(sum),
            _ => (),
        }
        nearest(sum)
    }
}

impl fmt::Display for Reach {
    fn fmt(&self, out: &mut fmt::Formatter<'_>) -> fmt::Result {
        write_row(out, "divisions", self.divisions)?;
        for (name, sides) in [
            ("ties that go down", &self.ties_down),
            ("ties that go up", &self.ties_up),
            ("1 from a tie", &self.near_ties),
            ("with another remainder", &self.others),
        ] {
            write_row(out, &format!("  {name}, below zero"), sides.below)?;
            write_row(out, &format!("  {name}, above zero"), sides.above)?;
        }
        write_row(out, "e(j) clamped", self.errors_clamped)?;
        write_row(out, "x'(i) clamped", self.states_clamped)?;
        write_row(out, "commands below their limits", self.limited_below)?;
        write_row(out, "commands above their limits", self.limited_above)
    }
}
