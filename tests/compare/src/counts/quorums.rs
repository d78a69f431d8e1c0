//! What occurred with which quorum numbers.

use std::collections::BTreeMap;
use std::fmt;

use second::replica::{majority, Quorums};

use crate::group::{Group, Unfit, UNFIT};
use crate::quorums::of_all_groups;

/// N, a and b.
type Key = (u8, u8, u8);

/// What was reached with one pair.
#[derive(Clone, Copy, Debug, Default, PartialEq, Eq)]
struct Reached {
    /// Scripts whose first line names it.
    named: usize,
    decided_periods: usize,
    /// Proposals after estimates.
    proposals: usize,
}

#[derive(Clone, Debug, Default, PartialEq, Eq)]
pub struct Pairs {
    reached: BTreeMap<Key, Reached>,
    /// First lines whose quorum numbers make no group.
    unfit: [usize; UNFIT.len()],
}

type Test = fn(Key) -> bool;

/// What pairs are counted by; one may be of several.
const CASES: [(&str, Test); 7] = [
    ("a below the majority", |(n, a, _)| a < majority(n)),
    ("a at the majority", |(n, a, _)| a == majority(n)),
    ("a above the majority", |(n, a, _)| a > majority(n)),
    ("b below the majority", |(n, _, b)| b < majority(n)),
    ("b at the majority", |(n, _, b)| b == majority(n)),
    ("b above the majority", |(n, _, b)| b > majority(n)),
    ("a + b = N + 1", |(n, a, b)| a + b == n + 1),
];

fn key(boxes: u8, quorums: Quorums) -> Key {
    (boxes, quorums.to_decide, quorums.to_propose)
}

impl Pairs {
    pub fn count_script(&mut self, group: &Group) {
        self.of(group).named += usize::from(group.named.is_some());
    }

    pub fn count_period(&mut self, group: &Group) {
        self.of(group).decided_periods += 1;
    }

    pub fn count_proposal(&mut self, group: &Group) {
        self.of(group).proposals += 1;
    }

    pub fn count_unfit(&mut self, unfit: Unfit) {
        self.unfit[unfit as usize] += 1;
    }

    fn of(&mut self, group: &Group) -> &mut Reached {
        let key = key(group.boxes, group.quorums());
        self.reached.entry(key).or_default()
    }

    /// Decided periods and proposals with the pairs of one sort.
    fn sums(&self, is_of: Test) -> (usize, usize) {
        let of = || self.reached.iter().filter(|(key, _)| is_of(**key));
        let periods = of().map(|(_, reached)| reached.decided_periods);
        let proposals = of().map(|(_, reached)| reached.proposals);
        (periods.sum(), proposals.sum())
    }

    fn fewest(&self) -> (usize, usize) {
        let each = self.of_each();
        let periods = each.iter().map(|reached| reached.decided_periods);
        let proposals = each.iter().map(|reached| reached.proposals);
        (periods.min().unwrap_or(0), proposals.min().unwrap_or(0))
    }

    /// What was reached with each of the allowed pairs.
    fn of_each(&self) -> Vec<Reached> {
        let reached = |(boxes, pair)| self.reached.get(&key(boxes, pair)).copied();
        let pairs = of_all_groups().into_iter();
        pairs
            .map(|pair| reached(pair).unwrap_or_default())
            .collect()
    }

    /// The counts by sorts, for a test that none is 0.
    #[cfg(test)]
    pub fn by_sort(&self) -> Vec<usize> {
        let sums = CASES.iter().map(|(_, is_of)| self.sums(*is_of));
        let both = sums.flat_map(|(periods, proposals)| [periods, proposals]);
        both.collect()
    }

    /// The counts of each allowed pair, and of what is unfit, for another such
    /// test.
    #[cfg(test)]
    pub fn by_pair(&self) -> Vec<usize> {
        let each = self.of_each().into_iter();
        let all = each.flat_map(|of| [of.named, of.decided_periods, of.proposals]);
        all.chain(self.unfit).collect()
    }
}

impl fmt::Display for Pairs {
    fn fmt(&self, out: &mut fmt::Formatter<'_>) -> fmt::Result {
        let each = self.of_each();
        let scripts: usize = each.iter().map(|reached| reached.named).sum();
        let named = each.iter().filter(|reached| reached.named > 0).count();
        for (name, count) in [
            ("allowed pairs of a and b", each.len()),
            ("  named in first lines", named),
            ("  scripts that name one", scripts),
        ] {
            writeln!(out, "{name:<34}{count:>9}")?;
        }
        let heads = ("decided periods and proposals", "decided", "proposals");
        writeln!(out, "{:<34}{:>9}{:>14}", heads.0, heads.1, heads.2)?;
        let cases = CASES.map(|(name, is_of)| (name, self.sums(is_of)));
        let fewest = ("the fewest of a pair", self.fewest());
        for (name, (periods, proposals)) in cases.into_iter().chain([fewest]) {
            writeln!(out, "  {name:<32}{periods:>9}{proposals:>14}")?;
        }
        let unfit: usize = self.unfit.iter().sum();
        writeln!(out, "{:<34}{unfit:>9}", "unfit quorums in first lines")?;
        for ((_, name), count) in UNFIT.iter().zip(self.unfit) {
            writeln!(out, "  {name:<32}{count:>9}")?;
        }
        Ok(())
    }
}
