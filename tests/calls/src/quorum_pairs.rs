//! The allowed pairs of quorums: that every one was met.

use std::collections::BTreeSet;
use std::fmt;

use second::replica::Quorums;

use crate::quorums::allowed_pairs;

/// N, a and b of steps that were done.
#[derive(Debug, Default)]
pub struct Pairs(BTreeSet<[u8; 3]>);

impl Pairs {
    pub fn count(&mut self, boxes: u8, quorums: Quorums) {
        self.0.insert(numbers(boxes, quorums));
    }

    /// An error if there is an allowed pair without a step.
    pub fn check(&self) -> Result<(), String> {
        match all().find(|pair| !self.0.contains(pair)) {
            Some([boxes, a, b]) => Err(format!("no step with N {boxes}, a {a} and b {b}")),
            None => Ok(()),
        }
    }

    pub fn write(&self, out: &mut fmt::Formatter<'_>) -> fmt::Result {
        let (met, all) = (
            all().filter(|pair| self.0.contains(pair)).count(),
            all().count(),
        );
        writeln!(out, "allowed pairs with steps, N 3 to 9: {met} of {all}")
    }
}

fn numbers(boxes: u8, quorums: Quorums) -> [u8; 3] {
    [boxes, quorums.to_decide, quorums.to_propose]
}

/// Of every group.
fn all() -> impl Iterator<Item = [u8; 3]> {
    (3..=9).flat_map(|boxes| {
        let pairs = allowed_pairs(boxes).into_iter();
        pairs.map(move |quorums| numbers(boxes, quorums))
    })
}

#[cfg(test)]
mod tests {
    use super::*;

    #[test]
    fn a_pair_without_a_step_is_found() {
        let mut pairs = Pairs::default();
        for boxes in 3..=9 {
            for quorums in allowed_pairs(boxes) {
                assert!(pairs.check().is_err());
                pairs.count(boxes, quorums);
            }
        }
        assert_eq!(pairs.check(), Ok(()));
        assert_eq!(pairs.0.len(), 147);
    }
}
