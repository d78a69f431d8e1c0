//! The quorum numbers that scripts are played with. Document 02, L8: "a, the
//! boxes needed to decide, and b, the boxes heard before a new coordinator
//! proposes".

use second::replica::{check_quorums, Quorums, LEAST_BOXES, MOST_BOXES};

use crate::group::Group;
use crate::prng::Prng;

/// One script for the rig of so many names no quorum numbers.
const ONE_UNNAMED: usize = 5;

/// From one script to the next, so far apart are their pairs: neighbours are
/// of other groups, and all pairs have their turn.
const STRIDE: usize = 71;

/// The pairs that a group of so many boxes may have. They are those that the
/// second implementation takes: a fault in that is then in the scripts too.
fn allowed(boxes: u8) -> Vec<Quorums> {
    let numbers = 0..=boxes + 1;
    let pairs = numbers.clone().flat_map(|to_decide| {
        numbers.clone().map(move |to_propose| Quorums {
            to_decide,
            to_propose,
        })
    });
    let is_taken = |pair: &Quorums| check_quorums(boxes, *pair).is_ok();
    pairs.filter(is_taken).collect()
}

/// Those of all groups, each with its N.
pub fn of_all_groups() -> Vec<(u8, Quorums)> {
    let of_group = |boxes| allowed(boxes).into_iter().map(move |pair| (boxes, pair));
    (LEAST_BOXES..=MOST_BOXES).flat_map(of_group).collect()
}

/// All pairs of all groups have their turn; left to chance, some of them would
/// not be met in 2,000 scripts.
pub fn name_in_turn(turn: usize, group: &mut Group) {
    if turn.is_multiple_of(ONE_UNNAMED) {
        return;
    }
    let pairs = of_all_groups();
    let (boxes, pair) = pairs[turn * STRIDE % pairs.len()];
    group.boxes = boxes;
    group.named = Some(pair);
}

/// Any pair of the group as it is, half of the time one by which a quorum to
/// decide and one to propose may have but one box in common. It is drawn apart,
/// so that a script which names none is the same as if none did.
pub fn name_any(apart: &mut Prng, group: &mut Group) {
    if apart.below(ONE_UNNAMED) == 0 {
        return;
    }
    let mut pairs = allowed(group.boxes);
    if apart.chance(50) {
        pairs.retain(|pair| pair.to_decide + pair.to_propose == group.boxes + 1);
    }
    group.named = Some(apart.pick(&pairs));
}

#[cfg(test)]
mod tests {
    use super::*;

    /// "each 2 to N", and a + b above N.
    #[test]
    fn the_allowed_pairs_are_those_of_document_02() {
        for boxes in LEAST_BOXES..=MOST_BOXES {
            let pairs = allowed(boxes);
            let is_in_range = |number| (2..=boxes).contains(&number);
            for pair in &pairs {
                assert!(is_in_range(pair.to_decide) && is_in_range(pair.to_propose));
                assert!(pair.to_decide + pair.to_propose > boxes);
            }
            let n = usize::from(boxes);
            assert_eq!(pairs.len(), (n - 1) * (n - 1) - (n - 3) * (n - 2) / 2);
            assert!(pairs.contains(&Quorums::majorities(boxes)));
        }
        assert_eq!(of_all_groups().len(), 147);
    }

    #[test]
    fn all_pairs_have_their_turn() {
        let pairs = of_all_groups();
        let mut met = vec![0; pairs.len()];
        for turn in 1..=pairs.len() * ONE_UNNAMED {
            let mut group = Group::bench();
            name_in_turn(turn, &mut group);
            if let Some(named) = group.named {
                let pair = (group.boxes, named);
                met[pairs.iter().position(|known| *known == pair).unwrap()] += 1;
            }
        }
        assert!(met.iter().all(|&count| count == ONE_UNNAMED - 1));
    }
}
