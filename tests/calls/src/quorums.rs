//! Quorums for groups: every allowed pair, and pairs that 18 refuses.

use second::replica::Quorums;

use crate::prng::Prng;
use crate::values::byte;

/// Whether 18 lets a pair pass.
pub fn are_allowed(boxes: u8, quorums: Quorums) -> bool {
    let numbers = [quorums.to_decide, quorums.to_propose];
    let sum: u16 = numbers.map(u16::from).iter().sum();
    numbers.iter().all(|number| (2..=boxes).contains(number)) && sum > boxes.into()
}

/// An error if the answer of a making or a step is 18 and should not be, or
/// should be 18 and is not: it comes after 4 and before all others.
pub fn check_answer(boxes: u8, quorums: Quorums, answer: u32) -> Result<(), String> {
    let is_refused = answer == 18;
    match (1..=4).contains(&answer) || is_refused != are_allowed(boxes, quorums) {
        true => Ok(()),
        false => Err(format!("N {boxes}, {quorums:?}: answered by {answer}")),
    }
}

/// The allowed pairs of a group.
pub fn allowed_pairs(boxes: u8) -> Vec<Quorums> {
    let numbers = 2..=boxes;
    let pairs = numbers.clone().flat_map(|to_decide| {
        numbers.clone().map(move |to_propose| Quorums {
            to_decide,
            to_propose,
        })
    });
    pairs
        .filter(|&quorums| are_allowed(boxes, quorums))
        .collect()
}

/// Any of the allowed pairs.
pub fn allowed(prng: &mut Prng, boxes: u8) -> Quorums {
    prng.pick(&allowed_pairs(boxes))
}

/// The same, or at times a pair that 18 refuses.
pub fn perhaps_refused(prng: &mut Prng, boxes: u8) -> Quorums {
    match prng.chance(8) {
        true => refused(prng, boxes),
        false => allowed(prng, boxes),
    }
}

/// One number out of its range, beside the one that leaves least else to find
/// fault with; a sum of N; or any two bytes, which hardly ever are allowed.
fn refused(prng: &mut Prng, boxes: u8) -> Quorums {
    let inside = 2 + prng.below(usize::from(boxes) - 1) as u8;
    let (one, other) = match prng.below(4) {
        0 => (prng.pick(&[0, 1]), boxes),
        1 => (prng.pick(&[boxes + 1, 255]), inside),
        2 => (boxes - inside, inside),
        _ => (byte(prng), byte(prng)),
    };
    let (to_decide, to_propose) = match prng.chance(50) {
        true => (one, other),
        false => (other, one),
    };
    Quorums {
        to_decide,
        to_propose,
    }
}

#[cfg(test)]
mod tests {
    use super::*;

    #[test]
    fn the_allowed_pairs_are_those_that_the_second_takes() {
        for boxes in 3..=9 {
            let mut taken = 0;
            for bytes in 0..=u16::MAX {
                let [to_decide, to_propose] = bytes.to_le_bytes();
                let quorums = Quorums {
                    to_decide,
                    to_propose,
                };
                let is_taken = second::replica::check_quorums(boxes, quorums).is_ok();
                assert_eq!(are_allowed(boxes, quorums), is_taken, "{boxes} {quorums:?}");
                taken += usize::from(is_taken);
            }
            assert_eq!(allowed_pairs(boxes).len(), taken);
        }
    }
}
