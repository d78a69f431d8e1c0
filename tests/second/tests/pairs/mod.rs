//! The pairs of document 02's L8, for the files that try all of them or draw
//! one.

use second::replica::Quorums;

/// All pairs "each 2 to N" with "a + b .. above N", the lowest a first.
pub fn allowed(boxes: u8) -> Vec<Quorums> {
    let boxes = usize::from(boxes);
    let numbers = |least| (least..=boxes).map(|number| number as u8);
    let of_a = |a: u8| {
        let least_b = (boxes + 1 - usize::from(a)).max(2);
        numbers(least_b).map(move |b| Quorums {
            to_decide: a,
            to_propose: b,
        })
    };
    numbers(2).flat_map(of_a).collect()
}
