//! The singles that every comparison of conversions begins with: those at
//! which a conversion by the bits has something to decide.

use std::collections::HashSet;
use std::sync::LazyLock;

use crate::single_bits::{ABOVE, AROUND, FRACTION, INFINITY, LOWEST, SIGN};

/// The middle of the fractions.
const HALF: u32 = 0x0040_0000;

/// Each pattern once.
pub static LISTED: LazyLock<Vec<u32>> = LazyLock::new(|| {
    let lists = [
        exponents(),
        powers_of_two(),
        halves_and_units(),
        ends(),
        not_numbers(),
        subnormals(),
    ];
    let mut met = HashSet::new();
    let mut listed = lists.concat();
    listed.retain(|&bits| met.insert(bits));
    listed
});

fn with_both_signs(magnitudes: impl IntoIterator<Item = u32>) -> Vec<u32> {
    let signed = |bits| [bits, SIGN | bits];
    magnitudes.into_iter().flat_map(signed).collect()
}

/// A pattern with the one below it and the one above it.
fn with_neighbours(patterns: impl IntoIterator<Item = u32>) -> Vec<u32> {
    let around = |bits: u32| [bits.wrapping_sub(1), bits, bits.wrapping_add(1)];
    patterns.into_iter().flat_map(around).collect()
}

/// Every exponent with the ends of its fractions and their middle: both zeros
/// and both infinities are among them.
fn exponents() -> Vec<u32> {
    let fractions = [0, 1, 2, HALF, FRACTION - 1, FRACTION];
    let of_exponent = |exponent: u32| fractions.map(|fraction| exponent << 23 | fraction);
    with_both_signs((0..=255).flat_map(of_exponent))
}

/// Those of subnormals too.
fn powers_of_two() -> Vec<u32> {
    let subnormal = (0..23).map(|place| 1 << place);
    let normal = (1..=254).map(|exponent| exponent << 23);
    with_neighbours(with_both_signs(subnormal.chain(normal)))
}

/// k/131072 close to zero, and the last with an odd k; a unit is 1/65536, so
/// an odd k is a half of one.
fn halves_and_units() -> Vec<u32> {
    let last = (1 << 24) - 1;
    let counts = (1..=4_095_u32).chain(last - 62..=last);
    let magnitudes = counts.map(|k| (k as f32 / 131_072.0).to_bits());
    with_neighbours(with_both_signs(magnitudes))
}

fn ends() -> Vec<u32> {
    let around = |end: u32| end - AROUND..=end + AROUND;
    around(ABOVE).chain(around(LOWEST)).collect()
}

/// Payloads with one bit, with all but one, with all up to one and with all
/// from one on.
fn not_numbers() -> Vec<u32> {
    let payloads = (0..23).flat_map(|place| {
        let up_to = (2 << place) - 1;
        [1 << place, FRACTION - (1 << place), up_to, FRACTION - up_to]
    });
    let payloads = payloads.filter(|&payload| payload != 0);
    with_both_signs(payloads.map(|payload| INFINITY | payload))
}

fn subnormals() -> Vec<u32> {
    with_both_signs((1..=64).chain(FRACTION - 63..=FRACTION))
}

#[cfg(test)]
mod tests {
    use super::*;
    use crate::single_bits::CLASSES;

    fn listed_with(test: impl Fn(u32) -> bool) -> usize {
        LISTED.iter().filter(|&&bits| test(bits)).count()
    }

    #[test]
    fn every_class_is_listed() {
        for (name, test) in CLASSES {
            assert!(listed_with(test) > 0, "{name}");
        }
    }

    #[test]
    fn each_exponent_has_its_fractions_and_each_end_what_is_around_it() {
        for power in (0..=0x1FF).map(|top: u32| top << 23) {
            for fraction in [0, 1, 2, HALF, FRACTION - 1, FRACTION] {
                assert!(LISTED.contains(&(power | fraction)));
            }
            assert!(LISTED.contains(&power.wrapping_sub(1)));
        }
        for end in [ABOVE, LOWEST] {
            assert_eq!(listed_with(|bits| bits.abs_diff(end) <= 64), 129);
        }
    }

    #[test]
    fn halves_of_a_unit_close_to_zero_are_listed_with_both_signs() {
        for k in (1..4_096).step_by(2) {
            for half in [k as f32 / 131_072.0, k as f32 / -131_072.0] {
                assert_eq!((half * 65_536.0).fract().abs(), 0.5);
                assert!(LISTED.contains(&half.to_bits()), "{half}");
            }
        }
    }
}
