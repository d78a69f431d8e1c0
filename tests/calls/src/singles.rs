//! The comparison of conversions: singles in newtons, by their bits.

use std::fmt;

use crate::areas::PATTERN_32;
use crate::listed_singles::LISTED;
use crate::prng::Prng;
use crate::report::{alike, write_row};
use crate::single_bits::{CLASSES, FRACTION};
use crate::values::noise;
use crate::{counterpart, first};

#[derive(Debug, Default)]
pub struct Counts {
    listed: usize,
    classes: [usize; CLASSES.len()],
    present: usize,
    missing: usize,
}

/// The conversion of one number. The error says what differs.
pub fn compare(seed: u64, number: usize, counts: &mut Counts) -> Result<(), String> {
    let listed = LISTED.get(number - 1);
    let bits = match listed {
        Some(&bits) => bits,
        None => any(&mut Prng::of_script(seed, number)),
    };
    let mark = convert_by_both(bits)?;
    counts.listed += usize::from(listed.is_some());
    counts.count(bits, mark);
    Ok(())
}

/// Compares the conversions of all patterns; prints how many are present. The
/// error says what differs first.
pub fn compare_all() -> Result<(), String> {
    let mut present = 0_u64;
    for bits in 0..=u32::MAX {
        present += u64::from(convert_by_both(bits)?);
    }
    println!("all 4294967296 singles: no difference\npresent {present:>41}");
    Ok(())
}

/// The present mark that both give. The value's place holds a pattern before,
/// and so do those around it, which must keep it.
fn convert_by_both(bits: u32) -> Result<u8, String> {
    let given = |convert: fn(u32, &mut i32) -> u8| {
        let mut places = [PATTERN_32 as i32; 3];
        let mark = convert(bits, &mut places[1]);
        (mark, places)
    };
    let (first, second) = (
        given(first::convert_single),
        given(counterpart::convert_single),
    );
    alike(first, second, &format_args!("the single {bits:08x}")).map(|(mark, _)| mark)
}

/// Any pattern; more often one whose exponent is such that a remainder or an
/// end of the range is near.
pub fn any(prng: &mut Prng) -> u32 {
    let bits = noise(prng) as u32;
    match prng.chance(40) {
        true => bits,
        false => {
            let exponent = prng.between(110, 145) as u32;
            bits & !(0xFF << 23) & !low_bits(prng) | exponent << 23
        }
    }
}

/// So many low bits of a fraction; mostly none. Without them whole units and
/// their halves are met.
fn low_bits(prng: &mut Prng) -> u32 {
    match prng.chance(25) {
        true => FRACTION >> prng.below(24),
        false => 0,
    }
}

impl Counts {
    fn count(&mut self, bits: u32, mark: u8) {
        match mark {
            0 => self.missing += 1,
            _ => self.present += 1,
        }
        for (count, (_, test)) in self.classes.iter_mut().zip(CLASSES) {
            *count += usize::from(test(bits));
        }
    }
}

impl fmt::Display for Counts {
    fn fmt(&self, out: &mut fmt::Formatter<'_>) -> fmt::Result {
        write_row(out, "listed", self.listed)?;
        write_row(out, "present", self.present)?;
        write_row(out, "missing", self.missing)?;
        writeln!(out, "by class")?;
        for ((name, _), &count) in CLASSES.iter().zip(&self.classes) {
            write_row(out, &format!("  {name}"), count)?;
        }
        Ok(())
    }
}

#[cfg(test)]
mod tests {
    use super::*;

    fn counted(numbers: impl Iterator<Item = usize>) -> Counts {
        let mut counts = Counts::default();
        for number in numbers {
            compare(1, number, &mut counts).unwrap();
        }
        counts
    }

    #[test]
    fn the_listed_are_of_every_class() {
        let counts = counted(1..=LISTED.len());
        assert_eq!(counts.listed, LISTED.len());
        assert_eq!(counts.present + counts.missing, LISTED.len());
        assert!(counts.classes.iter().all(|&count| count > 0), "{counts}");
    }

    #[test]
    fn those_after_them_are_of_every_class_that_has_many() {
        let last = LISTED.len();
        let counts = counted(last + 1..=last + 20_000);
        let met = |wanted: &&str| {
            let place = CLASSES.iter().position(|(name, _)| name == wanted);
            counts.classes[place.unwrap()] > 0
        };
        let many = ["NaN", "halves of a unit", "below zero, with a remainder"];
        assert!(many.iter().all(met), "{counts}");
        assert!(counts.listed == 0 && counts.present > 0 && counts.missing > 0);
    }
}
