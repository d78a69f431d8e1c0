//! Readings as they are handed to a tick of crate steps: a kind and 32 bits
//! for each place.

use second::reading::{Reading, Row};

use crate::prng::Prng;
use crate::single_bits;
use crate::singles;
use crate::values::{counter, noise, value};

/// The kinds that are not missing.
pub const COUNT: u8 = 1;
pub const SINGLE: u8 = 2;

#[derive(Clone, Copy, Debug)]
pub struct Handed {
    pub kind: u8,
    pub bits: u32,
}

impl Handed {
    /// As the second implementation takes it.
    fn reading(self) -> Reading {
        match self.kind {
            COUNT => Reading::Count(self.bits as i32),
            SINGLE => Reading::Newtons(f32::from_bits(self.bits)),
            _ => Reading::Missing,
        }
    }

    /// Whether it is a single that counts as missing.
    pub fn is_missing_single(self) -> bool {
        self.kind == SINGLE && single_bits::converted(self.bits).is_none()
    }

    /// Whether it is a single that does not.
    pub fn is_present_single(self) -> bool {
        self.kind == SINGLE && !self.is_missing_single()
    }
}

pub fn row(readings: &[Handed; 4]) -> Row {
    readings.map(Handed::reading)
}

/// As a call takes them: kinds and bits.
pub fn numbers_of(readings: &[Handed; 4]) -> ([u8; 4], [u32; 4]) {
    let kinds = readings.map(|reading| reading.kind);
    (kinds, readings.map(|reading| reading.bits))
}

/// Any in the places below m; such as are missing or count as missing in the
/// others.
pub fn below(prng: &mut Prng, m: usize) -> [Handed; 4] {
    [0, 1, 2, 3].map(|j| match j < m {
        true => any(prng),
        false => missing(prng),
    })
}

/// A count, a single or none.
pub fn any(prng: &mut Prng) -> Handed {
    match prng.below(8) {
        0..=2 => Handed {
            kind: COUNT,
            bits: counter(prng),
        },
        3..=5 => Handed {
            kind: SINGLE,
            bits: single(prng),
        },
        _ => none(prng),
    }
}

/// One that is missing or counts as missing.
pub fn missing(prng: &mut Prng) -> Handed {
    match prng.chance(50) {
        true => Handed {
            kind: SINGLE,
            bits: single_bits::missing(prng),
        },
        false => none(prng),
    }
}

/// A kind that is neither a count's nor a single's: 0, or one of no meaning.
/// Its bits are not looked at.
fn none(prng: &mut Prng) -> Handed {
    Handed {
        kind: prng.pick(&[0, 0, 0, 3, 128, 255]),
        bits: noise(prng) as u32,
    }
}

fn single(prng: &mut Prng) -> u32 {
    let value = value(prng);
    match prng.below(4) {
        0 => single_bits::special(prng),
        1 => singles::any(prng),
        _ => single_bits::near(prng, value),
    }
}

#[cfg(test)]
mod tests {
    use super::*;
    use second::reading::convert_row;

    #[test]
    fn kinds_are_what_they_stand_for() {
        let bits = 0x3FC0_0000;
        let [count, single, none, other] =
            [COUNT, SINGLE, 0, 255].map(|kind| Handed { kind, bits });
        let converted = convert_row(&row(&[count, single, none, other]));
        assert_eq!(converted.marks, 0b0011);
        assert_eq!(converted.values, [0x3FC0_0000, 98_304, 0, 0]);
    }

    #[test]
    fn missing_ones_are_missing_at_every_place_and_others_are_not() {
        let mut prng = Prng::new(6);
        let mut present = 0;
        for _ in 0..2_000 {
            let missing = [(); 4].map(|()| missing(&mut prng));
            assert_eq!(convert_row(&row(&missing)).marks, 0, "{missing:?}");
            let readings = [(); 4].map(|()| any(&mut prng));
            present |= convert_row(&row(&readings)).marks;
        }
        assert_eq!(present, 0b1111);
    }
}
