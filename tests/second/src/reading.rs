//! Document 02, L1, "Readings as the transmitters send them": "A reading
//! arrives as a count (i32), as an IEEE 754 single in newtons, or marked
//! missing."
//!
//! The tick converts its row before anything else looks at it; the law, the
//! frames and what a replica holds know converted readings alone.

use crate::fault::{planted, Fault};
use crate::law::{Readings, MAX_READINGS};

/// A reading as a transmitter hands it.
#[derive(Clone, Copy, Debug)]
pub enum Reading {
    /// "A count goes to the law unchanged."
    Count(i32),
    /// "an IEEE 754 single in newtons"
    Newtons(f32),
    /// "marked missing"
    Missing,
}

/// The readings handed to a tick, reading j at place j. All places count,
/// since 7 looks at those at or above m.
pub type Row = [Reading; MAX_READINGS];

impl Reading {
    /// The reading as the law takes it, in "units of 1/65536"; none for one
    /// that is missing or "counts as missing".
    pub fn converted(self) -> Option<i32> {
        match self {
            Reading::Count(count) => Some(count),
            Reading::Newtons(single) => convert_single(single.to_bits()),
            Reading::Missing => planted(Fault::MissingPresent).then_some(0),
        }
    }
}

/// The row as everything behind the tick looks at it: marks, and values that
/// are 0 where absent. m is not asked for: 7 looks at all places afterwards.
pub fn convert_row(row: &[Reading; MAX_READINGS]) -> Readings {
    let mut readings = Readings::default();
    for (j, reading) in row.iter().enumerate() {
        if let Some(value) = reading.converted() {
            readings.marks |= 1 << j;
            readings.values[j] = value;
        }
    }
    readings
}

/// A mark for each place at or above m that is not handed as `Missing`: what
/// 7 looks at with the planted fault of the unconverted marks.
pub(crate) fn marks_handed_beyond(row: &Row, m: u8) -> u8 {
    (m.into()..MAX_READINGS)
        .filter(|&j| !matches!(row[j], Reading::Missing))
        .fold(0, |marks, j| marks | 1 << j)
}

/// "A single is multiplied by 65536 exactly and rounded toward minus
/// infinity, worked out from its bits. A NaN, an infinity or a result outside
/// i32 counts as missing."
pub fn convert_single(bits: u32) -> Option<i32> {
    let single = Single::of(bits);
    if single.exponent == NOT_FINITE {
        return single.converted_not_finite();
    }
    if planted(Fault::NegativeSubnormalZero) && single.is_negative_subnormal() {
        return Some(0);
    }
    in_range(single.product()?)
}

/// The three fields of a single's bits.
struct Single {
    negative: bool,
    /// 8 bits, as they stand there.
    exponent: u32,
    /// 23 bits.
    fraction: u32,
}

const FRACTION_BITS: u32 = 23;

/// The exponent field of NaNs and infinities.
const NOT_FINITE: u32 = 0xFF;

/// The largest exponent field of a single with a result in i32, that of
/// −32768.0. From the next one on, results are 2^32 and more either way.
const LARGEST_EXPONENT: u32 = 142;

/// How many places the significand moves to the left at the largest exponent
/// field: the single is the significand × 2^(142 − 150), and 65536 is 2^16.
const LARGEST_SHIFT: u32 = 8;

impl Single {
    fn of(bits: u32) -> Single {
        Single {
            negative: bits >> 31 != 0,
            exponent: bits >> FRACTION_BITS & 0xFF,
            fraction: bits & ((1 << FRACTION_BITS) - 1),
        }
    }

    /// 65536 times a finite single, rounded toward minus infinity; none where
    /// the exponent alone says that it is outside i32.
    ///
    /// At the largest exponent it is a whole number below 2^32. Each step down
    /// from there halves it, so one more place is dropped.
    fn product(&self) -> Option<i64> {
        let places = LARGEST_EXPONENT.checked_sub(self.scale())?;
        Some(drop_places(self.significand() << LARGEST_SHIFT, places))
    }

    /// The exponent that the significand stands at: a subnormal has the
    /// smallest one of normal singles.
    fn scale(&self) -> u32 {
        self.exponent.max(1) + u32::from(planted(Fault::ExponentOffByOne))
    }

    /// The significand as a whole number with its sign: normal singles have a
    /// leading one that is not among their bits. −0.0 has 0, as 0.0 has.
    fn significand(&self) -> i64 {
        let leading = u32::from(self.exponent != 0) << FRACTION_BITS;
        let magnitude = i64::from(leading + self.fraction);
        if self.negative {
            -magnitude
        } else {
            magnitude
        }
    }

    fn is_negative_subnormal(&self) -> bool {
        self.negative && self.exponent == 0 && self.fraction != 0
    }

    /// "A NaN, an infinity .. counts as missing."
    fn converted_not_finite(&self) -> Option<i32> {
        match (self.fraction, self.negative) {
            (0, false) => planted(Fault::InfinityTaken).then_some(i32::MAX),
            (0, true) => planted(Fault::InfinityTaken).then_some(i32::MIN),
            _ => planted(Fault::NanTaken).then_some(0),
        }
    }
}

/// Drops so many binary places, "rounded toward minus infinity": what a shift
/// to the right drops is never negative, also of a negative number. This one
/// is below 2^32 either way, so 63 places leave 0 or −1 of it, as more would.
fn drop_places(whole: i64, places: u32) -> i64 {
    if planted(Fault::SingleTowardZero) {
        return whole / (1 << places.min(62));
    }
    whole >> places.min(63)
}

/// "a result outside i32 counts as missing"
fn in_range(product: i64) -> Option<i32> {
    match product {
        2_147_483_648 if planted(Fault::AboveRangeTaken) => Some(i32::MAX),
        -2_147_483_648 if planted(Fault::LowestMissing) => None,
        _ => i32::try_from(product).ok(),
    }
}

#[cfg(test)]
mod tests {
    use super::*;

    /// The same by another way: 65536 times a single is exact in f64.
    fn evaluated(bits: u32) -> Option<i32> {
        let product = (f64::from(f32::from_bits(bits)) * 65_536.0).floor();
        let range = f64::from(i32::MIN)..=f64::from(i32::MAX);
        range.contains(&product).then_some(product as i32)
    }

    fn assert_as_evaluated(bits: u32) {
        assert_eq!(convert_single(bits), evaluated(bits), "{bits:08x}");
    }

    #[test]
    fn stated_singles() {
        let cases = [
            (0x3FC0_0000, 1.5, Some(98_304)),
            (0x8000_0000, -0.0, Some(0)),
            // The largest below 32768.
            (0x46FF_FFFF, 32_767.998, Some(2_147_483_520)),
            (0x4700_0000, 32_768.0, None),
            (0xC700_0000, -32_768.0, Some(i32::MIN)),
            // The next below it.
            (0xC700_0001, -32_768.004, None),
            (0x7F80_0000, f32::INFINITY, None),
            (0xFF80_0000, f32::NEG_INFINITY, None),
            (0xB780_0000, -1.0 / 65_536.0, Some(-1)),
            (0xB7C0_0000, -1.5 / 65_536.0, Some(-2)),
        ];
        for (bits, single, value) in cases {
            assert_eq!(f32::to_bits(single), bits, "{single}");
            assert_eq!(convert_single(bits), value, "{single}");
            assert_eq!(Reading::Newtons(single).converted(), value, "{single}");
        }
    }

    #[test]
    fn stated_subnormals() {
        assert_eq!(convert_single(0), Some(0));
        // The smallest and the largest, positive and negative.
        for (bits, value) in [(1, 0), (0x7F_FFFF, 0)] {
            assert_eq!(convert_single(bits), Some(value));
        }
        for (bits, value) in [(0x8000_0001, -1), (0x807F_FFFF, -1)] {
            assert_eq!(convert_single(bits), Some(value));
        }
    }

    #[test]
    fn nans_of_either_sign_are_missing() {
        let fractions = [1, 2, 0x12_3456, 0x3F_FFFF, 0x40_0000, 0x40_0001, 0x7F_FFFF];
        for fraction in fractions {
            for sign in [0, 0x8000_0000] {
                let bits = sign | 0x7F80_0000 | fraction;
                let single = f32::from_bits(bits);
                assert!(single.is_nan());
                assert_eq!(convert_single(bits), None, "{bits:08x}");
                assert!(Reading::Newtons(single).converted().is_none());
            }
        }
    }

    #[test]
    fn every_exponent_with_both_signs_is_as_evaluated() {
        let middles = [0x12_3456, 0x3F_FFFF, 0x40_0000, 0x40_0001, 0x55_5555];
        for sign in [0, 0x8000_0000_u32] {
            for exponent in 0..=0xFF {
                let power = sign | exponent << FRACTION_BITS;
                for bits in power.saturating_sub(3)..=power + 3 {
                    assert_as_evaluated(bits);
                }
                for middle in middles {
                    assert_as_evaluated(power | middle);
                }
                // Each single place of the fraction, and all above and below.
                for place in 0..FRACTION_BITS {
                    let below = (1 << place) - 1;
                    let all = (1 << FRACTION_BITS) - 1;
                    for fraction in [1 << place, below, all - below] {
                        assert_as_evaluated(power | fraction);
                    }
                }
            }
        }
    }

    #[test]
    fn many_patterns_are_as_evaluated() {
        (0..=u32::MAX).step_by(1021).for_each(assert_as_evaluated);
    }

    #[test]
    fn whole_results_and_their_neighbours_are_as_evaluated() {
        // Singles that are whole units, up to where all singles are.
        for unit in (1..1 << 24).step_by(4099).chain([1, 2, 3, (1 << 24) - 1]) {
            let bits = (unit as f32 / 65_536.0).to_bits();
            assert_eq!(convert_single(bits), Some(unit));
            assert_eq!(convert_single(bits | 0x8000_0000), Some(-unit));
            assert_eq!(convert_single(bits - 1), Some(unit - 1));
            for bits in bits - 1..=bits + 1 {
                assert_as_evaluated(bits);
                assert_as_evaluated(bits | 0x8000_0000);
            }
        }
    }

    #[test]
    fn counts_are_unchanged_and_missing_ones_are_missing() {
        for count in [0, 1, -1, 98_304, i32::MIN, i32::MAX] {
            assert_eq!(Reading::Count(count).converted(), Some(count));
        }
        assert_eq!(Reading::Missing.converted(), None);
    }

    #[test]
    fn rows_are_converted_at_all_places() {
        let row = [
            Reading::Newtons(-1.5 / 65_536.0),
            Reading::Missing,
            Reading::Newtons(f32::NAN),
            Reading::Count(i32::MIN),
        ];
        let expected = Readings {
            marks: 0b1001,
            values: [-2, 0, 0, i32::MIN],
        };
        assert_eq!(convert_row(&row), expected);
        let none = [Reading::Missing; MAX_READINGS];
        assert_eq!(convert_row(&none), Readings::default());
        let zeros = [Reading::Newtons(-0.0); MAX_READINGS];
        let expected = Readings {
            marks: 0b1111,
            values: [0; MAX_READINGS],
        };
        assert_eq!(convert_row(&zeros), expected);
    }
}
