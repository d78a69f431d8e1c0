//! Singles by their bits: what is told apart of them, what they are converted
//! to, and singles of every sort at random.

use crate::prng::Prng;

/// 32768.0, the lowest single above the range of readings.
pub const ABOVE: u32 = 0x4700_0000;

/// −32768.0, the lowest single within it.
pub const LOWEST: u32 = 0xC700_0000;

pub const SIGN: u32 = 0x8000_0000;

pub const INFINITY: u32 = 0x7F80_0000;

/// All bits of the fraction.
pub const FRACTION: u32 = 0x007F_FFFF;

/// So many patterns on each side of an end of the range are told apart.
pub const AROUND: u32 = 64;

/// A single in units of 1/65536: exact, since an f64 has the bits for it.
fn units(bits: u32) -> f64 {
    f64::from(f32::from_bits(bits)) * 65_536.0
}

/// "A single is multiplied by 65536 exactly and rounded toward minus infinity
/// .. A NaN, an infinity or a result outside i32 counts as missing." By
/// another way than either implementation's, which go by the bits.
pub fn converted(bits: u32) -> Option<i32> {
    let rounded = units(bits).floor();
    let range = f64::from(i32::MIN)..=f64::from(i32::MAX);
    range.contains(&rounded).then_some(rounded as i32)
}

pub type Test = fn(u32) -> bool;

/// What singles are counted by; one may be of several.
pub const CLASSES: [(&str, Test); 12] = [
    ("NaN", |bits| units(bits).is_nan()),
    ("infinities above", |bits| bits == INFINITY),
    ("infinities below", |bits| bits == SIGN | INFINITY),
    ("0.0", |bits| bits == 0),
    ("-0.0", |bits| bits == SIGN),
    ("subnormals above zero", |bits| {
        (1..=FRACTION).contains(&bits)
    }),
    ("subnormals below zero", |bits| {
        (SIGN | 1..=SIGN | FRACTION).contains(&bits)
    }),
    ("finite, above the range", |bits| {
        (ABOVE..INFINITY).contains(&bits)
    }),
    ("finite, below the range", |bits| {
        (LOWEST + 1..SIGN | INFINITY).contains(&bits)
    }),
    ("within 64 patterns of an end", |bits| {
        bits.abs_diff(ABOVE).min(bits.abs_diff(LOWEST)) <= AROUND
    }),
    ("halves of a unit", |bits| units(bits).fract().abs() == 0.5),
    ("below zero, with a remainder", |bits| {
        units(bits) < 0.0 && units(bits).fract() != 0.0
    }),
];

/// A single that is converted to this value, or close to it where singles
/// have fewer bits: whole units, halves, any remainder, or next to whole units.
pub fn near(prng: &mut Prng, value: i32) -> u32 {
    let with = |remainder: f64| ((f64::from(value) + remainder) / 65_536.0) as f32;
    let remainder = prng.below(64) as f64 / 64.0;
    match prng.below(4) {
        0 => with(0.0).to_bits(),
        1 => with(0.5).to_bits(),
        2 => with(remainder).to_bits(),
        _ => neighbour(prng, with(0.0).to_bits()),
    }
}

/// The next pattern away from zero or, but for a zero, toward it.
fn neighbour(prng: &mut Prng, bits: u32) -> u32 {
    match bits & !SIGN == 0 || prng.chance(50) {
        true => bits + 1,
        false => bits - 1,
    }
}

/// A zero, a subnormal, one around an end of the range, or one that counts as
/// missing.
pub fn special(prng: &mut Prng) -> u32 {
    match prng.below(7) {
        0 => with_sign(prng, 0),
        1 => subnormal(prng),
        2 => around_an_end(prng),
        _ => missing(prng),
    }
}

/// A NaN, an infinity or one outside the range.
pub fn missing(prng: &mut Prng) -> u32 {
    match prng.below(4) {
        0 => with_sign(prng, INFINITY),
        1 => prng.pick(&[ABOVE, ABOVE + 1, LOWEST + 1, LOWEST + 2]),
        2 => outside(prng),
        _ => not_a_number(prng),
    }
}

fn with_sign(prng: &mut Prng, bits: u32) -> u32 {
    bits | prng.pick(&[0, SIGN])
}

/// At either end of the subnormals, or any.
fn subnormal(prng: &mut Prng) -> u32 {
    let any = 1 + prng.below(FRACTION as usize) as u32;
    let bits = prng.pick(&[1, 2, FRACTION - 1, FRACTION, any]);
    with_sign(prng, bits)
}

fn around_an_end(prng: &mut Prng) -> u32 {
    let end = prng.pick(&[ABOVE, LOWEST]);
    let away = prng.between(-(AROUND as i32), AROUND as i32);
    end.wrapping_add_signed(prng.pick(&[-1, 0, 1, away]))
}

/// Any finite one that the sizes alone put outside.
fn outside(prng: &mut Prng) -> u32 {
    let bits = ABOVE + 1 + prng.below((INFINITY - ABOVE - 1) as usize) as u32;
    with_sign(prng, bits)
}

/// Of any payload, at times of one with a single bit or with all.
fn not_a_number(prng: &mut Prng) -> u32 {
    let any = 1 + prng.below(FRACTION as usize) as u32;
    let one_bit = 1 << prng.below(23);
    let payload = prng.pick(&[1, one_bit, FRACTION, any, any]);
    with_sign(prng, INFINITY | payload)
}

#[cfg(test)]
mod tests {
    use super::*;

    #[test]
    fn stated_singles_are_converted() {
        let cases = [
            (0x3FC0_0000, Some(98_304)),
            (0, Some(0)),
            (SIGN, Some(0)),
            (1, Some(0)),
            (SIGN | 1, Some(-1)),
            (ABOVE - 1, Some(2_147_483_520)),
            (ABOVE, None),
            (LOWEST, Some(i32::MIN)),
            (LOWEST + 1, None),
            (INFINITY, None),
            (SIGN | INFINITY, None),
            (INFINITY | 1, None),
            (0xB780_0000, Some(-1)),
            (0xB7C0_0000, Some(-2)),
        ];
        for (bits, value) in cases {
            assert_eq!(converted(bits), value, "{bits:08x}");
        }
    }

    #[test]
    fn special_ones_are_of_every_class_and_missing_ones_are_missing() {
        let mut prng = Prng::new(4);
        let mut met = [false; CLASSES.len()];
        for _ in 0..2_000 {
            let missing = missing(&mut prng);
            assert_eq!(converted(missing), None, "{missing:08x}");
            let bits = [special(&mut prng), near(&mut prng, -3)];
            for (met, (_, test)) in met.iter_mut().zip(CLASSES) {
                *met |= bits.into_iter().any(test);
            }
        }
        assert_eq!(met, [true; CLASSES.len()]);
    }

    #[test]
    fn near_a_small_value_is_that_value_or_the_one_below() {
        let mut prng = Prng::new(5);
        for _ in 0..20_000 {
            let value = prng.between(-100_000, 100_000);
            let found = converted(near(&mut prng, value));
            let around = [Some(value), Some(value - 1)];
            assert!(around.contains(&found), "{value} {found:?}");
        }
    }
}
