//! Law calls at random and at the ends of their ranges.

use second::law::{Settings, LARGEST_COEFFICIENT};

use crate::areas::Sizes;
use crate::law_sums::{clamp, command_sum, nearest, prediction_sum};
use crate::prng::Prng;
use crate::values::{mark, noise, perhaps_outside, sizes, value};

#[derive(Clone, Copy, Debug)]
pub struct LawCall {
    pub sizes: Sizes,
    /// Its tables and limits alone; its sizes are not looked at.
    pub settings: Settings,
    pub present: [u8; 4],
    pub values: [i32; 4],
    pub state: [i32; 6],
}

/// Coefficients of one table.
#[derive(Clone, Copy)]
enum Coefficients {
    /// Up to two units.
    Small,
    Any,
    /// Within 1 of an end.
    Ends,
    /// Within 1 of some halves of a unit: with small values the sums are near
    /// multiples of 32768, ties and whole units, on both sides of zero.
    NearHalves,
    /// A row takes one place, or none, as it is or half of it: what is at an
    /// end stays there.
    OnePlace,
    /// Up to an eighth of a unit: few values are clamped.
    Calm,
}

/// States and readings.
#[derive(Clone, Copy)]
enum Values {
    Few,
    Ends,
    /// Both in one call.
    FewAndEnds,
    Any,
}

pub fn make(prng: &mut Prng) -> LawCall {
    let mut call = taken(prng);
    let inside = call.sizes;
    if prng.chance(25) {
        aim_at_end(prng, &mut call);
    }
    if prng.chance(25) {
        aim_at_limits(prng, &mut call);
    }
    if prng.chance(8) {
        spoil_coefficient(prng, inside, &mut call.settings);
    }
    if prng.chance(8) {
        cross_limits(prng, inside.p, &mut call.settings);
    }
    call.sizes = perhaps_outside(prng, inside);
    call
}

/// A call that nothing refuses.
fn taken(prng: &mut Prng) -> LawCall {
    let sizes = sizes(prng);
    let sort = prng.pick(&[Values::Few, Values::Ends, Values::FewAndEnds, Values::Any]);
    LawCall {
        sizes,
        settings: settings(prng, sizes),
        present: [(); 4].map(|()| mark(prng)),
        values: [(); 4].map(|()| one_value(prng, sort)),
        state: [(); 6].map(|()| one_value(prng, sort)),
    }
}

/// Settings of a replica that nothing refuses, with their sizes.
pub fn whole_settings(prng: &mut Prng) -> (Sizes, Settings) {
    let sizes = sizes(prng);
    let mut settings = settings(prng, sizes);
    settings.start = [(); 6].map(|()| value(prng));
    (sizes, settings)
}

/// One reading such that its e(j) is at an end, or would be 1 from it on either
/// side; where no reading is, at an end itself.
fn aim_at_end(prng: &mut Prng, call: &mut LawCall) {
    let j = prng.below(call.sizes.m);
    let prediction = nearest(prediction_sum(call, j));
    let end = match prediction > 0 {
        true => i32::MIN,
        false => i32::MAX,
    };
    let aimed = prediction + i64::from(end) + i64::from(prng.between(-1, 1));
    call.values[j] = clamp(aimed) as i32;
}

/// Limits such that a command is at one of them, between them or just outside,
/// as far as i32 has room for them.
fn aim_at_limits(prng: &mut Prng, call: &mut LawCall) {
    for j in 0..call.sizes.p {
        let command = clamp(nearest(command_sum(call, j))) as i32;
        let (lower, upper) = prng.pick(&[
            (0, 0),
            (0, 1),
            (-1, 0),
            (0, i32::MAX),
            (i32::MIN, 0),
            (-300, 300),
            (1, 5),
            (-5, -1),
        ]);
        call.settings.lower[j] = command.saturating_add(lower);
        call.settings.upper[j] = command.saturating_add(upper);
    }
}

fn one_value(prng: &mut Prng, sort: Values) -> i32 {
    match sort {
        Values::Few => prng.between(-3, 3),
        Values::Ends => prng.pick(&[i32::MIN, i32::MIN + 1, i32::MAX - 1, i32::MAX]),
        Values::FewAndEnds => {
            let sort = prng.pick(&[Values::Few, Values::Ends]);
            one_value(prng, sort)
        }
        Values::Any => value(prng),
    }
}

/// Settings that nothing refuses. Half of them have tables of one place a row,
/// or calm ones, and many the widest limits: else hardly a command that a box
/// issues would be without a mark.
fn settings(prng: &mut Prng, sizes: Sizes) -> Settings {
    let mut settings = tables(prng, sizes);
    (settings.lower, settings.upper) = limits(prng);
    match prng.chance(40) {
        true => widen_limits(sizes.p, &mut settings),
        false => order_limits(sizes.p, &mut settings),
    }
    settings
}

/// Tables with coefficients in range where they are looked at and noise in
/// all other places.
fn tables(prng: &mut Prng, sizes: Sizes) -> Settings {
    let Sizes { n, m, p } = sizes;
    let sorts = match prng.below(4) {
        0 => [Coefficients::OnePlace; 4],
        1 => [Coefficients::Calm; 4],
        _ => [(); 4].map(|()| sort(prng)),
    };
    Settings {
        a: table(prng, sorts[0], n, n),
        l: table(prng, sorts[1], n, m),
        c: table(prng, sorts[2], m, n),
        k: table(prng, sorts[3], p, n),
        ..Settings::default()
    }
}

fn sort(prng: &mut Prng) -> Coefficients {
    prng.pick(&[
        Coefficients::Small,
        Coefficients::Any,
        Coefficients::Ends,
        Coefficients::NearHalves,
        Coefficients::Calm,
    ])
}

fn table<const WIDTH: usize, const HEIGHT: usize>(
    prng: &mut Prng,
    sort: Coefficients,
    rows: usize,
    columns: usize,
) -> [[i32; WIDTH]; HEIGHT] {
    let mut table = [[0; WIDTH]; HEIGHT].map(|row| row.map(|_| noise(prng)));
    for row in &mut table[..rows] {
        let taken = prng.below(columns + 1);
        for (place, entry) in row[..columns].iter_mut().enumerate() {
            *entry = match sort {
                Coefficients::OnePlace if place != taken => 0,
                _ => coefficient(prng, sort),
            };
        }
    }
    table
}

fn coefficient(prng: &mut Prng, sort: Coefficients) -> i32 {
    let largest = LARGEST_COEFFICIENT;
    match sort {
        Coefficients::Small => prng.between(-131_072, 131_072),
        Coefficients::Any => prng.between(-largest, largest),
        Coefficients::Ends => prng.pick(&[-largest, 1 - largest, largest - 1, largest]),
        Coefficients::NearHalves => 32_768 * prng.between(-6, 6) + prng.between(-1, 1),
        Coefficients::OnePlace => prng.pick(&[65_536, 65_536, -65_536, 32_768]),
        Coefficients::Calm => prng.between(-8_192, 8_192),
    }
}

/// One coefficient that is looked at is out of its range, at times by 1.
fn spoil_coefficient(prng: &mut Prng, sizes: Sizes, settings: &mut Settings) {
    let Sizes { n, m, p } = sizes;
    let beyond = LARGEST_COEFFICIENT + 1;
    let spoiled = prng.pick(&[beyond, -beyond, i32::MAX, i32::MIN]);
    let (i, j, command) = (prng.below(n), prng.below(m), prng.below(p));
    match prng.below(4) {
        0 => settings.a[i][prng.below(n)] = spoiled,
        1 => settings.l[i][j] = spoiled,
        2 => settings.c[j][i] = spoiled,
        _ => settings.k[command][i] = spoiled,
    }
}

/// Four limits in any order: wide, equal, at one end or close together.
fn limits(prng: &mut Prng) -> ([i32; 4], [i32; 4]) {
    let pairs = [(); 4].map(|()| match prng.below(5) {
        0 => (i32::MIN, i32::MAX),
        1 => [(value(prng)); 2].into(),
        2 => prng.pick(&[(i32::MIN, i32::MIN), (i32::MAX, i32::MAX)]),
        3 => (prng.between(-5, 5), prng.between(-5, 5)),
        _ => (value(prng), value(prng)),
    });
    (pairs.map(|pair| pair.0), pairs.map(|pair| pair.1))
}

/// Limits that are looked at change no i32.
fn widen_limits(p: usize, settings: &mut Settings) {
    settings.lower[..p].fill(i32::MIN);
    settings.upper[..p].fill(i32::MAX);
}

/// Limits that are looked at are put in order.
fn order_limits(p: usize, settings: &mut Settings) {
    for j in 0..p {
        let (lower, upper) = (settings.lower[j], settings.upper[j]);
        settings.lower[j] = lower.min(upper);
        settings.upper[j] = lower.max(upper);
    }
}

/// One lower limit that is looked at is above its upper; the others stay in
/// order.
fn cross_limits(prng: &mut Prng, p: usize, settings: &mut Settings) {
    let upper = value(prng).min(i32::MAX - 1);
    let crossed = [(upper + 1, upper), (i32::MAX, upper), (i32::MAX, i32::MIN)];
    let j = prng.below(p);
    (settings.lower[j], settings.upper[j]) = prng.pick(&crossed);
}
