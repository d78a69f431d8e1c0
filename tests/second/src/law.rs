//! Document 01, "Settings" (those of the law) and "The law". Its divisions
//! round as document 02's L2, "Rounding that creeps", has them, and each call
//! says what its L7, "Commands that hit the stop", asks for: "The law says with
//! each update and each command whether clamping or limits changed any value."
//!
//! "The law's own calls refuse settings by 2 to 4 and refuse nothing else."

use std::cmp::Ordering;

use crate::fault::{planted, Fault};
use crate::refusal::Refusal;

pub const MAX_STATES: usize = 6;
pub const MAX_READINGS: usize = 4;
pub const MAX_COMMANDS: usize = 4;

/// "from −16,777,216 to 16,777,216"
pub const LARGEST_COEFFICIENT: i32 = 16_777_216;

/// "whole numbers in units of 1/65536"
const UNIT: i64 = 65_536;

const HALF: i64 = UNIT / 2;

/// The state x; places beyond n are not looked at.
pub type State = [i32; MAX_STATES];

/// The commands' values; places beyond p are not looked at.
pub type Command = [i32; MAX_COMMANDS];

/// What an update gives.
#[derive(Clone, Copy, Debug, Default, PartialEq, Eq)]
pub struct Updated {
    /// The new state; places beyond n are 0.
    pub state: State,
    /// Whether clamping changed an e(j) of a present reading or an x'(i).
    pub limited: bool,
}

/// What a command gives.
#[derive(Clone, Copy, Debug, Default, PartialEq, Eq)]
pub struct Commanded {
    /// Places beyond p are 0.
    pub values: Command,
    /// Whether its own limits changed a value.
    pub limited: bool,
}

/// The law's settings. "Places of a table or list beyond n, m and p are not
/// looked at."
#[derive(Clone, Copy, Debug, Default, PartialEq, Eq)]
pub struct Settings {
    /// "n states (1 to 6)"
    pub n: u8,
    /// "m readings and p commands (each 1 to 4)"
    pub m: u8,
    pub p: u8,
    /// A, n rows of n.
    pub a: [[i32; MAX_STATES]; MAX_STATES],
    /// L, n rows of m.
    pub l: [[i32; MAX_READINGS]; MAX_STATES],
    /// C, m rows of n.
    pub c: [[i32; MAX_STATES]; MAX_READINGS],
    /// K, p rows of n.
    pub k: [[i32; MAX_STATES]; MAX_COMMANDS],
    pub lower: [i32; MAX_COMMANDS],
    pub upper: [i32; MAX_COMMANDS],
    /// "A starting state of n i32 values."
    pub start: State,
}

/// One row of readings: present marks (bit j for reading j, counted from 0)
/// and values.
#[derive(Clone, Copy, Debug, Default, PartialEq, Eq)]
pub struct Readings {
    pub marks: u8,
    pub values: [i32; MAX_READINGS],
}

impl Readings {
    /// Whether reading j is present.
    pub fn is_present(&self, j: usize) -> bool {
        self.marks & (1 << j) != 0
    }

    /// Whether there is "a present mark at or above m".
    pub fn has_marks_beyond(&self, m: u8) -> bool {
        self.marks & !marks_below(m) != 0
    }

    /// The row as the law reads it: marks below m, and "a value given under
    /// an absent mark is read as 0".
    pub fn as_read(&self, m: u8) -> Readings {
        let mut read = Readings {
            marks: self.marks & marks_below(m),
            ..Readings::default()
        };
        for (j, value) in read.values.iter_mut().enumerate() {
            if read.marks & (1 << j) != 0 {
                *value = self.values[j];
            }
        }
        read
    }
}

/// All marks below m; m is at most 4 wherever settings were checked.
fn marks_below(m: u8) -> u8 {
    (0..m.min(8)).fold(0, |marks, j| marks | 1 << j)
}

/// Refusals 2 to 4, in this order.
pub fn check(settings: &Settings) -> Result<(), Refusal> {
    check_sizes(settings.n, settings.m, settings.p)?;
    if planted(Fault::LimitsFirst) {
        check_limits(settings)?;
    }
    check_coefficients(settings)?;
    check_limits(settings)
}

/// Refusal 2: "n, m or p outside its range".
pub fn check_sizes(n: u8, m: u8, p: u8) -> Result<(), Refusal> {
    let fits = |size: u8, most: usize| (1..=most).contains(&usize::from(size));
    if fits(n, MAX_STATES) && fits(m, MAX_READINGS) && fits(p, MAX_COMMANDS) {
        Ok(())
    } else {
        Err(Refusal::Sizes)
    }
}

/// Refusal 3: "a coefficient outside its range".
fn check_coefficients(settings: &Settings) -> Result<(), Refusal> {
    let (n, mut m, p) = sizes(settings);
    if planted(Fault::PlacesBeyond) {
        m = MAX_READINGS;
    }
    let in_range = table_in_range(&settings.a, n, n)
        && table_in_range(&settings.l, n, m)
        && table_in_range(&settings.c, m, n)
        && table_in_range(&settings.k, p, n);
    if in_range {
        Ok(())
    } else {
        Err(Refusal::Coefficient)
    }
}

fn table_in_range<const WIDTH: usize>(table: &[[i32; WIDTH]], rows: usize, columns: usize) -> bool {
    let largest = LARGEST_COEFFICIENT + i32::from(planted(Fault::CoefficientBeyond));
    let range = -LARGEST_COEFFICIENT..=largest;
    table[..rows]
        .iter()
        .all(|row| row[..columns].iter().all(|place| range.contains(place)))
}

/// Refusal 4: "a lower limit above its upper".
fn check_limits(settings: &Settings) -> Result<(), Refusal> {
    let limits = settings.lower.iter().zip(&settings.upper);
    if limits
        .take(settings.p.into())
        .all(|(lower, upper)| lower < upper || lower == upper && !planted(Fault::EqualLimits))
    {
        Ok(())
    } else {
        Err(Refusal::Limits)
    }
}

/// "Update: x'(i) = clamp((sum of A(i,j) × x(j) + sum of L(i,j) × e(j)) /
/// 65536), one division for both sums." Limited where an e(j) of a present
/// reading or an x'(i) is.
pub fn update(settings: &Settings, x: &State, readings: &Readings) -> Result<Updated, Refusal> {
    check(settings)?;
    let (n, m, _) = sizes(settings);
    let e = errors(settings, x, readings);
    let mut updated = Updated {
        limited: e.limited,
        ..Updated::default()
    };
    for (i, value) in updated.state[..n].iter_mut().enumerate() {
        let of_x = dot(&settings.a[i][..n], x);
        let of_e = dot(&settings.l[i][..m], &e.values);
        let next = clamp(new_state(of_x, of_e));
        *value = next.value;
        updated.limited |= next.limited;
    }
    Ok(updated)
}

/// An x'(i) before it is clamped.
fn new_state(of_x: i64, of_e: i64) -> i64 {
    let divided = |sum| divide(sum, Fault::FlooredUpdate);
    if planted(Fault::TwoDivisions) {
        return divided(of_x) + divided(of_e);
    }
    divided(of_x + of_e)
}

/// The e(j) of an update, and whether clamping changed one.
#[derive(Default)]
struct Errors {
    values: [i32; MAX_READINGS],
    limited: bool,
}

/// "For a present reading j: e(j) = clamp(y(j) − (sum over i of C(j,i) ×
/// x(i)) / 65536). For an absent one e(j) = 0": no clamping changes that one.
fn errors(settings: &Settings, x: &State, readings: &Readings) -> Errors {
    let (n, m, _) = sizes(settings);
    let mut e = Errors::default();
    for (j, error) in e.values[..m].iter_mut().enumerate() {
        let expected = || divide(dot(&settings.c[j][..n], x), Fault::FlooredPrediction);
        if readings.is_present(j) || planted(Fault::AbsentReading) {
            let clamped = clamp(i64::from(readings.values[j]) - expected());
            *error = clamped.value;
            e.limited |= clamped.limited;
        } else if planted(Fault::AbsentMarked) {
            e.limited |= clamp(-expected()).limited;
        }
    }
    e
}

/// "Command j: (sum of K(j,i) × x(i)) / 65536, brought into its own limits."
/// Limited where these change a value.
pub fn command(settings: &Settings, x: &State) -> Result<Commanded, Refusal> {
    check(settings)?;
    let (n, _, p) = sizes(settings);
    let mut commanded = Commanded::default();
    for (j, value) in commanded.values[..p].iter_mut().enumerate() {
        let wanted = divide(dot(&settings.k[j][..n], x), Fault::FlooredCommand);
        let own = if planted(Fault::FirstLimits) { 0 } else { j };
        let brought = limit(wanted, settings.lower[own], settings.upper[own]);
        *value = brought.value;
        commanded.limited |= brought.limited;
    }
    Ok(commanded)
}

/// n, m and p as indices; only for settings that `check` took.
fn sizes(settings: &Settings) -> (usize, usize, usize) {
    (settings.n.into(), settings.m.into(), settings.p.into())
}

/// The sum of products, over the coefficients' places. At most 6 products of
/// at most 2^24 × 2^31, so two such sums are far inside i64.
fn dot(coefficients: &[i32], values: &[i32]) -> i64 {
    coefficients
        .iter()
        .zip(values)
        .map(|(&coefficient, &value)| i64::from(coefficient) * i64::from(value))
        .sum()
}

/// One of the law's three divisions by 65536. Document 02: "From now on all
/// three go to the nearest whole number, ties to the even one". The fault
/// given is the one of this division alone.
fn divide(sum: i64, alone: Fault) -> i64 {
    if planted(Fault::FloorKept) || planted(alone) {
        return sum.div_euclid(UNIT);
    }
    if planted(Fault::RoundToZero) {
        return sum / UNIT;
    }
    nearest(sum)
}

/// Document 02: "to the nearest whole number, ties to the even one". The exact
/// quotient lies at or above `below` and under the next whole number, and the
/// remainder is how far above, in units of 1/65536. Of any i64 `below` is
/// within 2^47 either way, so that the next one is far inside i64 too.
fn nearest(sum: i64) -> i64 {
    let (below, remainder) = (sum.div_euclid(UNIT), sum.rem_euclid(UNIT));
    match remainder.cmp(&HALF) {
        Ordering::Less => below,
        Ordering::Equal => tied(below),
        Ordering::Greater => below + 1,
    }
}

/// Halfway between a whole number and the next one: "ties to the even one".
fn tied(below: i64) -> i64 {
    let mut stays = below.rem_euclid(2) == 0;
    if planted(Fault::TiesUp) {
        stays = false;
    }
    if planted(Fault::TiesAwayFromZero) {
        stays = below < 0;
    }
    if stays {
        below
    } else {
        below + 1
    }
}

/// A value brought into limits, and whether they changed it.
struct Brought {
    value: i32,
    limited: bool,
}

/// "Clamp means: into the i32 range."
fn clamp(value: i64) -> Brought {
    let clamped = limit(value, i32::MIN, i32::MAX);
    if planted(Fault::NotClamped) {
        let value = value as i32;
        return Brought { value, ..clamped };
    }
    clamped
}

/// Brings a value into limits of which the lower is not above the upper. One
/// that stands at a limit by itself is not changed.
fn limit(value: i64, lower: i32, upper: i32) -> Brought {
    let (lower, upper) = (i64::from(lower), i64::from(upper));
    let inside = value.clamp(lower, upper);
    let stands_at_one = value == lower || value == upper;
    Brought {
        value: inside.try_into().expect("between two i32 limits"),
        limited: inside != value || stands_at_one && planted(Fault::AtLimitMarked),
    }
}

#[cfg(test)]
mod tests {
    use super::*;
    use crate::script::bench_settings;

    fn bench_update(x: i32, y: Option<i32>) -> i32 {
        let mut state = State::default();
        state[0] = x;
        let mut readings = Readings::default();
        if let Some(y) = y {
            readings.marks = 1;
            readings.values[0] = y;
        }
        state_of(&bench_settings(), &state, &readings)[0]
    }

    fn state_of(settings: &Settings, x: &State, readings: &Readings) -> State {
        update(settings, x, readings).unwrap().state
    }

    fn values_of(settings: &Settings, x: &State) -> Command {
        command(settings, x).unwrap().values
    }

    #[test]
    fn p1_to_p5() {
        assert_eq!(bench_update(0, Some(101)), 50);
        assert_eq!(bench_update(0, Some(-101)), -50);
        assert_eq!(bench_update(50, Some(101)), 76);
        assert_eq!(bench_update(50, None), 50);
        assert_eq!(bench_update(i32::MIN, Some(i32::MAX)), -1_073_741_824);
    }

    /// Document 02: "With bench settings and x 0, y 101 gives 50 and 103 gives
    /// 52."
    #[test]
    fn ties_on_the_bench() {
        let cases = [(97, 48), (99, 50), (101, 50), (103, 52), (105, 52), (1, 0)];
        for (y, half) in cases {
            assert_eq!(bench_update(0, Some(y)), half);
            assert_eq!(bench_update(0, Some(-y)), -half);
        }
    }

    /// Document 02: "A web at rest drifts slack". No longer: a reading one
    /// above it moves it as far up as one below it moves it down.
    #[test]
    fn a_web_at_rest_leans_neither_way() {
        for rest in -51..=51 {
            let up = bench_update(rest, Some(rest + 1)) - rest;
            let down = rest - bench_update(rest, Some(rest - 1));
            assert_eq!((up, down), (rest.abs() % 2, rest.abs() % 2));
        }
    }

    #[test]
    fn largest_coefficient_is_taken_and_one_more_refused() {
        for sign in [1, -1] {
            let mut settings = bench_settings();
            settings.a[0][0] = sign * LARGEST_COEFFICIENT;
            assert_eq!(check(&settings), Ok(()));
            settings.a[0][0] += sign;
            assert_eq!(check(&settings), Err(Refusal::Coefficient));
        }
    }

    #[test]
    fn every_table_is_looked_at_up_to_its_sizes_alone() {
        let beyond = LARGEST_COEFFICIENT + 1;
        let mut base = bench_settings();
        (base.n, base.m, base.p) = (2, 3, 2);
        let tables: [fn(&mut Settings, usize, usize, i32); 4] = [
            |s, i, j, v| s.a[i][j] = v,
            |s, i, j, v| s.l[i][j] = v,
            |s, i, j, v| s.c[i][j] = v,
            |s, i, j, v| s.k[i][j] = v,
        ];
        let shapes = [(2, 2), (2, 3), (3, 2), (2, 2)];
        for (set, (rows, columns)) in tables.iter().zip(shapes) {
            for i in 0..4 {
                for j in 0..4 {
                    let mut settings = base;
                    set(&mut settings, i, j, beyond);
                    assert_eq!(check(&settings).is_err(), i < rows && j < columns);
                }
            }
        }
    }

    #[test]
    fn refusals_come_in_order() {
        let mut settings = bench_settings();
        settings.lower[0] = 1;
        settings.upper[0] = 0;
        assert_eq!(check(&settings), Err(Refusal::Limits));
        settings.k[0][0] = i32::MIN;
        assert_eq!(check(&settings), Err(Refusal::Coefficient));
        settings.p = 5;
        assert_eq!(check(&settings), Err(Refusal::Sizes));
        let updated = update(&settings, &[0; 6], &Readings::default());
        assert_eq!(updated, Err(Refusal::Sizes));
        assert_eq!(command(&settings, &[0; 6]), Err(Refusal::Sizes));
    }

    #[test]
    fn sizes_are_refused_outside_their_ranges() {
        for size in 0..=u8::MAX {
            let n_taken = check_sizes(size, 1, 1).is_ok();
            let m_taken = check_sizes(1, size, 1).is_ok();
            let p_taken = check_sizes(1, 1, size).is_ok();
            assert_eq!(n_taken, (1..=6).contains(&size));
            assert_eq!(m_taken, (1..=4).contains(&size));
            assert_eq!(p_taken, (1..=4).contains(&size));
        }
    }

    #[test]
    fn division_is_exact_around_zero() {
        let cases = [(0, 0), (1, 0), (65_535, 1), (65_536, 1), (65_537, 1)];
        for (sum, quotient) in cases {
            assert_eq!(nearest(sum), quotient);
            assert_eq!(nearest(-sum), -quotient);
        }
    }

    #[test]
    fn ties_go_to_the_even_one() {
        // The tie, and the quotients one below it, at it and one above it.
        let cases = [
            (32_768, [0, 0, 1]),
            (98_304, [1, 2, 2]),
            (163_840, [2, 2, 3]),
            (229_376, [3, 4, 4]),
            (-32_768, [-1, 0, 0]),
            (-98_304, [-2, -2, -1]),
            (-163_840, [-3, -2, -2]),
            (-229_376, [-4, -4, -3]),
        ];
        for (tie, quotients) in cases {
            assert_eq!([tie - 1, tie, tie + 1].map(nearest), quotients, "{tie}");
        }
    }

    #[test]
    fn division_is_exact_at_both_ends() {
        let end = 140_737_488_355_328;
        assert_eq!(nearest(i64::MIN), -end);
        assert_eq!(nearest(i64::MAX), end);
        // The last ties, which go to the ends, and the sums beside them.
        let tie = i64::MIN + 32_768;
        let quotients = [-end, -end, -end + 1];
        assert_eq!([tie - 1, tie, tie + 1].map(nearest), quotients);
        let tie = i64::MAX - 32_767;
        let quotients = [end - 1, end, end];
        assert_eq!([tie - 1, tie, tie + 1].map(nearest), quotients);
    }

    /// What the words mean: no whole number is nearer, and at a half the
    /// quotient is even.
    fn assert_nearest(sum: i64) {
        let quotient = i128::from(nearest(sum));
        let distance = (i128::from(sum) - 65_536 * quotient).abs();
        assert!(distance <= 32_768, "{sum}");
        assert!(distance < 32_768 || quotient % 2 == 0, "{sum}");
    }

    #[test]
    fn division_is_what_its_words_mean() {
        (-200_000..=200_000).for_each(assert_nearest);
        (i64::MIN..=i64::MIN + 100_000).for_each(assert_nearest);
        (i64::MAX - 100_000..=i64::MAX).for_each(assert_nearest);
        // Beside ties of all sizes, of both signs.
        for size in 17..63 {
            for nth in 0..64 {
                let tie = (1_i64 << size) + 65_536 * nth + 32_768;
                for sum in tie - 20..=tie + 20 {
                    assert_nearest(sum);
                    assert_nearest(-sum);
                }
            }
        }
    }

    #[test]
    fn all_three_divisions_are_to_the_nearest() {
        let mut settings = bench_settings();
        let missing = Readings::default();
        let zero = Readings {
            marks: 1,
            ..missing
        };
        // 0.75 of x and halves of it, by each of the three tables.
        let cases = [
            (49_152, 1, 1),
            (49_152, -1, -1),
            (32_768, 1, 0),
            (32_768, 3, 2),
            (32_768, 5, 2),
            (32_768, -1, 0),
            (32_768, -3, -2),
            (32_768, -5, -2),
        ];
        for (gain, x, quotient) in cases {
            settings.a[0][0] = gain;
            settings.c[0][0] = gain;
            settings.k[0][0] = gain;
            let x = [x, 0, 0, 0, 0, 0];
            assert_eq!(errors(&settings, &x, &zero).values, [-quotient, 0, 0, 0]);
            let updated = [quotient, 0, 0, 0, 0, 0];
            assert_eq!(state_of(&settings, &x, &missing), updated);
            assert_eq!(values_of(&settings, &x), [quotient, 0, 0, 0]);
        }
    }

    #[test]
    fn a_prediction_is_rounded_before_the_reading_comes_in() {
        let mut settings = bench_settings();
        settings.c[0][0] = 32_768;
        let readings = Readings {
            marks: 1,
            values: [1; 4],
        };
        // Half of 1 goes to 0 and half of 3 to 2; 1 − 0.5 and 1 − 1.5 would
        // both go to 0.
        for (x, error) in [(1, 1), (3, -1)] {
            assert_eq!(errors(&settings, &[x; 6], &readings).values[0], error);
        }
    }

    #[test]
    fn errors_and_states_are_clamped() {
        let mut settings = bench_settings();
        settings.a[0][0] = LARGEST_COEFFICIENT;
        settings.l[0][0] = LARGEST_COEFFICIENT;
        let mut readings = Readings {
            marks: 1,
            values: [i32::MIN; 4],
        };
        let x = [i32::MAX; 6];
        assert_eq!(errors(&settings, &x, &readings).values[0], i32::MIN);
        readings.values[0] = i32::MAX;
        let updated = [i32::MAX, 0, 0, 0, 0, 0];
        assert_eq!(state_of(&settings, &x, &readings), updated);
    }

    #[test]
    fn one_division_serves_both_sums() {
        let mut settings = bench_settings();
        settings.a[0][0] = 32_768;
        let readings = Readings {
            marks: 1,
            values: [2; 4],
        };
        // 32768 × 1 + 32768 × (2 − 1) is one whole unit; each half of it
        // would go to 0.
        let updated = [1, 0, 0, 0, 0, 0];
        assert_eq!(state_of(&settings, &[1; 6], &readings), updated);
    }

    #[test]
    fn commands_are_brought_into_their_limits() {
        let mut settings = bench_settings();
        (settings.lower[0], settings.upper[0]) = (-3, 7);
        for (x, value) in [(-4, -3), (-3, -3), (0, 0), (7, 7), (8, 7)] {
            assert_eq!(values_of(&settings, &[x; 6]), [value, 0, 0, 0]);
        }
        settings.k[0][0] = LARGEST_COEFFICIENT;
        (settings.lower[0], settings.upper[0]) = (i32::MIN, i32::MAX);
        assert_eq!(values_of(&settings, &[i32::MAX; 6]), [i32::MAX, 0, 0, 0]);
    }

    #[test]
    fn marks_beyond_m_and_values_under_absent_marks_do_not_matter() {
        let given = Readings {
            marks: 0b1111_0000,
            values: [9; 4],
        };
        let updated = [50, 0, 0, 0, 0, 0];
        assert_eq!(state_of(&bench_settings(), &[50; 6], &given), updated);
        assert_eq!(given.as_read(1), Readings::default());
        assert!(given.has_marks_beyond(4));
    }

    // Document 02, L7: "whether clamping or limits changed any value".

    /// n, m and p 2. Every table takes each place as it is, but L is 0, so that
    /// no e(j) changes a state.
    fn apart() -> Settings {
        let mut settings = bench_settings();
        (settings.n, settings.m, settings.p) = (2, 2, 2);
        settings.l[0][0] = 0;
        for i in 0..2 {
            settings.a[i][i] = 65_536;
            settings.c[i][i] = 65_536;
            settings.k[i][i] = 65_536;
            (settings.lower[i], settings.upper[i]) = (i32::MIN, i32::MAX);
        }
        settings
    }

    /// A state with one value at a place and 0 elsewhere.
    fn with_value(place: usize, value: i32) -> State {
        let mut x = State::default();
        x[place] = value;
        x
    }

    /// A row with one reading present.
    fn with_reading(place: usize, value: i32) -> Readings {
        let mut readings = Readings {
            marks: 1 << place,
            ..Readings::default()
        };
        readings.values[place] = value;
        readings
    }

    fn update_is_limited(settings: &Settings, x: &State, readings: &Readings) -> bool {
        update(settings, x, readings).unwrap().limited
    }

    fn command_is_limited(settings: &Settings, x: &State) -> bool {
        command(settings, x).unwrap().limited
    }

    /// An e(j) that stands at an end by itself, and one that is changed.
    #[test]
    fn a_clamped_error_limits_an_update() {
        for j in 0..2 {
            let cases = [(1, i32::MIN), (-1, i32::MAX), (1 << 30, -1 - (1 << 30))];
            for (x, y) in cases {
                let x = with_value(j, x);
                let at_end = y + x[j].signum();
                assert!(update_is_limited(&apart(), &x, &with_reading(j, y)));
                assert!(!update_is_limited(&apart(), &x, &with_reading(j, at_end)));
                // Neither changes the state, nor the command of it.
                assert_eq!(state_of(&apart(), &x, &with_reading(j, y)), x);
                assert!(!command_is_limited(&apart(), &x));
            }
        }
    }

    /// An x'(i) that stands at an end by itself, and one that is changed.
    #[test]
    fn a_clamped_state_limits_an_update() {
        let none = Readings::default();
        for i in 0..2 {
            let mut settings = apart();
            settings.a[i][i] = 2 * 65_536;
            let cases = [
                (1 << 30, true, i32::MAX),
                ((1 << 30) - 1, false, i32::MAX - 1),
                (-(1 << 30) - 1, true, i32::MIN),
                (-(1 << 30), false, i32::MIN),
            ];
            for (x, limited, next) in cases {
                let state = with_value(i, next);
                let updated = update(&settings, &with_value(i, x), &none);
                assert_eq!(updated, Ok(Updated { state, limited }));
                // The command of the state is what it is.
                assert!(!command_is_limited(&settings, &state));
            }
            settings = apart();
            let at_end = with_value(i, i32::MAX);
            assert!(!update_is_limited(&settings, &at_end, &none));
        }
    }

    /// What is clamped is the quotient as rounded.
    #[test]
    fn rounding_alone_limits_nothing() {
        let mut settings = bench_settings();
        settings.c[0][0] = 0;
        // x and a half goes to the even one, which may be past the end.
        let cases = [
            (i32::MAX, 1, true),
            (i32::MAX - 1, 1, false),
            (i32::MIN, -1, false),
            (i32::MIN, -2, true),
            (5, 1, false),
        ];
        for (x, y, limited) in cases {
            let readings = with_reading(0, y);
            let x = with_value(0, x);
            assert_eq!(update_is_limited(&settings, &x, &readings), limited);
        }
        settings.k[0][0] = 32_768;
        (settings.lower[0], settings.upper[0]) = (-2, 2);
        for (x, limited) in [(5, false), (6, true), (-5, false), (-6, true)] {
            let x = with_value(0, x);
            assert_eq!(command_is_limited(&settings, &x), limited);
        }
    }

    #[test]
    fn a_command_is_limited_where_its_own_limits_change_it() {
        for j in 0..2 {
            let mut settings = apart();
            (settings.lower[j], settings.upper[j]) = (-3, 7);
            let cases = [(-4, true), (-3, false), (0, false), (7, false), (8, true)];
            for (x, limited) in cases {
                let x = with_value(j, x);
                assert_eq!(command_is_limited(&settings, &x), limited);
                assert!(!update_is_limited(&settings, &x, &Readings::default()));
                // The other command has limits of its own.
                let x = with_value(1 - j, x[j]);
                assert!(!command_is_limited(&settings, &x));
            }
            // At equal limits one value alone is not changed.
            (settings.lower[j], settings.upper[j]) = (0, 0);
            for (x, limited) in [(-1, true), (0, false), (1, true)] {
                let x = with_value(j, x);
                assert_eq!(command_is_limited(&settings, &x), limited);
            }
        }
        let mut settings = bench_settings();
        for (gain, limited) in [(65_536, false), (65_537, true)] {
            settings.k[0][0] = gain;
            for end in [i32::MIN, i32::MAX] {
                let x = with_value(0, end);
                assert_eq!(command_is_limited(&settings, &x), limited);
            }
        }
    }

    /// "For an absent one e(j) = 0", whatever stands in its place.
    #[test]
    fn an_absent_reading_limits_nothing() {
        let x = with_value(1, i32::MIN);
        for value in [0, 1, i32::MAX] {
            let mut readings = with_reading(1, value);
            assert!(update_is_limited(&apart(), &x, &readings));
            readings.marks = 0b1111_1101;
            assert!(!update_is_limited(&apart(), &x, &readings));
        }
    }

    #[test]
    fn places_beyond_n_m_and_p_limit_nothing() {
        let mut settings = apart();
        (settings.n, settings.m, settings.p) = (1, 1, 1);
        settings.a[1] = [i32::MAX; 6];
        settings.c[1] = [i32::MAX; 6];
        settings.k[1] = [i32::MAX; 6];
        (settings.lower[1], settings.upper[1]) = (1, 0);
        let x = [5, i32::MAX, i32::MIN, 0, 0, 0];
        let readings = Readings {
            marks: 0b1111,
            values: [5, i32::MIN, i32::MIN, i32::MAX],
        };
        assert!(!update_is_limited(&settings, &x, &readings));
        assert!(!command_is_limited(&settings, &x));
    }

    /// On the bench, from one state: e(1) is −2147483648 either way.
    #[test]
    fn two_updates_to_one_state_may_differ_in_what_they_say() {
        let x = with_value(0, 1 << 30);
        let [clamped, plain] = [i32::MIN, -(1 << 30)]
            .map(|y| update(&bench_settings(), &x, &with_reading(0, y)).unwrap());
        assert_eq!(clamped.state, plain.state);
        assert!(clamped.limited && !plain.limited);
    }

    /// A generator by shifts.
    struct Random(u64);

    impl Random {
        fn next(&mut self) -> i32 {
            self.0 ^= self.0 << 13;
            self.0 ^= self.0 >> 7;
            self.0 ^= self.0 << 17;
            (self.0 >> 24) as i32
        }

        /// Of any size, now and then an end.
        fn value(&mut self) -> i32 {
            match self.next() & 15 {
                0 => i32::MIN,
                1 => i32::MAX,
                size => self.next() >> (2 * size - 2),
            }
        }

        /// A few whole units or some fraction.
        fn coefficient(&mut self) -> i32 {
            match self.next() & 3 {
                0 => (self.next() & 7) * 65_536 - 196_608,
                _ => self.next() >> 14,
            }
        }

        /// K is small and its limits are often the widest, so that a command may
        /// stay as it is where a state was clamped.
        fn settings(&mut self) -> Settings {
            let mut settings = Settings {
                n: 3,
                m: 2,
                p: 2,
                lower: [i32::MIN; 4],
                upper: [i32::MAX; 4],
                ..Settings::default()
            };
            settings.a = settings.a.map(|row| row.map(|_| self.coefficient()));
            settings.l = settings.l.map(|row| row.map(|_| self.coefficient()));
            settings.c = settings.c.map(|row| row.map(|_| self.coefficient()));
            settings.k = settings.k.map(|row| row.map(|_| self.coefficient() >> 3));
            if self.next() & 1 == 0 {
                let (one, other) = (self.value(), self.value());
                settings.lower[0] = one.min(other);
                settings.upper[0] = one.max(other);
            }
            settings
        }
    }

    /// The quotients of one of the law's tables and a state, as they are before
    /// anything is brought into limits.
    fn quotients<const WIDTH: usize>(table: &[[i32; WIDTH]], values: &[i32]) -> Vec<i64> {
        let sums = table.iter().map(|row| dot(&row[..values.len()], values));
        sums.map(nearest).collect()
    }

    /// What the words mean: what was changed is not what it was.
    #[test]
    fn limited_is_what_its_words_mean() {
        let mut random = Random(0x9E37_79B9_7F4A_7C15);
        // By whether an e(j), an x'(i) and a command was changed.
        let mut counts = [0; 8];
        for _ in 0..100_000 {
            let settings = random.settings();
            let x: State = std::array::from_fn(|_| random.value());
            let readings = Readings {
                marks: random.next() as u8,
                values: std::array::from_fn(|_| random.value()),
            };
            let e = errors(&settings, &x, &readings).values;
            let expected = quotients(&settings.c[..2], &x[..3]);
            let changed_error = (0..2).any(|j| {
                let wanted = i64::from(readings.values[j]) - expected[j];
                readings.is_present(j) && i64::from(e[j]) != wanted
            });
            let updated = update(&settings, &x, &readings).unwrap();
            let changed_state = (0..3).any(|i| {
                let sum = dot(&settings.a[i][..3], &x) + dot(&settings.l[i][..2], &e);
                i64::from(updated.state[i]) != nearest(sum)
            });
            assert_eq!(updated.limited, changed_error || changed_state);
            let command = command(&settings, &updated.state).unwrap();
            let wanted = quotients(&settings.k[..2], &updated.state[..3]);
            let changed_command = (0..2).any(|j| i64::from(command.values[j]) != wanted[j]);
            assert_eq!(command.limited, changed_command);
            let changed = [changed_error, changed_state, changed_command];
            counts[changed
                .iter()
                .fold(0, |place, &bit| 2 * place + usize::from(bit))] += 1;
        }
        assert!(counts.iter().all(|&count| count > 300), "{counts:?}");
    }
}
