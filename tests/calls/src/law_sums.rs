//! The values of a law call before they are brought into their limits, for
//! calls that come close to these and for counting: nothing is compared with
//! them.

use crate::areas::Sizes;
use crate::law_call::LawCall;

pub const UNIT: i64 = 65_536;

/// The whole number below a quotient, and how far the quotient is from the tie
/// above that number, in 65536ths.
pub fn divided(sum: i64) -> (i64, i64) {
    (sum.div_euclid(UNIT), sum.rem_euclid(UNIT) - UNIT / 2)
}

/// To the nearest whole number, ties to the even one.
pub fn nearest(sum: i64) -> i64 {
    let (below, from_tie) = divided(sum);
    let goes_up = from_tie > 0 || from_tie == 0 && below % 2 != 0;
    below + i64::from(goes_up)
}

/// Into the i32 range.
pub fn clamp(value: i64) -> i64 {
    value.clamp(i32::MIN.into(), i32::MAX.into())
}

pub fn is_present(call: &LawCall, j: usize) -> bool {
    call.present[j] != 0
}

/// The sum of C(j,i) × x(i).
pub fn prediction_sum(call: &LawCall, j: usize) -> i64 {
    dot(&call.settings.c[j], &call.state, call.sizes.n)
}

/// e(j) before clamping, with the value in the place of reading j whether it is
/// present or not.
pub fn error(call: &LawCall, j: usize) -> i64 {
    i64::from(call.values[j]) - nearest(prediction_sum(call, j))
}

/// Both sums of x'(i), in one.
pub fn state_sum(call: &LawCall, i: usize) -> i64 {
    let Sizes { n, m, .. } = call.sizes;
    let e = [0, 1, 2, 3].map(|j| match j < m && is_present(call, j) {
        true => clamp(error(call, j)) as i32,
        false => 0,
    });
    dot(&call.settings.a[i], &call.state, n) + dot(&call.settings.l[i], &e, m)
}

/// The sum of K(j,i) × x(i).
pub fn command_sum(call: &LawCall, j: usize) -> i64 {
    dot(&call.settings.k[j], &call.state, call.sizes.n)
}

fn dot(coefficients: &[i32], values: &[i32], count: usize) -> i64 {
    let pairs = coefficients.iter().zip(values).take(count);
    pairs.map(|(&c, &x)| i64::from(c) * i64::from(x)).sum()
}
