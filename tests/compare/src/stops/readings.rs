//! Readings aimed at an end, at one beyond it and at one within it.

use second::reading::{Reading, Row};

use super::{Aim, Period, Stops, PRESSING_TICKS};
use crate::clamps::prediction;

/// The least e(j) whose 256-fold is beyond i32.
const BEYOND_256: i64 = 1 << 23;

impl Stops {
    /// Most rows are aimed, the others stay as they were drawn.
    pub(super) fn aim_row(&mut self, aim: Aim, period: &Period, row: &mut Row) {
        let m = usize::from(period.settings.m);
        match aim {
            Aim::Pressed => row[0] = self.pressed(period),
            _ if self.prng.chance(30) => {}
            Aim::Followed(at) => row[at] = self.at_limits(period, at),
            Aim::Amplified { reading, far } => {
                row[reading] = self.amplified(period, reading);
                if let (Some(far), true) = (far, self.prng.chance(70)) {
                    row[far] = Reading::Missing;
                }
            }
            Aim::Held => (0..m).for_each(|j| row[j] = self.held(period, j)),
            Aim::Errors(j) => row[j] = self.at_an_end(period, j),
        }
    }

    /// A command that is its reading: at a limit, next to it, at an end of i32
    /// or between the limits.
    fn at_limits(&mut self, period: &Period, at: usize) -> Reading {
        let (lower, upper) = (period.settings.lower[at], period.settings.upper[at]);
        let between = self.prng.between(lower, upper);
        let value = self.prng.pick(&[
            lower,
            lower,
            lower.saturating_sub(1),
            lower.saturating_add(1),
            upper,
            upper,
            upper.saturating_add(1),
            upper.saturating_sub(1),
            i32::MIN,
            i32::MAX,
            between,
            between,
        ]);
        self.reading(period, value.into())
    }

    /// An e(j) whose 256-fold is at an end of i32, next to it or anywhere.
    fn amplified(&mut self, period: &Period, j: usize) -> Reading {
        let any = i64::from(self.prng.between(-20_000_000, 20_000_000));
        let small = i64::from(self.prng.between(-100_000, 100_000));
        let error = self.prng.pick(&[
            BEYOND_256,
            BEYOND_256 - 1,
            BEYOND_256 + 1,
            -BEYOND_256,
            -BEYOND_256,
            -BEYOND_256 + 1,
            -BEYOND_256 - 1,
            any,
            small,
        ]);
        self.reading(period, prediction(period.settings, period.state, j) + error)
    }

    /// Half of the readings are absent, so that the state stays.
    fn held(&mut self, period: &Period, j: usize) -> Reading {
        let state = period.state[j];
        match self.prng.below(8) {
            0..=3 => Reading::Missing,
            4 | 5 => self.reading(period, state.into()),
            6 => self.at_an_end(period, j),
            _ => self.reading(period, if state < 0 { i32::MIN } else { i32::MAX }.into()),
        }
    }

    /// The lowest until the state is; then mostly absent, for which the state
    /// stays where it is.
    fn pressed(&mut self, period: &Period) -> Reading {
        match self.prng.below(20) {
            _ if period.number < PRESSING_TICKS => Reading::Count(i32::MIN),
            0..=13 => Reading::Missing,
            14..=17 => Reading::Count(i32::MIN),
            _ => self.at_an_end(period, 0),
        }
    }

    /// An e(j) at an end of i32, next to it, or as far beyond it as may be.
    fn at_an_end(&mut self, period: &Period, j: usize) -> Reading {
        let (just, end) = self.just_at_an_end(period, j);
        let step = (end - just).signum();
        let beyond = self.beyond(just, end);
        let value = self
            .prng
            .pick(&[just, just + step, just - step, end, beyond]);
        self.reading(period, value)
    }

    /// The value for which e(j) is just at an end of i32, and the end of i32
    /// that is as far beyond as may be.
    fn just_at_an_end(&mut self, period: &Period, j: usize) -> (i64, i64) {
        let foreseen = prediction(period.settings, period.state, j);
        let is_low = foreseen > 0 || foreseen == 0 && self.prng.chance(50);
        let end = i64::from(if is_low { i32::MIN } else { i32::MAX });
        (end + foreseen, end)
    }

    /// Any value for which e(j) is beyond, if there is one.
    fn beyond(&mut self, just: i64, end: i64) -> i64 {
        match (end - just).unsigned_abs() as usize {
            0 => just,
            width => just + (end - just).signum() * (1 + self.prng.below(width) as i64),
        }
    }

    /// Now and then the second row of a period is the first but for a reading
    /// by which e(j) is just at an end in one and beyond it in the other: both
    /// lead to one state, and one is clamped.
    pub(super) fn make_twin(
        &mut self,
        aim: Aim,
        period: &Period,
        first: &mut Row,
        second: &mut Row,
    ) {
        let j = match aim {
            Aim::Errors(j) => j,
            Aim::Held => self.prng.below(period.settings.m.into()),
            _ => return,
        };
        if !self.prng.chance(25) {
            return;
        }
        let (just, end) = self.just_at_an_end(period, j);
        let beyond = self.beyond(just, end);
        first[j] = self.reading(period, just);
        *second = *first;
        second[j] = self.reading(period, beyond);
        if self.prng.chance(50) {
            std::mem::swap(first, second);
        }
    }

    /// A reading of this value, or of the end of i32 next to it; a single in
    /// as many cases as elsewhere, if there is one of just this value.
    fn reading(&mut self, period: &Period, value: i64) -> Reading {
        let value = value.clamp(i32::MIN.into(), i32::MAX.into()) as i32;
        let single = value as f32;
        let is_exact = f64::from(single) == f64::from(value);
        match is_exact && self.prng.chance(period.singles) {
            true => Reading::Newtons(single / 65_536.0),
            false => Reading::Count(value),
        }
    }
}
