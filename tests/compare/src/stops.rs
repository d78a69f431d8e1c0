//! Values brought to their limits: groups and readings by which an e(j), an
//! x'(i) or a command comes to stand at an end of its range, one beyond it, or
//! far beyond, in one period and not in the next.
//!
//! All of it is drawn from a generator apart, so that the rest of a script stays
//! as it was: which frames are sent, and to whom, depends on no value of a state
//! or a reading.

mod groups;
mod readings;

use second::law::{Settings, State};
use second::reading::Row;

use crate::group::Group;
use crate::prng::Prng;

/// What a script's readings are aimed at.
#[derive(Clone, Copy, Debug, PartialEq, Eq)]
pub enum Aim {
    /// The state at this place is its reading, and so is the command: the
    /// command's limits, and the ends of i32.
    Followed(usize),
    /// A state is 256 times the e(j) of this reading: the ends of i32, by that
    /// state.
    Amplified {
        reading: usize,
        /// A reading that would be far from its e(j)'s range, and is mostly
        /// absent.
        far: Option<usize>,
    },
    /// A state stays as it is while its reading is absent, close to an end of
    /// i32.
    Held,
    /// The e(j) of this reading: the ends of i32, in any group.
    Errors(usize),
    /// The same on the bench, after so many ticks with the lowest reading that
    /// the state is the lowest too.
    Pressed,
}

/// Ticks after which the bench's state is the lowest, if all before the last
/// have the lowest reading: each goes half of the way, but for the first, which
/// makes no update.
pub const PRESSING_TICKS: u32 = 33;

pub struct Stops {
    prng: Prng,
    pub aim: Option<Aim>,
}

impl Stops {
    /// For a group at random, which is changed for the sake of its aim; half of
    /// the groups have none.
    pub fn of_rig(mut prng: Prng, group: &mut Group) -> Stops {
        let aim = match prng.below(8) {
            0 => Some(groups::following(&mut prng, &mut group.settings)),
            1 => Some(groups::amplifying(&mut prng, &mut group.settings)),
            2 => Some(groups::holding(&mut prng, &mut group.settings)),
            3 => Some(Aim::Errors(prng.below(group.settings.m.into()))),
            _ => None,
        };
        Stops { prng, aim }
    }

    /// "n = m = p = 1; A, C, K hold 65536, L 32768; widest limits; start 0":
    /// only an e(j) can be clamped.
    pub fn of_bench(mut prng: Prng) -> Stops {
        let aim = match prng.below(20) {
            0..=2 => Some(Aim::Pressed),
            3..=8 => Some(Aim::Errors(0)),
            _ => None,
        };
        Stops { prng, aim }
    }

    /// Aims the rows made for a period.
    pub fn aim(&mut self, period: &Period, rows: &mut [Row]) {
        let Some(aim) = self.aim else { return };
        for row in rows.iter_mut() {
            self.aim_row(aim, period, row);
        }
        if let [first, second, ..] = rows {
            self.make_twin(aim, period, first, second);
        }
    }
}

/// What readings of a period are aimed by.
pub struct Period<'a> {
    pub settings: &'a Settings,
    /// Its number.
    pub number: u32,
    /// The state that its e(j) are worked out from.
    pub state: &'a State,
    /// Of a hundred readings, those that are singles.
    pub singles: usize,
}

#[cfg(test)]
mod tests;
