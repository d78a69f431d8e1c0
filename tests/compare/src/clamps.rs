//! What clamping and limits change in a decision, and by which of its values.
//! An implementation says only whether any value was changed, so the law's
//! formulas are worked out here once more, for the sake of counts and of
//! readings that are aimed at an end. What they have for marked must be what
//! the implementations mark.

use second::law::{Readings, Settings, State};

/// The coefficients are in units of 1/65536.
const UNIT: i64 = 65_536;

/// What became of values that were brought into a range.
#[derive(Clone, Copy, Debug, Default, PartialEq, Eq)]
pub struct Brought {
    /// One of them was above its range.
    pub above: bool,
    pub below: bool,
    /// One of them is at an end of its range and was not changed.
    pub at_an_end: bool,
}

impl Brought {
    pub fn is_changed(&self) -> bool {
        self.above || self.below
    }

    /// One value more. Gives what it is in its range.
    fn take(&mut self, value: i64, lower: i32, upper: i32) -> i32 {
        let (least, most) = (i64::from(lower), i64::from(upper));
        self.above |= value > most;
        self.below |= value < least;
        self.at_an_end |= value == least || value == most;
        match value {
            _ if value > most => upper,
            _ if value < least => lower,
            _ => value as i32,
        }
    }

    fn clamp(&mut self, value: i64) -> i32 {
        self.take(value, i32::MIN, i32::MAX)
    }
}

/// The values of an update and of the command after it, by their sort.
#[derive(Clone, Copy, Debug, Default, PartialEq, Eq)]
pub struct Clamps {
    /// e(j) of present readings.
    pub errors: Brought,
    /// e(j) of absent readings, were these present with value 0. They are 0,
    /// and nothing is changed.
    pub absent: Brought,
    /// x'(i)
    pub states: Brought,
    pub commands: Brought,
}

impl Clamps {
    /// Of Update(state, readings) and its command.
    pub fn of(settings: &Settings, x: &State, readings: &Readings) -> Clamps {
        let (n, m) = (usize::from(settings.n), usize::from(settings.m));
        let mut clamps = Clamps::default();
        let mut e = [0; 4];
        for (j, e) in e[..m].iter_mut().enumerate() {
            let foreseen = prediction(settings, x, j);
            match readings.is_present(j) {
                true => *e = (clamps.errors).clamp(i64::from(readings.values[j]) - foreseen),
                false => drop(clamps.absent.clamp(-foreseen)),
            }
        }
        let mut next = State::default();
        for (i, value) in next[..n].iter_mut().enumerate() {
            let sum = sum(&settings.a[i][..n], x) + sum(&settings.l[i][..m], &e);
            *value = clamps.states.clamp(divided(sum));
        }
        for (j, k) in settings.k[..settings.p.into()].iter().enumerate() {
            let value = divided(sum(&k[..n], &next));
            let (lower, upper) = (settings.lower[j], settings.upper[j]);
            clamps.commands.take(value, lower, upper);
        }
        clamps
    }

    /// Whether the update was limited.
    pub fn of_update(&self) -> bool {
        self.errors.is_changed() || self.states.is_changed()
    }

    /// Whether the command was.
    pub fn of_command(&self) -> bool {
        self.commands.is_changed()
    }
}

/// What e(j) takes from its reading: "(sum over i of C(j,i) × x(i)) / 65536".
pub fn prediction(settings: &Settings, x: &State, j: usize) -> i64 {
    divided(sum(&settings.c[j][..settings.n.into()], x))
}

fn sum(coefficients: &[i32], values: &[i32]) -> i64 {
    let products = coefficients.iter().zip(values);
    products.map(|(&a, &b)| i64::from(a) * i64::from(b)).sum()
}

/// "to the nearest whole number, ties to the even one": of twice as fine a
/// division, so that a tie leaves nothing over.
fn divided(sum: i64) -> i64 {
    let twice = 2 * sum + UNIT;
    let nearest = twice.div_euclid(2 * UNIT);
    let is_tie = twice.rem_euclid(2 * UNIT) == 0;
    nearest - i64::from(is_tie && nearest % 2 != 0)
}

#[cfg(test)]
mod tests {
    use super::*;
    use crate::group::Group;
    use crate::prng::Prng;
    use second::law;

    #[test]
    fn divisions_go_to_the_nearest_and_ties_to_the_even_one() {
        let half = UNIT / 2;
        for (sum, expected) in [
            (0, 0),
            (half - 1, 0),
            (half, 0),
            (half + 1, 1),
            (-half, 0),
            (-half - 1, -1),
            (3 * half, 2),
            (-3 * half, -2),
            (5 * half, 2),
            (-5 * half, -2),
        ] {
            assert_eq!(divided(sum), expected, "{sum}");
        }
    }

    fn any_value(prng: &mut Prng) -> i32 {
        match prng.below(4) {
            0 => prng.pick(&[i32::MIN, i32::MAX, 0]),
            1 => prng.between(i32::MIN, i32::MAX),
            _ => prng.between(-100_000, 100_000),
        }
    }

    /// The second implementation's law says the same of the whole.
    #[test]
    fn both_ways_find_the_same_marks() {
        let mut prng = Prng::new(12);
        let mut met = [0; 4];
        for _ in 0..20_000 {
            let settings = Group::random(&mut prng).settings;
            let x = [0; 6].map(|_| any_value(&mut prng));
            let readings = Readings {
                marks: prng.below(16) as u8,
                values: [0; 4].map(|_| any_value(&mut prng)),
            };
            let clamps = Clamps::of(&settings, &x, &readings);
            let updated = law::update(&settings, &x, &readings).unwrap();
            let command = law::command(&settings, &updated.state).unwrap();
            assert_eq!(clamps.of_update(), updated.limited);
            assert_eq!(clamps.of_command(), command.limited);
            met[usize::from(updated.limited) + 2 * usize::from(command.limited)] += 1;
        }
        assert!(met.iter().all(|&count| count > 500), "{met:?}");
    }

    #[test]
    fn each_sort_and_side_is_told() {
        let mut settings = Group::bench().settings;
        (settings.lower[0], settings.upper[0]) = (-40, 40);
        let of = |x: i32, y: Option<i32>| {
            let readings = Readings {
                marks: u8::from(y.is_some()),
                values: [y.unwrap_or(0), 0, 0, 0],
            };
            Clamps::of(&settings, &[x, 0, 0, 0, 0, 0], &readings)
        };
        let above = of(-1, Some(i32::MAX));
        assert!(above.errors.above && above.commands.above && !above.states.is_changed());
        let below = of(1, Some(i32::MIN));
        assert!(below.errors.below && below.commands.below);
        assert!(of(0, Some(i32::MIN)).errors.at_an_end);
        assert!(of(40, None).commands.at_an_end);
        let absent = of(i32::MIN, None);
        assert!(absent.absent.above && absent.states.at_an_end && !absent.of_update());
        settings.a[0][0] = 131_072;
        let of = |x: i32| Clamps::of(&settings, &[x, 0, 0, 0, 0, 0], &Readings::default());
        assert!(of(1 << 30).states.above && of(-(1 << 30) - 1).states.below);
        assert!(of(-(1 << 30)).states.at_an_end);
    }
}
