//! Settings with which readings can be aimed at an end.

use second::law::{Settings, LARGEST_COEFFICIENT, MAX_STATES};

use super::Aim;
use crate::group::{self, ONE};
use crate::prng::Prng;

/// x'(i) = y(i) and command i = x'(i) at one place: what A makes of the state
/// is just what C foresees of the reading.
pub fn following(prng: &mut Prng, settings: &mut Settings) -> Aim {
    group::fill_tame(prng, settings);
    let at = prng.below(settings.n.min(settings.m).min(settings.p).into());
    settings.a[at] = settings.c[at];
    settings.l[at] = [0; 4];
    settings.l[at][at] = ONE;
    settings.k[at] = [0; MAX_STATES];
    settings.k[at][at] = ONE;
    widen_limits(prng, settings);
    (settings.lower[at], settings.upper[at]) = match prng.below(4) {
        0 => (i32::MIN, i32::MAX),
        1 => (i32::MIN + 1, i32::MAX - 1),
        _ => (prng.between(-60_000, 0), prng.between(0, 60_000)),
    };
    Aim::Followed(at)
}

/// x'(i) = 256 × e(j) for one state and one reading, and nothing is foreseen
/// by that state but for another reading, for which it counts 256 times.
pub fn amplifying(prng: &mut Prng, settings: &mut Settings) -> Aim {
    group::fill_tame(prng, settings);
    let (n, m) = (usize::from(settings.n), usize::from(settings.m));
    let (state, reading) = (prng.below(n), prng.below(m));
    settings.a[state] = [0; MAX_STATES];
    settings.l[state] = [0; 4];
    settings.l[state][reading] = prng.pick(&[LARGEST_COEFFICIENT, -LARGEST_COEFFICIENT]);
    for row in &mut settings.c {
        row[state] = 0;
    }
    let far = (m > 1).then(|| (reading + 1 + prng.below(m - 1)) % m);
    if let Some(far) = far {
        settings.c[far][state] = prng.pick(&[LARGEST_COEFFICIENT, -LARGEST_COEFFICIENT]);
    }
    widen_limits(prng, settings);
    Aim::Amplified { reading, far }
}

/// The bench's law for each state that has a reading, from a start close to an
/// end of i32.
pub fn holding(prng: &mut Prng, settings: &mut Settings) -> Aim {
    group::fill_tame(prng, settings);
    for i in 0..MAX_STATES {
        settings.a[i] = [0; MAX_STATES];
        settings.a[i][i] = ONE;
        settings.l[i] = [0; 4];
        settings.start[i] = start(prng);
    }
    for j in 0..4 {
        settings.l[j][j] = ONE / 2;
        settings.c[j] = [0; MAX_STATES];
        settings.c[j][j] = prng.pick(&[ONE, ONE, ONE + 1, 2 * ONE]);
        settings.k[j] = [0; MAX_STATES];
        settings.k[j][j.min(usize::from(settings.n) - 1)] = prng.pick(&[ONE, ONE, ONE / 2]);
    }
    widen_limits(prng, settings);
    Aim::Held
}

/// Close to an end of i32, or half of the way to it.
fn start(prng: &mut Prng) -> i32 {
    let inside = prng.between(0, 1_000);
    prng.pick(&[
        i32::MIN,
        i32::MIN,
        i32::MIN + 1,
        i32::MIN + inside,
        i32::MIN / 2,
        i32::MAX / 2,
        i32::MAX - inside,
        i32::MAX,
    ])
}

/// Most limits are the widest, or one within them, so that the aim alone leads
/// to a mark.
fn widen_limits(prng: &mut Prng, settings: &mut Settings) {
    for (lower, upper) in settings.lower.iter_mut().zip(&mut settings.upper) {
        match prng.below(10) {
            0 => {}
            1 => (*lower, *upper) = (i32::MIN + 1, i32::MAX - 1),
            _ => (*lower, *upper) = (i32::MIN, i32::MAX),
        }
    }
}
