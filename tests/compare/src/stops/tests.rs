//! Groups and rows that are aimed, tried by the law.

use second::law::{self, Readings};
use second::reading::{convert_row, Reading};

use super::*;
use crate::clamps::Clamps;

/// Two rows for one period, aimed by this state.
fn rows(stops: &mut Stops, settings: &Settings, state: &State) -> [Readings; 2] {
    let mut rows = [[Reading::Missing; 4]; 2];
    let period = Period {
        settings,
        number: 1_000,
        state,
        singles: 50,
    };
    stops.aim(&period, &mut rows);
    rows.map(|row| convert_row(&row))
}

/// The place of an aim among `WANTED`.
fn sort(aim: Option<Aim>) -> Option<usize> {
    match aim {
        Some(Aim::Followed(_)) => Some(0),
        Some(Aim::Amplified { .. }) => Some(1),
        Some(Aim::Held) => Some(2),
        Some(Aim::Errors(_)) => Some(3),
        Some(Aim::Pressed) | None => None,
    }
}

fn is_limited(clamps: &Clamps) -> bool {
    clamps.of_update() || clamps.of_command()
}

type Test = fn(&Clamps) -> bool;

/// What each aim must lead to.
const WANTED: [&[Test]; 4] = [
    &[
        |clamps| clamps.commands.above,
        |clamps| clamps.commands.below,
        |clamps| !is_limited(clamps) && clamps.commands.at_an_end,
        |clamps| !is_limited(clamps) && clamps.states.at_an_end,
    ],
    &[
        |clamps| clamps.states.above,
        |clamps| clamps.states.below,
        |clamps| !is_limited(clamps) && clamps.states.at_an_end,
        |clamps| !is_limited(clamps) && clamps.absent.is_changed(),
    ],
    &[
        |clamps| clamps.errors.above,
        |clamps| clamps.errors.below,
        |clamps| !is_limited(clamps) && clamps.states.at_an_end,
        |clamps| !is_limited(clamps) && clamps.absent.is_changed(),
    ],
    &[
        |clamps| clamps.errors.above,
        |clamps| clamps.errors.below,
        |clamps| !is_limited(clamps) && clamps.errors.at_an_end,
        |clamps| !is_limited(clamps),
    ],
];

#[test]
fn each_aim_is_met() {
    let mut prng = Prng::new(21);
    let mut met = [[0; 4]; 4];
    for number in 0..2_000 {
        let mut group = Group::random(&mut prng);
        let mut stops = Stops::of_rig(Prng::new(number), &mut group);
        let settings = &group.settings;
        assert_eq!(law::check(settings), Ok(()));
        let Some(sort) = sort(stops.aim) else {
            continue;
        };
        let mut state = settings.start;
        for _ in 0..5 {
            let [row, _] = rows(&mut stops, settings, &state);
            let clamps = Clamps::of(settings, &state, &row);
            for (met, test) in met[sort].iter_mut().zip(WANTED[sort]) {
                *met += usize::from(test(&clamps));
            }
            state = law::update(settings, &state, &row).unwrap().state;
        }
    }
    assert!(met.iter().flatten().all(|&met| met >= 50), "{met:?}");
}

/// x'(i) and the command are the reading, but for what is clamped.
#[test]
fn a_followed_reading_is_the_command() {
    let mut prng = Prng::new(22);
    for _ in 0..200 {
        let mut settings = Group::random(&mut prng).settings;
        let Aim::Followed(at) = groups::following(&mut prng, &mut settings) else {
            panic!("another aim");
        };
        (settings.lower[at], settings.upper[at]) = (i32::MIN, i32::MAX);
        let readings = Readings {
            marks: 15,
            values: [0; 4].map(|_| prng.between(-100_000, 100_000)),
        };
        let state = [0; 6].map(|_| prng.between(-100_000, 100_000));
        let updated = law::update(&settings, &state, &readings).unwrap();
        let command = law::command(&settings, &updated.state).unwrap();
        // Half of a unit may be left over by what was foreseen.
        assert!(command.values[at].abs_diff(readings.values[at]) <= 1);
        assert_eq!(command.values[at], updated.state[at]);
    }
}

/// One state, and two marks.
#[test]
fn twins_lead_to_one_state() {
    let mut prng = Prng::new(23);
    let mut twins = 0;
    for number in 0..1_000 {
        let settings = Group::random(&mut prng).settings;
        let mut stops = Stops {
            prng: Prng::new(number),
            aim: Some(Aim::Errors(0)),
        };
        let rows = rows(&mut stops, &settings, &settings.start);
        let [first, second] =
            rows.map(|row| law::update(&settings, &settings.start, &row).unwrap());
        twins += usize::from(first.state == second.state && first.limited != second.limited);
    }
    assert!(twins > 50, "{twins}");
}

/// The bench's state is the lowest when the pressing ends, and not before.
#[test]
fn the_bench_is_pressed_to_the_lowest() {
    let settings = Group::bench().settings;
    let mut stops = Stops {
        prng: Prng::new(24),
        aim: Some(Aim::Pressed),
    };
    let mut state = settings.start;
    for number in 1..PRESSING_TICKS {
        assert!(state[0] > i32::MIN, "{number}");
        let mut row = [[Reading::Missing; 4]];
        let period = Period {
            settings: &settings,
            number,
            state: &state,
            singles: 0,
        };
        stops.aim(&period, &mut row);
        let updated = law::update(&settings, &state, &convert_row(&row[0])).unwrap();
        assert!(!updated.limited);
        state = updated.state;
    }
    assert_eq!(state[0], i32::MIN);
}
