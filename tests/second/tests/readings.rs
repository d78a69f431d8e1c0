//! Document 02, L1, by the public calls alone: ticks with readings as the
//! transmitters send them, and the faults of their conversion.

mod planted;

use planted::Case;
use second::fault;
use second::frame::{self, COMMAND_AREA, FRAME_AREA, PROPOSE};
use second::law::Readings;
use second::reading::Reading::{self, Count, Missing, Newtons};
use second::reading::{convert_row, convert_single, Row};
use second::refusal::Refusal;
use second::replica::{Answer, Areas, Mode, Quorums, Replica, Step};
use second::script::bench_settings;

const FILL: u8 = 0xAA;

const ONE_UNIT: f32 = 1.0 / 65_536.0;

/// All that a tick gives back.
struct Taken {
    replica: Replica,
    step: Step,
    frame: [u8; FRAME_AREA],
    command: [u8; COMMAND_AREA],
}

fn tick(replica: Replica, row: &Row) -> Taken {
    let (mut frame, mut command) = ([FILL; FRAME_AREA], [FILL; COMMAND_AREA]);
    let areas = Areas {
        frame: &mut frame,
        command: &mut command,
    };
    let (replica, step) = replica.tick(row, areas);
    Taken {
        replica,
        step,
        frame,
        command,
    }
}

fn answer(replica: Replica, row: &Row) -> Answer {
    tick(replica, row).step.answer
}

fn assert_refused(before: Replica, row: &Row, refusal: Refusal) {
    let taken = tick(before, row);
    let silent = Step {
        answer: Answer::Refused(refusal),
        frame_length: 0,
        command_length: 0,
    };
    assert_eq!(taken.step, silent, "{row:?}");
    assert_eq!(taken.replica, before);
    assert_eq!(taken.frame, [FILL; FRAME_AREA]);
    assert_eq!(taken.command, [FILL; COMMAND_AREA]);
}

/// A fresh box of three whose settings are the bench's, but for m.
fn fresh(own: u8, m: u8) -> Replica {
    let mut settings = bench_settings();
    settings.m = m;
    for j in 0..usize::from(m) {
        settings.l[0][j] = 65_536;
    }
    Replica::new(3, own, Quorums::majorities(3), settings).unwrap()
}

/// A row that is missing but for one place.
fn row_at(place: usize, reading: Reading) -> Row {
    let mut row = [Missing; 4];
    row[place] = reading;
    row
}

/// What is there converted, with what it is then.
fn present() -> [(Reading, i32); 12] {
    [
        (Count(0), 0),
        (Count(-1), -1),
        (Count(i32::MIN), i32::MIN),
        (Count(i32::MAX), i32::MAX),
        (Newtons(0.0), 0),
        (Newtons(-0.0), 0),
        (Newtons(f32::from_bits(1)), 0),
        (Newtons(f32::from_bits(0x8000_0001)), -1),
        (Newtons(1.5), 98_304),
        (Newtons(-1.5 * ONE_UNIT), -2),
        (Newtons(f32::from_bits(0x46FF_FFFF)), 2_147_483_520),
        (Newtons(-32_768.0), i32::MIN),
    ]
}

/// What is missing or counts as missing.
fn absent() -> [Reading; 12] {
    [
        Missing,
        Newtons(f32::NAN),
        Newtons(-f32::NAN),
        Newtons(f32::from_bits(0x7F80_0001)),
        Newtons(f32::from_bits(0xFF80_0001)),
        Newtons(f32::from_bits(0xFFFF_FFFF)),
        Newtons(f32::INFINITY),
        Newtons(f32::NEG_INFINITY),
        Newtons(32_768.0),
        Newtons(f32::from_bits(0xC700_0001)),
        Newtons(f32::MAX),
        Newtons(f32::MIN),
    ]
}

// Ticks.

#[test]
fn a_tick_takes_rows_of_mixed_kinds_converted() {
    let row = [Count(-7), Newtons(1.5), Missing, Newtons(-1.5 * ONE_UNIT)];
    let converted = Readings {
        marks: 0b1011,
        values: [-7, 98_304, 0, -2],
    };
    let taken = tick(fresh(1, 4), &row);
    assert_eq!(taken.step.answer, Answer::Ok);
    assert_eq!(taken.replica.estimate.readings, converted);
    let sent = frame::read(1, 4, &taken.frame[..taken.step.frame_length]).unwrap();
    assert_eq!((sent.kind, sent.readings), (PROPOSE, converted));
    // With x 0 and every L one, the next state is their sum.
    let next = tick(taken.replica, &[Missing; 4]).replica;
    assert_eq!(next.estimate.state[0], -7 + 98_304 - 2);
    assert_eq!(next.estimate.readings, Readings::default());
}

#[test]
fn what_counts_as_missing_is_taken_as_missing() {
    for reading in absent() {
        for place in 0..4 {
            let mut row = [Newtons(1.0), Count(2), Newtons(3.0), Count(4)];
            let mut missing = row;
            (row[place], missing[place]) = (reading, Missing);
            let (taken, as_missing) = (tick(fresh(1, 4), &row), tick(fresh(1, 4), &missing));
            assert_eq!(taken.replica, as_missing.replica, "{reading:?}");
            assert_eq!(taken.frame, as_missing.frame, "{reading:?}");
            assert!(!taken.replica.estimate.readings.is_present(place));
        }
    }
}

#[test]
fn refusal_7_looks_at_converted_readings() {
    for m in 1..=4 {
        for place in 0..4 {
            let beyond = place >= usize::from(m);
            for (reading, value) in present() {
                let row = row_at(place, reading);
                if beyond {
                    assert_refused(fresh(1, m), &row, Refusal::Marks);
                    continue;
                }
                let taken = tick(fresh(1, m), &row).replica.estimate.readings;
                assert_eq!(taken.marks, 1 << place, "{reading:?}");
                assert_eq!(taken.values[place], value, "{reading:?}");
            }
            for reading in absent() {
                let taken = tick(fresh(1, m), &row_at(place, reading));
                assert_eq!(taken.step.answer, Answer::Ok, "{reading:?}");
                assert_eq!(taken.replica.estimate.readings, Readings::default());
            }
        }
    }
}

#[test]
fn one_reading_at_or_above_m_is_enough_for_7() {
    let nan = Newtons(f32::NAN);
    let row = [Count(1), nan, Missing, Newtons(-0.0)];
    assert_refused(fresh(2, 1), &row, Refusal::Marks);
    assert_refused(fresh(2, 3), &row, Refusal::Marks);
    assert_eq!(answer(fresh(2, 4), &row), Answer::Ok);
    let row = [nan, nan, Count(0), nan];
    assert_refused(fresh(2, 2), &row, Refusal::Marks);
    assert_eq!(answer(fresh(2, 3), &row), Answer::Ok);
}

#[test]
fn refusals_keep_their_order_with_singles() {
    let mut replica = fresh(2, 1);
    replica.mode = Mode::ViewChange;
    replica.view = u32::MAX;
    let seen = row_at(1, Newtons(1.5));
    let unseen = row_at(1, Newtons(f32::INFINITY));
    assert_refused(replica, &seen, Refusal::Marks);
    assert_refused(replica, &unseen, Refusal::LastView);
    replica.period = u32::MAX;
    assert_refused(replica, &seen, Refusal::LastPeriod);
    assert_refused(replica, &unseen, Refusal::LastPeriod);
    replica.settings.m = 5;
    assert_refused(replica, &seen, Refusal::Sizes);
}

#[test]
fn a_single_is_taken_as_the_count_of_the_same_value() {
    // Patterns all over the singles, at every place, by an evaluation in f64.
    for (step, bits) in (0..=u32::MAX).step_by(65_521).enumerate() {
        let value = (f64::from(f32::from_bits(bits)) * 65_536.0).floor();
        let in_range = (-2_147_483_648.0..=2_147_483_647.0).contains(&value);
        let same = if in_range {
            Count(value as i32)
        } else {
            Missing
        };
        let (place, m) = (step % 4, 1 + (step / 4 % 4) as u8);
        let single = tick(fresh(1, m), &row_at(place, Newtons(f32::from_bits(bits))));
        let count = tick(fresh(1, m), &row_at(place, same));
        assert_eq!(single.step, count.step, "{bits:08x}");
        assert_eq!(single.replica, count.replica, "{bits:08x}");
        assert_eq!(single.frame, count.frame, "{bits:08x}");
    }
}

/// L2: "L1's conversion keeps its rule", toward minus infinity, whatever the
/// law's divisions do.
#[test]
fn the_conversion_keeps_its_rule() {
    let cases = [
        (0.75, 0),
        (1.5, 1),
        (2.5, 2),
        (-0.25, -1),
        (-0.5, -1),
        (-2.5, -3),
    ];
    for (units, value) in cases {
        let row = row_at(0, Newtons(units * ONE_UNIT));
        let taken = tick(fresh(1, 1), &row).replica.estimate.readings;
        assert_eq!((taken.marks, taken.values[0]), (1, value), "{units}");
    }
}

// The planted faults.

/// Where a fault would break the plain case of another, the case compares two
/// conversions.
const CASES: [Case; 9] = [
    ("single_toward_zero", || {
        // 1.25 units either way: 1 and −2.
        let (above, below) = (
            Newtons(1.25 * ONE_UNIT).converted(),
            Newtons(-1.25 * ONE_UNIT).converted(),
        );
        above.unwrap() + below.unwrap() == -1
    }),
    ("negative_subnormal_zero", || {
        // As the smallest normal one.
        let normal = convert_single(0x8080_0000);
        let subnormals = [0x8000_0001, 0x8040_0000, 0x807F_FFFF];
        subnormals
            .iter()
            .all(|&bits| convert_single(bits) == normal)
    }),
    ("above_range_taken", || {
        Newtons(32_768.0).converted().is_none()
    }),
    ("lowest_missing", || {
        // Both or, with another exponent, neither.
        let next_above = convert_single(0xC6FF_FFFF);
        Newtons(-32_768.0).converted().is_some() == next_above.is_some()
    }),
    ("exponent_off_by_one", || {
        Newtons(1.5).converted() == Some(98_304)
    }),
    ("infinity_taken", || {
        let infinities = [f32::INFINITY, f32::NEG_INFINITY];
        infinities
            .iter()
            .all(|&single| Newtons(single).converted().is_none())
    }),
    ("nan_taken", || {
        let row = [Newtons(f32::NAN), Count(1), Count(2), Newtons(-f32::NAN)];
        convert_row(&row).marks == 0b0110
    }),
    ("missing_present", || {
        let row = [Missing, Count(1), Count(2), Missing];
        convert_row(&row).marks == 0b0110
    }),
    ("marks_unconverted", || {
        let outside = Newtons(1.0e9);
        let row = [Count(1), outside, outside, outside];
        answer(fresh(2, 1), &row) == Answer::Ok
    }),
];

#[test]
fn cases_hold() {
    planted::hold(&CASES);
}

#[test]
fn each_fault_breaks_its_case_alone() {
    planted::each_breaks_its_case_alone(&fault::READING_NAMES, &CASES);
}
