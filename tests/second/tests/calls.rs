//! Document 02, L4: the calls of the boxes' C firmware, where "a replica is
//! its record", against the calls on replicas; and the faults of the former.

mod pairs;
mod planted;
mod random;

use planted::Case;
use random::Random;
use second::calls::{self, DONE, IGNORED};
use second::fault;
use second::frame::{COMMAND_AREA, FRAME_AREA};
use second::law::{Readings, Settings};
use second::reading::{Reading, Row};
use second::record::{self, LENGTH};
use second::refusal::Refusal;
use second::replica::{Answer, Areas, Mode, Quorums, Replica};
use second::script::bench_settings;

const FILL: u8 = 0xAA;

/// Areas just long enough.
const ENOUGH: (usize, usize) = (FRAME_AREA, COMMAND_AREA);

/// Those of the bench.
const QUORUMS: Quorums = Quorums {
    to_decide: 2,
    to_propose: 2,
};

/// What the lengths hold before a call.
const LEFT: [usize; 2] = [777, 888];

enum Event {
    Tick([u8; 4], [u32; 4]),
    GiveUp,
    Arrive(Vec<u8>),
}

/// A tick with a count, and without a reading.
fn tick_of(count: i32) -> Event {
    Event::Tick([1, 0, 0, 0], [count as u32, 0, 0, 0])
}

fn tick_missing() -> Event {
    Event::Tick([0; 4], [0; 4])
}

/// All that a call leaves, with record and areas whole.
#[derive(Debug, PartialEq, Eq)]
struct Left {
    answer: u32,
    record: Vec<u8>,
    frame: Vec<u8>,
    command: Vec<u8>,
    lengths: [usize; 2],
}

fn call(record: &[u8], event: &Event, areas: (usize, usize)) -> Left {
    let mut record = record.to_vec();
    let (mut frame, mut command) = (vec![FILL; areas.0], vec![FILL; areas.1]);
    let mut lengths = LEFT;
    let lent = Areas {
        frame: &mut frame,
        command: &mut command,
    };
    let answer = match event {
        Event::Tick(kinds, bits) => calls::tick(&mut record, kinds, bits, lent, &mut lengths),
        Event::GiveUp => calls::give_up(&mut record, lent, &mut lengths),
        Event::Arrive(bytes) => calls::arrive(&mut record, bytes, lent, &mut lengths),
    };
    Left {
        answer,
        record,
        frame,
        command,
        lengths,
    }
}

/// The same by the calls on replicas.
fn step(replica: Replica, event: &Event, areas: (usize, usize)) -> (Replica, Left) {
    let (mut frame, mut command) = (vec![FILL; areas.0], vec![FILL; areas.1]);
    let lent = Areas {
        frame: &mut frame,
        command: &mut command,
    };
    let (replica, step) = match event {
        Event::Tick(kinds, bits) => replica.tick(&row_of(kinds, bits), lent),
        Event::GiveUp => replica.give_up(lent),
        Event::Arrive(bytes) => replica.arrive(bytes, lent),
    };
    let left = Left {
        answer: match step.answer {
            Answer::Ok => 0,
            Answer::Ignored => 256,
            Answer::Refused(refusal) => refusal.number().into(),
        },
        record: recorded(&replica),
        frame,
        command,
        lengths: [step.frame_length, step.command_length],
    };
    (replica, left)
}

fn row_of(kinds: &[u8; 4], bits: &[u32; 4]) -> Row {
    std::array::from_fn(|j| match kinds[j] {
        1 => Reading::Count(bits[j] as i32),
        2 => Reading::Newtons(f32::from_bits(bits[j])),
        _ => Reading::Missing,
    })
}

fn recorded(replica: &Replica) -> Vec<u8> {
    let mut record = vec![0; LENGTH];
    record::write(replica, &mut record).unwrap();
    record
}

/// The record of a fresh box of three, with the bench's law.
fn made(own: u8) -> Vec<u8> {
    let mut record = vec![FILL; LENGTH];
    let answer = calls::make(3, own, QUORUMS, bench_settings(), &mut record);
    assert_eq!(answer, DONE);
    record
}

/// What a done call leaves; the frame without what stands behind it.
fn call_done(record: &[u8], event: &Event) -> (Vec<u8>, Vec<u8>) {
    let left = call(record, event, ENOUGH);
    assert_eq!(left.answer, DONE);
    (left.record, left.frame[..left.lengths[0]].to_vec())
}

fn assert_kept(before: &[u8], areas: (usize, usize), answer: u32, left: &Left) {
    let kept = Left {
        answer,
        record: before.to_vec(),
        frame: vec![FILL; areas.0],
        command: vec![FILL; areas.1],
        lengths: [0, 0],
    };
    assert_eq!(*left, kept);
}

fn number(refusal: Refusal) -> u32 {
    refusal.number().into()
}

// Making.

#[test]
fn making_writes_the_record_of_a_fresh_replica() {
    for own in 1..=3 {
        let replica = Replica::new(3, own, QUORUMS, bench_settings()).unwrap();
        assert_eq!(made(own), recorded(&replica));
        let mut longer = [FILL; LENGTH + 9];
        let answer = calls::make(3, own, QUORUMS, bench_settings(), &mut longer);
        assert_eq!(answer, 0);
        assert_eq!(longer[..LENGTH], made(own));
        assert_eq!(longer[LENGTH..], [FILL; 9]);
    }
}

#[test]
fn making_refuses_by_1_to_4_then_18_then_5() {
    let mut quorums = QUORUMS;
    let make_with = |quorums, boxes, own, settings: &Settings, length: usize| {
        let mut area = vec![FILL; length];
        let answer = calls::make(boxes, own, quorums, *settings, &mut area);
        assert!(area.iter().all(|&byte| byte == FILL));
        answer
    };
    let mut settings = bench_settings();
    assert_eq!(make_with(quorums, 3, 1, &settings, 615), 5);
    assert_eq!(make_with(quorums, 3, 1, &settings, 0), 5);
    quorums.to_propose = 4;
    let make =
        |boxes, own, settings: &Settings, length| make_with(quorums, boxes, own, settings, length);
    assert_eq!(make(3, 1, &settings, 0), 18);
    assert_eq!(make(3, 1, &settings, 615), 18);
    assert_eq!(make(3, 1, &settings, 616), 18);
    settings.upper[0] = i32::MIN;
    settings.lower[0] = 0;
    assert_eq!(make(3, 1, &settings, 615), 4);
    assert_eq!(make(3, 1, &settings, 616), 4);
    settings.a[0][0] = i32::MIN;
    assert_eq!(make(3, 1, &settings, 0), 3);
    settings.p = 5;
    assert_eq!(make(3, 1, &settings, 0), 2);
    assert_eq!(make(3, 4, &settings, 0), 1);
    assert_eq!(make(10, 1, &settings, 700), 1);
}

// Steps.

#[test]
fn a_period_by_records_alone() {
    let (one, propose) = call_done(&made(1), &tick_of(100));
    let (two, nothing) = call_done(&made(2), &tick_of(102));
    assert!(nothing.is_empty());
    let (two, ack) = call_done(&two, &Event::Arrive(propose));
    let decided = call(&one, &Event::Arrive(ack), (100, 100));
    assert_eq!((decided.answer, decided.lengths), (DONE, [37, 12]));
    let command = [5, 1, 0, 0, 1, 0, 0, 0, 50, 0, 0, 0];
    assert_eq!(decided.command[..12], command);
    assert_eq!(decided.command[12..], [FILL; 88]);
    let decide = Event::Arrive(decided.frame[..37].to_vec());
    let issued = call(&two, &decide, ENOUGH);
    assert_eq!((issued.answer, issued.lengths), (DONE, [0, 12]));
    assert_eq!(issued.command[..12], command);
    assert_eq!(issued.frame, [FILL; FRAME_AREA]);
    let (next, _) = call_done(&issued.record, &tick_missing());
    let next = record::read(&next).unwrap();
    assert_eq!((next.period, next.estimate.state[0]), (2, 50));
    // Again: the period is decided.
    let ignored = call(&issued.record, &decide, ENOUGH);
    assert_kept(&issued.record, ENOUGH, IGNORED, &ignored);
}

/// Changes: "a kind byte (0 missing, 1 count, 2 single, anything else
/// missing) and 32 bits".
#[test]
fn kinds_of_readings() {
    let mut settings = bench_settings();
    settings.m = 4;
    let mut record = vec![0; LENGTH];
    assert_eq!(calls::make(3, 2, QUORUMS, settings, &mut record), DONE);
    let readings_of = |kinds: [u8; 4], bits: [u32; 4]| {
        let (record, _) = call_done(&record, &Event::Tick(kinds, bits));
        record::read(&record).unwrap().estimate.readings
    };
    let of_all = Readings {
        marks: 0b0110,
        values: [0, i32::MIN, 98_304, 0],
    };
    let bits = [7, 0x8000_0000, 0x3FC0_0000, 0x3FC0_0000];
    assert_eq!(readings_of([0, 1, 2, 3], bits), of_all);
    for kind in (0..=u8::MAX).filter(|kind| ![1, 2].contains(kind)) {
        assert_eq!(readings_of([kind; 4], bits), Readings::default());
    }
    let counts = Readings {
        marks: 0b1111,
        values: [-1, 0, i32::MAX, 2_143_289_344],
    };
    let bits = [u32::MAX, 0, 0x7FFF_FFFF, 0x7FC0_0000];
    assert_eq!(readings_of([1; 4], bits), counts);
    // As singles: NaNs but for the second, 0.0.
    let singles = Readings {
        marks: 0b0010,
        values: [0; 4],
    };
    assert_eq!(readings_of([2; 4], bits), singles);
}

/// Changes: "Every call: 15 first, then 5 for each lent area (the record's own
/// among them), then 16 or the event."
#[test]
fn steps_refuse_by_15_then_5_then_the_event() {
    let mut last = record::read(&made(2)).unwrap();
    (last.period, last.view, last.mode) = (u32::MAX, u32::MAX, Mode::ViewChange);
    let last = recorded(&last);
    // What each event is refused by, itself.
    let events = [
        (Event::Tick([1; 4], [0; 4]), 6),
        (tick_missing(), 6),
        (Event::GiveUp, 12),
        (Event::Arrive(vec![]), 8),
        (Event::Arrive(vec![FILL; 300]), 8),
    ];
    for (event, refusal) in events {
        let left = call(&last, &event, ENOUGH);
        assert_kept(&last, ENOUGH, refusal, &left);
        for areas in [(68, 24), (69, 23), (0, 0), (68, 1000), (1000, 23)] {
            assert_kept(&last, areas, 5, &call(&last, &event, areas));
            // Damaged, too short, too long, empty.
            let damaged = [&[0], &last[1..]].concat();
            let longer = [&last[..], &[0]].concat();
            for record in [&damaged[..], &last[..615], &longer, &[]] {
                assert_kept(record, areas, 15, &call(record, &event, areas));
                assert_kept(record, ENOUGH, 15, &call(record, &event, ENOUGH));
            }
        }
    }
    let beyond = Event::Tick([1; 4], [0; 4]);
    assert_kept(&made(2), ENOUGH, 7, &call(&made(2), &beyond, ENOUGH));
}

/// "Ignored: frames and give-ups in period 0"
#[test]
fn an_ignored_call_leaves_everything_but_the_lengths() {
    for own in 1..=3 {
        let left = call(&made(own), &Event::GiveUp, (80, 30));
        assert_kept(&made(own), (80, 30), IGNORED, &left);
    }
}

// Recording and returning.

#[test]
fn recording_copies_the_record() {
    let (record, _) = call_done(&made(1), &tick_of(-7));
    let mut area = vec![FILL; LENGTH + 5];
    assert_eq!(calls::copy(&record, &mut area), DONE);
    assert_eq!(area[..LENGTH], record);
    assert_eq!(area[LENGTH..], [FILL; 5]);
}

/// What recording, or returning with so many missed periods, leaves of an area
/// of this length.
fn lend(record: &[u8], missed: Option<u32>, length: usize) -> (u32, Vec<u8>) {
    let mut area = vec![FILL; length];
    let answer = match missed {
        None => calls::copy(record, &mut area),
        Some(missed) => calls::return_to(record, missed, &mut area),
    };
    (answer, area)
}

#[test]
fn recording_and_returning_refuse_by_15_then_5_then_16() {
    let record = made(1);
    let damaged = [&record[..7], &[1], &record[8..]].concat();
    let longer = [&record[..], &[0]].concat();
    let calls = [None, Some(0), Some(1), Some(10_001), Some(u32::MAX)];
    for missed in calls {
        for length in [0, 1, 615, 616, 700] {
            let kept = |answer: u32| (answer, vec![FILL; length]);
            for wrong in [&damaged[..], &record[..615], &longer, &[]] {
                assert_eq!(lend(wrong, missed, length), kept(15));
            }
            if length < LENGTH {
                assert_eq!(lend(&record, missed, length), kept(5));
            } else if missed > Some(10_000) {
                assert_eq!(lend(&record, missed, length), kept(16));
            } else {
                assert_eq!(lend(&record, missed, length).0, DONE);
            }
        }
    }
}

#[test]
fn returning_writes_the_record_of_the_replica_that_returns() {
    let (record, _) = call_done(&made(1), &tick_of(100));
    for missed in [0, 1, 2, 10_000] {
        let (answer, area) = lend(&record, Some(missed), LENGTH + 2);
        assert_eq!(answer, DONE);
        let returned = record::return_from(&record, missed).unwrap();
        assert_eq!(area[..LENGTH], recorded(&returned));
        assert_eq!(area[LENGTH..], [FILL; 2]);
        assert_eq!(returned.period, 1 + missed);
    }
    assert_eq!(lend(&record, Some(0), LENGTH), lend(&record, None, LENGTH));
    let mut last = record::read(&record).unwrap();
    last.period = u32::MAX;
    let last = recorded(&last);
    assert_eq!(lend(&last, Some(0), LENGTH), (DONE, last.clone()));
    let refused = (number(Refusal::Missed), vec![FILL; LENGTH]);
    assert_eq!(lend(&last, Some(1), LENGTH), refused);
}

// Histories.

impl Random {
    fn settings(&mut self) -> Settings {
        let mut settings = Settings {
            n: 1 + self.below(6) as u8,
            m: 1 + self.below(4) as u8,
            p: 1 + self.below(4) as u8,
            lower: [-5000; 4],
            upper: [5000; 4],
            start: std::array::from_fn(|_| self.below(2001) as i32 - 1000),
            ..Settings::default()
        };
        let mut gain = || self.below(65_537) as i32 - 32_768;
        settings.a.as_flattened_mut().fill_with(&mut gain);
        settings.l.as_flattened_mut().fill_with(&mut gain);
        settings.c.as_flattened_mut().fill_with(&mut gain);
        settings.k.as_flattened_mut().fill_with(&mut gain);
        settings
    }

    fn event(&mut self, m: u8, sent: &[Vec<u8>]) -> Event {
        match self.below(20) {
            0 | 1 => {
                // Mostly nothing at or above m.
                let most = if self.below(8) == 0 { 4 } else { m.into() };
                let kinds = std::array::from_fn(|j| match j < most {
                    true => self.below(4) as u8,
                    false => 0,
                });
                Event::Tick(kinds, std::array::from_fn(|_| self.bits()))
            }
            2 | 3 => Event::GiveUp,
            _ if sent.is_empty() => Event::GiveUp,
            _ => {
                let recent = sent.len().saturating_sub(6);
                let mut frame = sent[recent + self.below(sent.len() - recent)].clone();
                if self.below(20) == 0 {
                    let at = self.below(frame.len());
                    frame[at] ^= 1 << self.below(8);
                }
                Event::Arrive(frame)
            }
        }
    }

    /// Of a small count or of a single of some newtons.
    fn bits(&mut self) -> u32 {
        match self.below(2) {
            0 => (self.below(2001) as i32 - 1000) as u32,
            _ => (self.below(2001) as f32 / 65_536.0).to_bits(),
        }
    }

    /// Seldom too short.
    fn areas(&mut self) -> (usize, usize) {
        match self.below(50) {
            0 => (68, 24),
            1 => (69, 23),
            _ => (69 + self.below(3), 24 + self.below(3)),
        }
    }
}

/// The calls on records give what those on replicas give, and recording a
/// replica of any history and reading it gives that very replica.
#[test]
fn calls_on_records_are_those_on_replicas() {
    let mut random = Random::new();
    let mut answers = [0; 3];
    let mut bests = 0;
    for round in 0..600 {
        let boxes = 3 + (round % 7) as u8;
        let settings = random.settings();
        let pairs = pairs::allowed(boxes);
        let quorums = pairs[random.below(pairs.len())];
        let making = |own| Replica::new(boxes, own, quorums, settings).unwrap();
        let mut replicas: Vec<Replica> = (1..=boxes).map(making).collect();
        let mut records: Vec<Vec<u8>> = replicas.iter().map(recorded).collect();
        let mut sent: Vec<Vec<u8>> = Vec::new();
        for _ in 0..200 {
            let place = random.below(boxes.into());
            if random.below(30) == 0 {
                let missed = random.below(4) as u32;
                let (answer, record) = lend(&records[place], Some(missed), LENGTH);
                assert_eq!(answer, DONE);
                records[place] = record;
                for _ in 0..missed {
                    replicas[place] = step(replicas[place], &tick_missing(), ENOUGH).0;
                }
                continue;
            }
            let event = random.event(settings.m, &sent);
            let areas = random.areas();
            let left = call(&records[place], &event, areas);
            let (replica, expected) = step(replicas[place], &event, areas);
            assert_eq!(left, expected);
            assert_eq!(record::read(&left.record), Ok(replica));
            if left.lengths[0] > 0 {
                sent.push(left.frame[..left.lengths[0]].to_vec());
            }
            answers[match left.answer {
                DONE => 0,
                IGNORED => 1,
                _ => 2,
            }] += 1;
            bests += usize::from(replica.has_best);
            (replicas[place], records[place]) = (replica, left.record);
        }
    }
    assert!(answers.iter().all(|&count| count > 5_000), "{answers:?}");
    assert!(bests > 2_000, "{bests}");
}

// The planted faults.

const CASES: [Case; 5] = [
    ("ignored_recorded", || {
        call(&made(2), &Event::GiveUp, ENOUGH).record == made(2)
    }),
    ("areas_before_record", || {
        let steps = call(&[], &Event::GiveUp, (0, 0)).answer == 15;
        steps && lend(&[], None, 0).0 == 15 && lend(&[], Some(0), 0).0 == 15
    }),
    ("missed_before_area", || {
        lend(&made(2), Some(10_001), 615).0 == 5
    }),
    ("record_before_step", || {
        call(&made(2), &tick_missing(), ENOUGH).record != made(2)
    }),
    ("lengths_left", || {
        call(&made(2), &Event::GiveUp, ENOUGH).lengths == [0, 0]
    }),
];

#[test]
fn cases_hold() {
    planted::hold(&CASES);
}

#[test]
fn each_fault_breaks_its_case_alone() {
    planted::each_breaks_its_case_alone(&fault::CALL_NAMES, &CASES);
}
