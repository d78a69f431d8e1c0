//! Steps on replicas handed in, by the public calls alone, as a comparison
//! program takes them: every field may hold anything, and each comes back.

mod pairs;
mod planted;

use planted::Case;
use second::fault;
use second::frame::{self, Frame, ACK, COMMAND_AREA, DECIDE, ESTIMATE, FRAME_AREA, PROPOSE};
use second::law::{self, Readings, Settings};
use second::reading::{convert_row, Reading, Row};
use second::refusal::Refusal;
use second::replica::{coordinator, Answer, Areas, Estimate, Heard, Mode, Quorums, Replica, Step};
use second::replica::{HEARD_PLACES, MOST_BOXES};

const FILL: u8 = 0xAA;

/// Areas just long enough.
const ENOUGH: (usize, usize) = (FRAME_AREA, COMMAND_AREA);

enum Event {
    Tick(Row),
    GiveUp,
    Arrive(Vec<u8>),
}

/// All that a step gives back, with both areas whole.
struct Taken {
    replica: Replica,
    step: Step,
    frame: Vec<u8>,
    command: Vec<u8>,
}

fn take(replica: Replica, event: &Event, lengths: (usize, usize)) -> Taken {
    let (mut frame, mut command) = (vec![FILL; lengths.0], vec![FILL; lengths.1]);
    let areas = Areas {
        frame: &mut frame,
        command: &mut command,
    };
    let (replica, step) = match event {
        Event::Tick(row) => replica.tick(row, areas),
        Event::GiveUp => replica.give_up(areas),
        Event::Arrive(bytes) => replica.arrive(bytes, areas),
    };
    Taken {
        replica,
        step,
        frame,
        command,
    }
}

fn take_ok(replica: Replica, event: &Event) -> Taken {
    let taken = take(replica, event, ENOUGH);
    assert_eq!(taken.step.answer, Answer::Ok);
    taken
}

/// Box 2 of 4 in period 7 and view 5, whose coordinator it is. Wherever no
/// rule gives a field its meaning, it holds what no rule would put there.
fn handed_in() -> Replica {
    Replica {
        boxes: 4,
        own: 2,
        quorums: Quorums::majorities(4),
        settings: odd_settings(),
        period: 7,
        view: 5,
        base_view: 99,
        mode: Mode::Normal,
        decided: false,
        estimate: odd_estimate(),
        heard: [
            true, false, true, false, false, true, true, true, true, true,
        ],
        has_best: false,
        best: odd_best(),
    }
}

/// n 2, m 2, p 1; places beyond these hold what the ranges would refuse.
fn odd_settings() -> Settings {
    let mut settings = Settings {
        n: 2,
        m: 2,
        p: 1,
        a: [[i32::MAX; 6]; 6],
        l: [[i32::MAX; 4]; 6],
        c: [[i32::MAX; 6]; 4],
        k: [[i32::MAX; 6]; 4],
        lower: [i32::MIN, 1, 1, 1],
        upper: [i32::MAX, 0, 0, 0],
        start: [3, 4, 5, 6, 7, 8],
    };
    for i in 0..2 {
        settings.a[i][..2].fill(65_536);
        settings.l[i][..2].fill(32_768);
        settings.c[i][..2].fill(65_536);
        settings.k[i][..2].fill(65_536);
    }
    settings
}

/// Marks at and above m, a value under an absent mark, places beyond n and m,
/// a base period above the period.
fn odd_estimate() -> Estimate {
    Estimate {
        state: [10, 20, 30, 40, 50, 60],
        readings: Readings {
            marks: 0b1111_1101,
            values: [1, 2, 3, 4],
        },
        base_period: u32::MAX,
    }
}

/// A best estimate of a box that no group has.
fn odd_best() -> Heard {
    Heard {
        from: 255,
        base_view: u32::MAX,
        estimate: Estimate {
            state: [-1; 6],
            readings: Readings {
                marks: 0b1010_0000,
                values: [-1; 4],
            },
            base_period: 70,
        },
    }
}

fn places_of(numbers: &[usize]) -> [bool; HEARD_PLACES] {
    std::array::from_fn(|place| numbers.contains(&place))
}

fn bytes_of(frame: &Frame) -> Vec<u8> {
    let mut area = [0; FRAME_AREA];
    let length = frame::write(2, 2, frame, &mut area).unwrap();
    area[..length].to_vec()
}

/// A frame of period 7 with bases as they must be.
fn arriving(kind: u8, sender: u8, view: u32) -> Frame {
    let (base_view, base_period) = match kind {
        ACK => (0, 0),
        ESTIMATE => (0, 7),
        _ => (view, 7),
    };
    Frame {
        kind,
        sender,
        period: 7,
        view,
        base_view,
        base_period,
        state: [11, 12, 0, 0, 0, 0],
        readings: Readings::default(),
    }
}

fn arrival(kind: u8, sender: u8, view: u32) -> Event {
    Event::Arrive(bytes_of(&arriving(kind, sender, view)))
}

/// A tick with the counts 5, 6, 7 and 8, those without a mark missing.
fn tick_of(marks: u8) -> Event {
    Event::Tick(std::array::from_fn(|j| match marks >> j & 1 {
        0 => Reading::Missing,
        _ => Reading::Count(5 + j as i32),
    }))
}

// What comes back.

#[test]
fn refused_and_ignored_steps_give_back_what_was_handed_in() {
    let refused = |refusal| Answer::Refused(refusal);
    let cases = [
        (tick_of(0b100), ENOUGH, refused(Refusal::Marks)),
        (tick_of(0b1000), ENOUGH, refused(Refusal::Marks)),
        (tick_of(0), (68, 1000), refused(Refusal::Areas)),
        (tick_of(0), (1000, 23), refused(Refusal::Areas)),
        (Event::GiveUp, (0, 0), refused(Refusal::Areas)),
        (Event::GiveUp, (200, 200), Answer::Ignored),
        (Event::Arrive(vec![]), ENOUGH, refused(Refusal::Form)),
        (Event::Arrive(vec![1; 300]), ENOUGH, refused(Refusal::Form)),
        (arrival(ACK, 3, 9), ENOUGH, Answer::Ignored),
    ];
    for (event, lengths, answer) in cases {
        assert_silent(handed_in(), &take(handed_in(), &event, lengths), answer);
    }
}

fn assert_silent(before: Replica, taken: &Taken, answer: Answer) {
    let step = Step {
        answer,
        frame_length: 0,
        command_length: 0,
    };
    assert_eq!(taken.step, step);
    assert_eq!(taken.replica, before);
    assert!(taken.frame.iter().all(|&byte| byte == FILL));
    assert!(taken.command.iter().all(|&byte| byte == FILL));
}

#[test]
fn an_ack_changes_the_boxes_heard_and_at_the_ath_decided() {
    let first = take_ok(handed_in(), &arrival(ACK, 3, 5)).replica;
    let mut expected = handed_in();
    expected.heard[3] = true;
    assert_eq!(first, expected);
    let second = take_ok(first, &arrival(ACK, 4, 5));
    expected.heard[4] = true;
    expected.decided = true;
    assert_eq!(second.replica, expected);
    let sent = frame::read(2, 2, &second.frame[..second.step.frame_length]).unwrap();
    assert_eq!((sent.base_view, sent.base_period), (5, 7));
    assert_eq!(sent.state, [10, 20, 0, 0, 0, 0]);
    assert_eq!(
        (sent.readings.marks, sent.readings.values),
        (1, [1, 0, 0, 0])
    );
}

#[test]
fn raising_the_view_leaves_the_estimate_as_handed_in() {
    let mut before = handed_in();
    before.mode = Mode::ViewChange;
    before.has_best = true;
    let expected = Replica {
        view: 6,
        mode: Mode::Normal,
        heard: places_of(&[]),
        has_best: false,
        best: Heard::default(),
        ..before
    };
    assert_eq!(take_ok(before, &Event::GiveUp).replica, expected);

    // Now to the own view: the own estimate becomes the best as it stands.
    before.view = 4;
    let expected = Replica {
        view: 5,
        mode: Mode::ViewChange,
        heard: places_of(&[2]),
        has_best: true,
        best: Heard {
            from: 2,
            base_view: 99,
            estimate: odd_estimate(),
        },
        ..before
    };
    assert_eq!(take_ok(before, &Event::GiveUp).replica, expected);
}

#[test]
fn the_best_estimate_handed_in_is_taken_whole() {
    let mut before = handed_in();
    before.mode = Mode::ViewChange;
    before.heard[1] = true;
    before.has_best = true;
    let expected = Replica {
        base_view: 5,
        mode: Mode::Normal,
        estimate: Estimate {
            base_period: 7,
            ..odd_best().estimate
        },
        heard: places_of(&[2]),
        has_best: false,
        best: Heard::default(),
        ..before
    };
    let taken = take_ok(before, &arrival(ESTIMATE, 3, 5));
    assert_eq!(taken.replica, expected);
}

#[test]
fn a_best_estimate_stays_where_no_better_one_is_heard() {
    let mut before = handed_in();
    before.mode = Mode::ViewChange;
    before.has_best = true;
    let mut expected = before;
    expected.heard[3] = true;
    let taken = take_ok(before, &arrival(ESTIMATE, 3, 5));
    assert_eq!(taken.replica, expected);
    assert_eq!(taken.step.frame_length, 0);
}

#[test]
fn adopting_takes_the_frame_with_0_beyond_n_and_m() {
    let frame = arriving(PROPOSE, 3, 6);
    let adopted = Replica {
        view: 6,
        base_view: 6,
        estimate: Estimate {
            state: frame.state,
            readings: frame.readings,
            base_period: 7,
        },
        heard: places_of(&[]),
        best: Heard::default(),
        ..handed_in()
    };
    let taken = take_ok(handed_in(), &arrival(PROPOSE, 3, 6));
    assert_eq!(taken.replica, adopted);
    assert_eq!(
        (taken.step.frame_length, taken.step.command_length),
        (20, 0)
    );
    let taken = take_ok(handed_in(), &arrival(DECIDE, 3, 6));
    let decided = Replica {
        decided: true,
        ..adopted
    };
    assert_eq!(taken.replica, decided);
    assert_eq!(
        (taken.step.frame_length, taken.step.command_length),
        (0, 12)
    );
}

#[test]
fn a_tick_takes_the_readings_as_the_law_reads_them() {
    let mut before = handed_in();
    before.view = 6;
    let expected = Replica {
        period: 8,
        estimate: Estimate {
            // x1 + x2 is 30; of the readings, 1 counts: e(1) = 1 − 30, and
            // 30 with half of it is 15.5, a tie: the even one is 16.
            state: [16, 16, 0, 0, 0, 0],
            readings: Readings {
                marks: 0b10,
                values: [0, 6, 0, 0],
            },
            ..odd_estimate()
        },
        heard: places_of(&[]),
        best: Heard::default(),
        ..before
    };
    assert_eq!(take_ok(before, &tick_of(0b10)).replica, expected);

    // On the first tick the state stays, also beyond n.
    before.period = 0;
    let first = take_ok(before, &tick_of(0b10)).replica;
    assert_eq!(first.estimate.state, odd_estimate().state);
    assert_eq!(first.estimate.readings, expected.estimate.readings);
}

#[test]
fn making_starts_with_0_beyond_n() {
    let made = Replica::new(4, 2, Quorums::majorities(4), odd_settings()).unwrap();
    assert_eq!(made.settings, odd_settings());
    assert_eq!(made.estimate.state, [3, 4, 0, 0, 0, 0]);
    assert_eq!((made.heard, made.has_best), (places_of(&[]), false));
    assert_eq!(made.best, Heard::default());
}

// Anything handed in.

/// A small generator of numbers.
struct Random(u64);

impl Random {
    fn next(&mut self) -> u32 {
        self.0 ^= self.0 << 13;
        self.0 ^= self.0 >> 7;
        self.0 ^= self.0 << 17;
        (self.0 >> 24) as u32
    }

    fn below(&mut self, bound: u32) -> u32 {
        self.next() % bound
    }

    fn one_in(&mut self, bound: u32) -> bool {
        self.below(bound) == 0
    }

    fn byte(&mut self) -> u8 {
        self.next() as u8
    }

    /// Small or any.
    fn value(&mut self) -> i32 {
        if self.one_in(2) {
            return self.below(200) as i32 - 100;
        }
        self.next() as i32
    }

    /// A size from 1 to the most, seldom any.
    fn size(&mut self, most: u32) -> u8 {
        if self.one_in(100) {
            return self.byte();
        }
        1 + self.below(most) as u8
    }

    /// A period or view: mostly small, so that counters meet, or near its
    /// largest value, seldom any.
    fn counter(&mut self) -> u32 {
        match self.below(10) {
            0 => self.next(),
            1 => u32::MAX - self.below(3),
            _ => self.below(4),
        }
    }

    fn coefficient(&mut self) -> i32 {
        if self.one_in(2000) {
            return self.value();
        }
        self.below(33_554_433) as i32 - 16_777_216
    }

    fn settings(&mut self) -> Settings {
        let mut settings = Settings {
            n: self.size(6),
            m: self.size(4),
            p: self.size(4),
            start: self.state(),
            ..Settings::default()
        };
        for row in &mut settings.a {
            row.fill_with(|| self.coefficient());
        }
        for row in &mut settings.l {
            row.fill_with(|| self.coefficient());
        }
        for row in settings.c.iter_mut().chain(&mut settings.k) {
            row.fill_with(|| self.coefficient());
        }
        for j in 0..4 {
            let (one, other) = (self.value(), self.value());
            settings.lower[j] = one.min(other);
            settings.upper[j] = if self.one_in(100) {
                other
            } else {
                one.max(other)
            };
        }
        settings
    }

    fn state(&mut self) -> law::State {
        std::array::from_fn(|_| self.value())
    }

    fn readings(&mut self) -> Readings {
        Readings {
            marks: self.byte() & if self.one_in(4) { 0xFF } else { 0x0F },
            values: std::array::from_fn(|_| self.value()),
        }
    }

    /// A reading of any kind; one single in two is in i32's range or near it.
    fn reading(&mut self) -> Reading {
        match self.below(4) {
            0 => Reading::Missing,
            1 => Reading::Newtons(f32::from_bits(self.next())),
            2 => Reading::Newtons(self.next() as i32 as f32 / 65_000.0),
            _ => Reading::Count(self.value()),
        }
    }

    /// Seldom with anything at or above m that 7 may find.
    fn row(&mut self, m: u8) -> Row {
        let mut row: Row = std::array::from_fn(|_| self.reading());
        if !self.one_in(4) {
            let beyond = [Reading::Missing, Reading::Newtons(f32::NAN)];
            let places = row.iter_mut().skip(m.into());
            places.for_each(|place| *place = beyond[self.below(2) as usize]);
        }
        row
    }

    fn estimate(&mut self) -> Estimate {
        Estimate {
            state: self.state(),
            readings: self.readings(),
            base_period: self.counter(),
        }
    }

    fn boxes(&mut self) -> u8 {
        if self.one_in(100) {
            return self.byte();
        }
        3 + self.below(7) as u8
    }

    /// Any pair that 18 takes, seldom any numbers.
    fn quorums(&mut self, boxes: u8) -> Quorums {
        let pairs = pairs::allowed(boxes);
        if pairs.is_empty() || self.one_in(100) {
            return Quorums {
                to_decide: self.byte(),
                to_propose: self.byte(),
            };
        }
        pairs[self.below(pairs.len() as u32) as usize]
    }

    /// A view's coordinator or, once in so many, any box.
    fn coordinator_or_any(&mut self, boxes: u8, view: u32, bound: u32) -> u8 {
        if boxes == 0 || self.one_in(bound) {
            return self.size(boxes.max(1).into());
        }
        coordinator(boxes, view)
    }

    fn replica(&mut self) -> Replica {
        let boxes = self.boxes();
        let view = self.counter();
        Replica {
            boxes,
            own: self.coordinator_or_any(boxes, view, 2),
            quorums: self.quorums(boxes),
            settings: self.settings(),
            period: self.counter(),
            view,
            base_view: self.counter(),
            mode: if self.one_in(2) {
                Mode::Normal
            } else {
                Mode::ViewChange
            },
            decided: self.one_in(4),
            estimate: self.estimate(),
            heard: std::array::from_fn(|_| self.one_in(3)),
            has_best: self.one_in(2),
            best: Heard {
                from: self.byte() % if self.one_in(4) { 255 } else { 10 },
                base_view: self.counter(),
                estimate: self.estimate(),
            },
        }
    }

    fn event(&mut self, replica: &Replica) -> Event {
        match self.below(8) {
            0 | 1 => Event::Tick(self.row(replica.settings.m)),
            2 => Event::GiveUp,
            3 => {
                let length = self.below(80);
                Event::Arrive((0..length).map(|_| self.byte()).collect())
            }
            _ => Event::Arrive(self.frame(replica)),
        }
    }

    /// A frame that is mostly one for this replica, with a byte changed now
    /// and then.
    fn frame(&mut self, replica: &Replica) -> Vec<u8> {
        let kind = 1 + self.below(4) as u8;
        let mut period = replica.period;
        if self.one_in(8) {
            period = self.counter();
        }
        let mut view = replica.view;
        if self.one_in(2) {
            view = view.wrapping_add(self.below(10));
        }
        let any_in = match kind {
            PROPOSE | DECIDE => 8,
            _ => 1,
        };
        let (base_view, base_period) = self.bases(kind, period, view);
        let Settings { n, m, .. } = replica.settings;
        let frame = Frame {
            kind,
            sender: self.coordinator_or_any(replica.boxes, view, any_in),
            period,
            view,
            base_view,
            base_period,
            state: self.state(),
            readings: self.readings().as_read(m),
        };
        let mut area = [0; FRAME_AREA];
        let length = frame::write(n, m, &frame, &mut area).unwrap_or(FRAME_AREA);
        if self.one_in(8) {
            area[self.below(FRAME_AREA as u32) as usize] = self.byte();
        }
        area[..length].to_vec()
    }

    /// Base fields as they must be, or now and then any.
    fn bases(&mut self, kind: u8, period: u32, view: u32) -> (u32, u32) {
        match kind {
            _ if self.one_in(8) => (self.counter(), self.counter()),
            ACK => (0, 0),
            ESTIMATE => (self.counter() % view.max(1), self.counter().min(period)),
            _ => (view, period),
        }
    }

    /// Seldom too short, often longer than needed.
    fn length(&mut self, needed: usize) -> usize {
        if self.one_in(40) {
            return self.below(needed as u32) as usize;
        }
        needed + self.below(3) as usize
    }
}

#[test]
fn steps_on_anything_keep_what_no_rule_writes() {
    let mut random = Random(0x9E37_79B9_7F4A_7C15);
    // Steps that were ok, by ticks, give-ups and the kinds of frames.
    let mut done = [0; 6];
    for _ in 0..200_000 {
        let replica = random.replica();
        let event = random.event(&replica);
        let lengths = (random.length(FRAME_AREA), random.length(COMMAND_AREA));
        let taken = take(replica, &event, lengths);
        if taken.step.answer == Answer::Ok {
            assert_kept(&replica, &event, &taken);
            done[place_of(&event)] += 1;
        } else {
            assert_silent(replica, &taken, taken.step.answer);
        }
    }
    assert!(done.iter().all(|&count| count > 300), "{done:?}");
}

fn place_of(event: &Event) -> usize {
    match event {
        Event::Tick(_) => 0,
        Event::GiveUp => 1,
        Event::Arrive(bytes) => 1 + usize::from(bytes[0]),
    }
}

/// What every step that is ok keeps, and what it makes anew.
fn assert_kept(before: &Replica, event: &Event, taken: &Taken) {
    let after = &taken.replica;
    let of_settings = |replica: &Replica| {
        let group = (replica.boxes, replica.own, replica.quorums);
        (group, replica.settings)
    };
    assert_eq!(of_settings(after), of_settings(before));
    assert_sent(taken);

    let beyond = |replica: &Replica| {
        let above = &replica.heard[usize::from(replica.boxes) + 1..];
        [&replica.heard[..1], above].concat()
    };
    let emptied = !beyond(after).contains(&true);
    let empties = match event {
        Event::Arrive(bytes) => [PROPOSE, DECIDE].contains(&bytes[0]) || after.view > before.view,
        _ => true,
    };
    assert!(emptied || !empties && beyond(after) == beyond(before));
    assert!(!empties || after.has_best || after.best == Heard::default());

    match event {
        Event::Tick(row) => {
            assert_eq!(after.period, before.period + 1);
            // Nothing is dropped: what stands at or above m is missing.
            assert_eq!(after.estimate.readings, convert_row(row));
            let n = usize::from(before.settings.n);
            let updated = after.estimate.state[n..].iter().all(|&place| place == 0);
            assert!(updated || before.period == 0);
        }
        Event::GiveUp => assert_eq!(after.estimate, before.estimate),
        Event::Arrive(_) => assert_eq!(after.period, before.period),
    }
}

/// The frame can be read, and the bytes after it and after the command are
/// those that were there.
fn assert_sent(taken: &Taken) {
    let Settings { n, m, .. } = taken.replica.settings;
    let (frame, after_frame) = taken.frame.split_at(taken.step.frame_length);
    let (command, after_command) = taken.command.split_at(taken.step.command_length);
    assert!(frame.is_empty() || frame::read(n, m, frame).is_ok());
    assert_eq!(command.is_empty(), !taken.replica.decided);
    assert!(command.is_empty() || *command == command_of(&taken.replica));
    let mut after = after_frame.iter().chain(after_command);
    assert!(after.all(|&byte| byte == FILL));
}

/// The bytes of the command that a decision on the estimate issues.
fn command_of(replica: &Replica) -> Vec<u8> {
    let Replica {
        settings, estimate, ..
    } = replica;
    let updated = law::update(settings, &estimate.state, &estimate.readings).unwrap();
    let command = law::command(settings, &updated.state).unwrap();
    let mark = u8::from(updated.limited || command.limited);
    let values = &command.values[..settings.p.into()];
    let values: Vec<[u8; 4]> = values.iter().map(|value| value.to_le_bytes()).collect();
    let head = [5, settings.p, mark, 0];
    [&head, &replica.period.to_le_bytes(), values.as_flattened()].concat()
}

// The planted faults.

const CASES: [Case; 11] = [
    ("areas_before_settings", || {
        let mut replica = handed_in();
        replica.settings.upper[0] = i32::MIN;
        replica.settings.lower[0] = i32::MAX;
        refused_by(replica, &Event::GiveUp, (0, 0), Refusal::Limits)
    }),
    ("marks_before_period", || {
        let mut replica = handed_in();
        replica.period = u32::MAX;
        refused_by(replica, &tick_of(0b100), ENOUGH, Refusal::LastPeriod)
    }),
    ("view_before_marks", || {
        let mut replica = handed_in();
        replica.view = u32::MAX;
        replica.mode = Mode::ViewChange;
        refused_by(replica, &tick_of(0b100), ENOUGH, Refusal::Marks)
    }),
    ("coordinator_before_sender", || {
        let event = arrival(PROPOSE, 2, 6);
        refused_by(handed_in(), &event, ENOUGH, Refusal::Sender)
    }),
    ("bases_before_coordinator", || {
        let frame = Frame {
            base_view: 0,
            ..arriving(PROPOSE, 1, 6)
        };
        let event = Event::Arrive(bytes_of(&frame));
        refused_by(handed_in(), &event, ENOUGH, Refusal::Coordinator)
    }),
    ("ignoring_before_refusals", || {
        let mut replica = handed_in();
        replica.decided = true;
        refused_by(replica, &arrival(ACK, 255, 5), ENOUGH, Refusal::Sender)
    }),
    ("give_up_refused", || {
        let mut replica = handed_in();
        (replica.view, replica.period) = (u32::MAX, 0);
        take(replica, &Event::GiveUp, ENOUGH).step.answer == Answer::Ignored
    }),
    ("decide_acknowledged", || {
        take_ok(handed_in(), &arrival(DECIDE, 3, 6))
            .step
            .frame_length
            == 0
    }),
    ("proposer_not_counted", || {
        take_ok(handed_in(), &tick_of(0)).replica.heard == places_of(&[2])
    }),
    ("base_period_kept", || {
        let taken = take_ok(handed_in(), &arrival(PROPOSE, 3, 6));
        taken.replica.estimate.base_period == 7
    }),
    ("boxes_above_counted", || {
        !take_ok(handed_in(), &arrival(ACK, 3, 5)).replica.decided
    }),
];

fn refused_by(replica: Replica, event: &Event, lengths: (usize, usize), refusal: Refusal) -> bool {
    take(replica, event, lengths).step.answer == Answer::Refused(refusal)
}

#[test]
fn cases_hold() {
    planted::hold(&CASES);
}

#[test]
fn each_fault_breaks_its_case_alone() {
    planted::each_breaks_its_case_alone(&fault::STEP_NAMES, &CASES);
}

#[test]
fn every_box_of_the_largest_group_has_a_place() {
    let mut replica = handed_in();
    (replica.boxes, replica.own, replica.view) = (MOST_BOXES, MOST_BOXES, 8);
    replica.quorums = Quorums::majorities(MOST_BOXES);
    replica.heard = places_of(&[9]);
    for sender in 1..=4 {
        assert!(!replica.decided);
        replica = take_ok(replica, &arrival(ACK, sender, 8)).replica;
    }
    assert!(replica.decided);
    assert_eq!(replica.heard, places_of(&[1, 2, 3, 4, 9]));
}
