//! Document 02, L6: the calls of the boxes' C firmware on a replica with
//! tickets, an area of 752 bytes, and their faults.

mod pairs;
mod planted;
mod random;

use planted::Case;
use random::Random;
use second::calls::{self, DONE, IGNORED};
use second::fault;
use second::frame::{COMMAND_AREA, FRAME_AREA};
use second::record::{self, LENGTH};
use second::replica::{Areas, Mode, Quorums, Replica};
use second::script::bench_settings;
use second::ticket_calls;
use second::tickets;

const FILL: u8 = 0xAA;

/// Areas just long enough: record, frame and command.
const ENOUGH: [usize; 3] = [LENGTH, FRAME_AREA, COMMAND_AREA];

const LARGEST: u64 = 18_446_744_073_709_551_615;

#[derive(Clone)]
enum Event {
    Tick([u8; 4], [u32; 4]),
    GiveUp,
    Arrive(Vec<u8>),
}

fn tick_of(count: u32) -> Event {
    Event::Tick([1, 0, 0, 0], [count, 0, 0, 0])
}

/// Refused by 8 at any replica.
fn refused() -> Event {
    Event::Arrive(vec![])
}

/// All that a call leaves, with its areas whole.
#[derive(Clone, Debug, PartialEq, Eq)]
struct Left {
    answer: u32,
    /// The replica with tickets, or for a plain call its record.
    area: Vec<u8>,
    record: Vec<u8>,
    frame: Vec<u8>,
    command: Vec<u8>,
    lengths: [usize; 2],
    ticket: u64,
}

/// What a call that changes nothing leaves.
fn kept(area: &[u8], [record, frame, command]: [usize; 3], answer: u32, ticket: u64) -> Left {
    Left {
        answer,
        area: area.to_vec(),
        record: vec![FILL; record],
        frame: vec![FILL; frame],
        command: vec![FILL; command],
        lengths: [0, 0],
        ticket,
    }
}

/// Calls with fresh areas; lengths and ticket hold other numbers before.
fn call(
    area: &[u8],
    lent: [usize; 3],
    run: impl FnOnce(&mut [u8], &mut [u8], Areas, &mut [usize; 2], &mut u64) -> u32,
) -> Left {
    let mut left = kept(area, lent, 0, 777);
    left.lengths = [888, 999];
    let areas = Areas {
        frame: &mut left.frame,
        command: &mut left.command,
    };
    left.answer = run(
        &mut left.area,
        &mut left.record,
        areas,
        &mut left.lengths,
        &mut left.ticket,
    );
    left
}

fn ask_with(area: &[u8], event: &Event, lent: [usize; 3]) -> Left {
    call(area, lent, |area, record, areas, lengths, ticket| {
        use ticket_calls::{ask_arrive, ask_give_up, ask_tick};
        match event {
            Event::Tick(kinds, bits) => ask_tick(area, kinds, bits, record, areas, lengths, ticket),
            Event::GiveUp => ask_give_up(area, record, areas, lengths, ticket),
            Event::Arrive(bytes) => ask_arrive(area, bytes, record, areas, lengths, ticket),
        }
    })
}

fn ask(area: &[u8], event: &Event) -> Left {
    ask_with(area, event, ENOUGH)
}

/// A plain step at a replica with tickets.
fn step_with(area: &[u8], event: &Event, lent: [usize; 3]) -> Left {
    call(area, lent, |area, _, areas, lengths, _| match event {
        Event::Tick(kinds, bits) => ticket_calls::ticketed_tick(area, kinds, bits, areas, lengths),
        Event::GiveUp => ticket_calls::ticketed_give_up(area, areas, lengths),
        Event::Arrive(bytes) => ticket_calls::ticketed_arrive(area, bytes, areas, lengths),
    })
}

fn step(area: &[u8], event: &Event) -> Left {
    step_with(area, event, ENOUGH)
}

/// The same at its record alone.
fn plain_with(area: &[u8], event: &Event, lent: [usize; 3]) -> Left {
    let record = &area[..LENGTH];
    call(record, lent, |record, _, areas, lengths, _| match event {
        Event::Tick(kinds, bits) => calls::tick(record, kinds, bits, areas, lengths),
        Event::GiveUp => calls::give_up(record, areas, lengths),
        Event::Arrive(bytes) => calls::arrive(record, bytes, areas, lengths),
    })
}

fn commit(area: &[u8], ticket: u64) -> (u32, Vec<u8>) {
    let mut area = area.to_vec();
    let answer = ticket_calls::commit(&mut area, ticket);
    (answer, area)
}

fn made_record(own: u8) -> Vec<u8> {
    let mut record = vec![FILL; LENGTH];
    let quorums = Quorums::majorities(3);
    let answer = calls::make(3, own, quorums, bench_settings(), &mut record);
    assert_eq!(answer, DONE);
    record
}

/// Of a box of three with the bench's law, with no ticket given.
fn made(own: u8) -> Vec<u8> {
    with_tickets(&made_record(own))
}

fn with_tickets(record: &[u8]) -> Vec<u8> {
    let mut area = vec![FILL; tickets::LENGTH];
    assert_eq!(ticket_calls::tickets(record, &mut area), DONE);
    area
}

/// A copy with other bytes from a place on.
fn with(area: &[u8], at: usize, bytes: &[u8]) -> Vec<u8> {
    let mut area = area.to_vec();
    area[at..at + bytes.len()].copy_from_slice(bytes);
    area
}

fn with_latest(area: &[u8], ticket: u64) -> Vec<u8> {
    with(area, 624, &ticket.to_le_bytes())
}

// The layout.

#[test]
fn tickets_are_laid_down_behind_the_record() {
    let record = made_record(2);
    for length in [752, 753, 900] {
        let mut area = vec![FILL; length];
        assert_eq!(ticket_calls::tickets(&record, &mut area), DONE);
        assert_eq!(area[..616], record);
        assert_eq!(area[616..618], [84, 1]);
        assert_eq!(area[618..752], [0; 134]);
        assert!(area[752..].iter().all(|&byte| byte == FILL));
    }
    assert_eq!(tickets::LENGTH, 752);
}

#[test]
fn laying_down_refuses_by_15_then_5() {
    let record = made_record(2);
    let longer = [&record[..], &[0]].concat();
    let damaged = with(&record, 7, &[1]);
    for length in [0, 616, 751, 752] {
        let put = |record: &[u8]| {
            let mut area = vec![FILL; length];
            let answer = ticket_calls::tickets(record, &mut area);
            assert!(answer == DONE || area == vec![FILL; length]);
            answer
        };
        for wrong in [&record[..615], &longer, &damaged, &[]] {
            assert_eq!(put(wrong), 15);
        }
        assert_eq!(put(&record), if length < 752 { 5 } else { DONE });
    }
}

#[test]
fn a_worked_ask_and_commit() {
    let area = made(1);
    let asked = ask(&area, &tick_of(100));
    assert_eq!((asked.answer, asked.ticket), (DONE, 1));
    assert_eq!(asked.lengths, [37, 0]);
    assert_eq!(asked.command, [FILL; COMMAND_AREA]);
    let stepped = plain_with(&area, &tick_of(100), ENOUGH);
    assert_eq!(
        (&asked.record, &asked.frame),
        (&stepped.area, &stepped.frame)
    );
    // Bytes 0 to 615 stay.
    let tail = [
        &[84, 1, 1, 0, 0, 0, 0, 0][..],
        &[1, 0, 0, 0, 0, 0, 0, 0],
        &stepped.area[496..],
    ];
    assert_eq!(asked.area, [&area[..616], &tail.concat()].concat());
    let closed = with(&asked.area, 618, &[0]);
    let committed = with(&closed, 496, &asked.area[632..]);
    assert_eq!(commit(&asked.area, 1), (DONE, committed.clone()));
    assert_eq!(committed[..616], stepped.area);
    assert_eq!(commit(&committed, 1), (17, committed.clone()));
    // The ticket after it.
    let next = ask(&committed, &tick_of(1));
    assert_eq!((next.ticket, &next.area[624..626]), (2, &[2, 0][..]));
}

/// An area whose ticket 1 can be committed.
fn open() -> Vec<u8> {
    ask(&made(2), &tick_of(5)).area
}

/// Whether every call refuses this area by 15 and leaves everything, with the
/// lengths and the ticket given as 0.
fn is_refused(area: &[u8]) -> bool {
    let lent = [[616, 69, 24], [0, 0, 0]];
    let events = [tick_of(1), Event::GiveUp, refused()];
    let asks = lent.iter().all(|&lent| {
        let ask = |event| ask_with(area, event, lent) == kept(area, lent, 15, 0);
        let step = |event| step_with(area, event, lent) == kept(area, lent, 15, 777);
        events.iter().all(|event| ask(event) && step(event))
    });
    asks && [0, 1, LARGEST]
        .iter()
        .all(|&ticket| commit(area, ticket) == (15, area.to_vec()))
}

#[test]
fn what_is_not_of_the_layout_is_refused_by_15() {
    let areas = [
        made(2),
        open(),
        with_latest(&made(2), LARGEST),
        with_latest(&open(), LARGEST),
    ];
    for area in areas {
        assert!(!is_refused(&area));
        for at in [0, 1, 7, 512, 616, 617, 619, 620, 621, 622, 623] {
            for byte in (0..=u8::MAX).filter(|&byte| byte != area[at]) {
                // The other mode, and the other pairs of three boxes.
                let is_taken = match at {
                    7 => [0x22, 0x23, 0x32, 0x33].contains(&byte),
                    _ => at == 512 && byte == 1,
                };
                assert_eq!(is_refused(&with(&area, at, &[byte])), !is_taken, "{at}");
            }
        }
        for byte in 2..=u8::MAX {
            assert!(is_refused(&with(&area, 618, &[byte])));
        }
        for length in [0, 616, 751] {
            assert!(is_refused(&area[..length]));
        }
        assert!(is_refused(&[&area[..], &[0]].concat()));
    }
    assert!(is_refused(&with_latest(&open(), 0)));
    assert!(is_refused(&with(&made(2), 618, &[1])));
}

/// Bytes 632 to 751 are those of a record where byte 618 is 1, and "not looked
/// at where byte 618 is 0".
#[test]
fn what_the_step_leaves_is_looked_at_where_it_can_be_committed() {
    // Mode, decided, a box heard at place 0 and above N, marks, best.
    for at in [512, 513, 514, 518, 548, 565, 566, 599] {
        let wrong = with(&open(), at + 136, &[0xF0]);
        assert!(is_refused(&wrong), "{at}");
        assert!(!is_refused(&with(&wrong, 618, &[0])));
    }
    // Base view above the view, base period above the period.
    assert!(is_refused(&with(&open(), 640, &[1])));
    assert!(is_refused(&with(&open(), 644, &[2])));
    assert!(!is_refused(&with(&open(), 644, &[1])));
    let unread = with(&made(2), 632, &[FILL; 120]);
    assert!(!is_refused(&unread));
    // It stays where an ask is not ok, and gives way where it is.
    assert_eq!(ask(&unread, &refused()).area, with_latest(&unread, 1));
    assert_eq!(ask(&unread, &tick_of(5)).area, open());
    assert_eq!(step(&unread, &tick_of(5)).area[616..], unread[616..]);
}

// Asks, commits and steps.

/// Not ok: "byte 618 becomes 0; record, frame, command areas and all other
/// bytes hold what they held", but for the next ticket.
#[test]
fn an_ask_that_is_not_ok_leaves_all_but_the_ticket() {
    let mut last = record::read(&made_record(2)).unwrap();
    (last.period, last.view, last.mode) = (u32::MAX, u32::MAX, Mode::ViewChange);
    let mut record = vec![0; LENGTH];
    record::write(&last, &mut record).unwrap();
    let last = with_tickets(&record);
    let asks = [
        (&open(), Event::GiveUp, IGNORED),
        (&open(), refused(), 8),
        (&open(), Event::Tick([1; 4], [0; 4]), 7),
        (&last, tick_of(1), 6),
        (&last, Event::GiveUp, 12),
    ];
    for (area, event, answer) in asks {
        let next = u64::from(area[624]) + 1;
        let after = with_latest(&with(area, 618, &[0]), next);
        assert_eq!(ask(area, &event), kept(&after, ENOUGH, answer, next));
        // 5 before the event's own answer, and the ticket before 5.
        for lent in [[615, 69, 24], [616, 68, 24], [616, 69, 23], [0, 0, 0]] {
            let asked = ask_with(area, &event, lent);
            assert_eq!(asked, kept(&after, lent, 5, next));
        }
        for ticket in [0, 1, 2, LARGEST] {
            assert_eq!(commit(&after, ticket), (17, after.clone()));
        }
    }
}

/// "if the latest ticket is 18446744073709551615: the answer is ignored (256)
/// before any check, ticket 0, byte 618 becomes 0".
#[test]
fn an_ask_after_the_largest_is_ignored() {
    let before = with_latest(&open(), LARGEST - 1);
    let asked = ask(&before, &tick_of(9));
    assert_eq!((asked.answer, asked.ticket), (DONE, LARGEST));
    assert_eq!(commit(&asked.area, LARGEST).0, DONE);
    let after = with(&asked.area, 618, &[0]);
    for event in [tick_of(9), Event::GiveUp, refused()] {
        for lent in [ENOUGH, [0, 0, 0]] {
            for area in [&asked.area, &after] {
                let ignored = ask_with(area, &event, lent);
                assert_eq!(ignored, kept(&after, lent, IGNORED, 0));
            }
        }
    }
    for ticket in [0, LARGEST - 1, LARGEST] {
        assert_eq!(commit(&after, ticket), (17, after.clone()));
    }
}

#[test]
fn only_the_latest_ticket_is_committed() {
    let second = ask(&open(), &tick_of(6)).area;
    for (area, latest) in [(open(), 1), (second, 2)] {
        for ticket in [0, 1, 2, 3, 1 << 32, LARGEST] {
            let (answer, after) = commit(&area, ticket);
            assert_eq!(answer, if ticket == latest { DONE } else { 17 });
            assert!(answer == DONE || after == area);
        }
    }
    // All 64 bits count.
    let wide = with_latest(&open(), 0x0102_0304_0506_0708);
    assert_eq!(commit(&wide, 0x0102_0304_0506_0708).0, DONE);
    assert_eq!(commit(&wide, 0x0506_0708).0, 17);
}

/// "15, then as the plain step on bytes 0 to 615; where the answer is ok byte
/// 618 becomes 0; else the area holds what it held".
#[test]
fn a_plain_step_voids_the_ticket_where_it_is_ok() {
    let events = [
        tick_of(9),
        Event::GiveUp,
        refused(),
        Event::Tick([1; 4], [0; 4]),
    ];
    for event in events {
        for lent in [ENOUGH, [0, 68, 24], [0, 69, 23], [0, 69, 24]] {
            let plain = plain_with(&open(), &event, lent);
            let mut expected = plain.clone();
            expected.area = open();
            if plain.answer == DONE {
                expected.area = with(&with(&open(), 618, &[0]), 0, &plain.area);
            }
            assert_eq!(step_with(&open(), &event, lent), expected);
        }
    }
    let void = step(&open(), &tick_of(9)).area;
    assert_eq!(commit(&void, 1), (17, void.clone()));
    assert_eq!(ask(&void, &tick_of(9)).ticket, 2);
}

// Histories.

impl Random {
    fn event(&mut self, sent: &[Vec<u8>]) -> Event {
        match self.below(20) {
            0 | 1 => tick_of(self.below(2001) as u32),
            2 | 3 => Event::GiveUp,
            4 => Event::Tick([1; 4], [0; 4]),
            _ if sent.is_empty() => Event::GiveUp,
            _ => {
                let recent = sent.len().saturating_sub(6);
                Event::Arrive(sent[recent + self.below(sent.len() - recent)].clone())
            }
        }
    }
}

/// A replica with tickets and what is known of it.
struct Station {
    area: Vec<u8>,
    latest: u64,
    /// What the ask gave whose ticket can be committed.
    pending: Option<Left>,
}

impl Station {
    fn new(boxes: u8, own: u8, quorums: Quorums) -> Station {
        let replica = Replica::new(boxes, own, quorums, bench_settings()).unwrap();
        let mut record = vec![0; LENGTH];
        record::write(&replica, &mut record).unwrap();
        Station {
            area: with_tickets(&record),
            latest: 0,
            pending: None,
        }
    }

    /// A plain step, and the frame that it sends.
    fn step(&mut self, event: &Event) -> Option<Vec<u8>> {
        let plain = plain_with(&self.area, event, ENOUGH);
        let stepped = step(&self.area, event);
        assert_eq!(stepped.area[..LENGTH], plain.area);
        assert_eq!(stepped.answer, plain.answer);
        if plain.answer == DONE {
            self.pending = None;
        }
        self.area = stepped.area.clone();
        frame_of(&stepped)
    }

    fn ask(&mut self, event: &Event) {
        let mut plain = plain_with(&self.area, event, ENOUGH);
        let asked = ask(&self.area, event);
        self.latest += 1;
        assert_eq!(asked.area[..LENGTH], self.area[..LENGTH]);
        if plain.answer == DONE {
            plain.record = plain.area;
        }
        (plain.area, plain.ticket) = (asked.area.clone(), self.latest);
        assert_eq!(asked, plain);
        self.area = asked.area.clone();
        self.pending = (asked.answer == DONE).then_some(asked);
    }

    /// The ask that was committed.
    fn commit(&mut self, ticket: u64) -> Option<Left> {
        let (answer, after) = commit(&self.area, ticket);
        let taken = self.pending.take_if(|asked| asked.ticket == ticket);
        match &taken {
            Some(asked) => assert_eq!((answer, &after[..LENGTH]), (DONE, &asked.record[..])),
            None => assert_eq!((answer, &after), (17, &self.area)),
        }
        self.area = after;
        taken
    }
}

/// Every ask gives what the plain call on the record gives, and its commit
/// leaves that record; a ticket is taken exactly where it must be.
#[test]
fn asks_and_commits_are_the_plain_calls() {
    let mut random = Random::new();
    let mut commits = 0;
    for round in 0..250 {
        let boxes = 3 + round % 3;
        let pairs = pairs::allowed(boxes);
        let quorums = pairs[random.below(pairs.len())];
        let making = |own| Station::new(boxes, own, quorums);
        let mut stations: Vec<Station> = (1..=boxes).map(making).collect();
        let mut sent: Vec<Vec<u8>> = Vec::new();
        for _ in 0..200 {
            let station = &mut stations[random.below(boxes.into())];
            let event = random.event(&sent);
            match random.below(5) {
                0 => sent.extend(station.step(&event)),
                1 | 2 => station.ask(&event),
                _ => {
                    // Seldom the ticket before the latest.
                    let earlier = u64::from(random.below(6) == 0);
                    let taken = station.commit(station.latest.saturating_sub(earlier));
                    commits += usize::from(taken.is_some());
                    sent.extend(taken.as_ref().and_then(frame_of));
                }
            }
        }
    }
    assert!(commits > 1000, "{commits}");
}

fn frame_of(left: &Left) -> Option<Vec<u8>> {
    let frame = left.frame[..left.lengths[0]].to_vec();
    (!frame.is_empty()).then_some(frame)
}

// The planted faults.

/// What is left of an open ticket's area, and that ticket.
fn opened() -> (Vec<u8>, u64) {
    let asked = ask(&made(2), &tick_of(5));
    (asked.area, asked.ticket)
}

/// All faults of tickets but `void_taken`, which areas have no place for.
const CASES: [Case; 14] = [
    ("ask_steps", || open()[..LENGTH] == made_record(2)),
    ("ignored_committed", || {
        let asked = ask(&made(2), &refused());
        commit(&asked.area, asked.ticket).0 == 17
    }),
    ("committed_twice", || {
        let (area, ticket) = opened();
        commit(&commit(&area, ticket).1, ticket).0 == 17
    }),
    ("tickets_go_on", || made(2)[624] == 0),
    ("refused_step_voids", || {
        step(&open(), &refused()).area[618] == 1
    }),
    ("refused_ask_keeps", || {
        let asked = ask(&open(), &refused());
        commit(&asked.area, asked.ticket).1[..LENGTH] == open()[..LENGTH]
    }),
    ("step_keeps", || step(&open(), &tick_of(9)).area[618] == 0),
    ("unstepped_record", || {
        let asked = ask(&made(2), &tick_of(5));
        asked.record[496..] == asked.area[632..]
    }),
    ("latest_unread", || {
        let (area, ticket) = opened();
        commit(&area, ticket + 1).0 == 17
    }),
    ("largest_keeps", || {
        ask(&with_latest(&open(), LARGEST), &tick_of(9)).area[618] == 0
    }),
    ("short_record_taken", || {
        ask_with(&made(2), &tick_of(9), [615, 69, 24]).answer == 5
    }),
    ("ticket_layout_unread", || {
        (619..624).all(|at| is_refused(&with(&made(2), at, &[1])))
    }),
    ("open_zero_taken", || is_refused(&with_latest(&open(), 0))),
    ("pending_unread", || is_refused(&with(&open(), 648, &[2]))),
];

#[test]
fn cases_hold() {
    planted::hold(&CASES);
}

#[test]
fn each_fault_breaks_its_case_alone() {
    let names = [&fault::TICKET_NAMES[..], &fault::TICKET_CALL_NAMES].concat();
    let shown = |(name, _): &(&str, _)| *name != "void_taken";
    let names: Vec<_> = names.into_iter().filter(shown).collect();
    assert_eq!(names.len(), CASES.len());
    planted::each_breaks_its_case_alone(&names, &CASES);
}
