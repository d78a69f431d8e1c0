//! Document 02, L6, by value: events asked at a replica, tickets committed or
//! void, and the faults of both.

mod planted;

use planted::Case;
use second::fault;
use second::frame::{COMMAND_AREA, FRAME_AREA};
use second::reading::{Reading, Row};
use second::record::{self, LENGTH};
use second::refusal::Refusal;
use second::replica::{Answer, Areas, Mode, Quorums, Replica, Step};
use second::script::bench_settings;
use second::tickets::{Asked, Ticketed};

const FILL: u8 = 0xAA;

/// Areas just long enough: record, frame and command.
const ENOUGH: [usize; 3] = [LENGTH, FRAME_AREA, COMMAND_AREA];

#[derive(Clone, Debug)]
enum Event {
    Tick(i32),
    GiveUp,
    Arrive(Vec<u8>),
}

use Event::{Arrive, GiveUp, Tick};

/// Refused by 8 at any replica, in any mode and period.
fn refused() -> Event {
    Arrive(vec![])
}

fn row_of(count: i32) -> Row {
    let missing = Reading::Missing;
    [Reading::Count(count), missing, missing, missing]
}

fn happen(event: &Event, replica: Replica, areas: Areas) -> (Replica, Step) {
    match event {
        Tick(count) => replica.tick(&row_of(*count), areas),
        GiveUp => replica.give_up(areas),
        Arrive(bytes) => replica.arrive(bytes, areas),
    }
}

/// The areas lent, whole.
#[derive(Clone, Debug, PartialEq, Eq)]
struct Lent {
    record: Vec<u8>,
    frame: Vec<u8>,
    command: Vec<u8>,
}

fn lend([record, frame, command]: [usize; 3]) -> Lent {
    Lent {
        record: vec![FILL; record],
        frame: vec![FILL; frame],
        command: vec![FILL; command],
    }
}

fn ask_with(held: Ticketed, event: &Event, lengths: [usize; 3]) -> (Ticketed, Asked, Lent) {
    let mut lent = lend(lengths);
    let areas = Areas {
        frame: &mut lent.frame,
        command: &mut lent.command,
    };
    let happen = |replica: Replica, areas: Areas| happen(event, replica, areas);
    let (held, asked) = held.ask(&mut lent.record, areas, happen);
    (held, asked, lent)
}

fn ask(held: Ticketed, event: &Event) -> (Ticketed, Asked) {
    let (held, asked, _) = ask_with(held, event, ENOUGH);
    (held, asked)
}

fn step(held: Ticketed, event: &Event) -> (Ticketed, Step, Lent) {
    let mut lent = lend(ENOUGH);
    let areas = Areas {
        frame: &mut lent.frame,
        command: &mut lent.command,
    };
    let happen = |replica: Replica, areas: Areas| happen(event, replica, areas);
    let (held, step) = held.step(areas, happen);
    (held, step, lent)
}

fn commit(held: &Ticketed, ticket: u64) -> Result<Replica, Refusal> {
    let (after, done) = held.clone().commit(ticket);
    match done {
        Ok(()) => Ok(after.replica),
        Err(refusal) => {
            assert_eq!(after, *held);
            Err(refusal)
        }
    }
}

fn fresh(own: u8) -> Ticketed {
    let quorums = Quorums::majorities(3);
    Ticketed::new(Replica::new(3, own, quorums, bench_settings()).unwrap())
}

fn recorded(replica: &Replica) -> Vec<u8> {
    let mut record = vec![0; LENGTH];
    record::write(replica, &mut record).unwrap();
    record
}

fn open_ticket(held: &Ticketed) -> Option<u64> {
    held.tickets.open.map(|open| open.ticket)
}

/// "Asking an event yields the answer, record, frame and command it would
/// give, with a ticket, making no step; committing that ticket makes exactly
/// that step".
#[test]
fn an_ask_and_its_commit_are_the_step() {
    // Box 1's tick sends a Propose, box 2's Ack of it brings the command.
    let (one, _, proposed) = step(fresh(1), &Tick(100));
    let (two, ..) = step(fresh(2), &Tick(7));
    let propose = Arrive(proposed.frame[..37].to_vec());
    let (_, _, acknowledged) = step(two.clone(), &propose);
    let ack = Arrive(acknowledged.frame[..20].to_vec());
    let cases = [
        (fresh(1), Tick(100), [37, 0]),
        (fresh(2), Tick(100), [0, 0]),
        (two.clone(), propose, [20, 0]),
        (two, GiveUp, [0, 0]),
        (one, ack, [37, 12]),
    ];
    for (held, event, lengths) in cases {
        let before = held.replica;
        let (stepped, plain, mut lent) = step(held.clone(), &event);
        let (held, asked, given) = ask_with(held, &event, ENOUGH);
        lent.record = recorded(&stepped.replica);
        assert_eq!((asked.step, asked.ticket), (plain, 1));
        let written = [asked.step.frame_length, asked.step.command_length];
        assert_eq!((asked.step.answer, written), (Answer::Ok, lengths));
        assert_eq!((given, asked.left), (lent, stepped.replica));
        assert_eq!((held.replica, held.tickets.latest), (before, 1));
        assert_ne!(before, stepped.replica);
        assert_eq!(commit(&held, 1), Ok(stepped.replica));
    }
}

#[test]
fn areas_longer_than_needed_keep_what_stands_behind() {
    let (held, asked, lent) = ask_with(fresh(1), &Tick(100), [700, 80, 30]);
    assert_eq!(lent.record[..LENGTH], recorded(&asked.left));
    assert_eq!(lent.record[LENGTH..], [FILL; 84]);
    assert_eq!(lent.frame[37..], [FILL; 43]);
    assert_eq!(lent.command, [FILL; 30]);
    assert_eq!(open_ticket(&held), Some(1));
}

/// Changes: "Ignored and refused asks have a ticket too, and cannot be
/// committed"; "What the areas hold after an ask that is ignored or refused:
/// what they held, the record's too."
#[test]
fn every_ask_has_the_next_ticket() {
    let mut held = fresh(2);
    assert_eq!((held.tickets.latest, open_ticket(&held)), (0, None));
    assert_eq!(commit(&held, 0), Err(Refusal::Ticket));
    let refusal = Answer::Refused(Refusal::Form);
    let asks = [
        (GiveUp, Answer::Ignored),
        (Tick(3), Answer::Ok),
        (refused(), refusal),
        (Tick(4), Answer::Ok),
        (Tick(5), Answer::Ok),
        (GiveUp, Answer::Ignored),
    ];
    for (ticket, (event, answer)) in (1..).zip(asks) {
        let (after, asked, lent) = ask_with(held, &event, ENOUGH);
        assert_eq!((asked.step.answer, asked.ticket), (answer, ticket));
        let is_ok = answer == Answer::Ok;
        assert_eq!(after.tickets.latest, ticket);
        assert_eq!(open_ticket(&after), is_ok.then_some(ticket));
        if !is_ok {
            assert_eq!((lent, asked.left), (lend(ENOUGH), after.replica));
        }
        for other in [0, 1, 2, 3, 4, 5, 6, 7, u64::MAX] {
            let taken = commit(&after, other).is_ok();
            assert_eq!(taken, is_ok && other == ticket);
        }
        held = after;
    }
}

/// "17 ticket not the latest ask's, void or committed": one that is refused
/// leaves the right one open.
#[test]
fn a_ticket_is_committed_once() {
    let (held, asked) = ask(fresh(2), &Tick(3));
    let (held, done) = held.commit(2);
    assert_eq!(done, Err(Refusal::Ticket));
    let (held, done) = held.commit(1);
    assert_eq!((done, held.replica), (Ok(()), asked.left));
    assert_eq!((held.tickets.latest, open_ticket(&held)), (1, None));
    assert_eq!(commit(&held, 1), Err(Refusal::Ticket));
    let (held, asked) = ask(held, &Tick(3));
    assert_eq!((asked.ticket, asked.left.period), (2, 2));
    assert_eq!(commit(&held, 1), Err(Refusal::Ticket));
    assert_eq!(commit(&held, 2), Ok(asked.left));
}

/// "or a step made, voids the earlier ticket"; changes: "a step whose answer
/// is ok".
#[test]
fn a_step_made_voids_the_ticket() {
    let (held, asked) = ask(fresh(2), &Tick(3));
    for event in [GiveUp, refused()] {
        let (after, step, _) = step(held.clone(), &event);
        assert_ne!(step.answer, Answer::Ok);
        assert_eq!(after, held);
        assert_eq!(commit(&after, 1), Ok(asked.left));
    }
    let (after, step, _) = step(held, &Tick(9));
    assert_eq!(step.answer, Answer::Ok);
    assert_eq!((after.tickets.latest, open_ticket(&after)), (1, None));
    assert_eq!(commit(&after, 1), Err(Refusal::Ticket));
    assert_eq!(ask(after, &Tick(1)).1.ticket, 2);
}

/// "count from 1 after each making or return"
#[test]
fn tickets_count_from_1_after_a_return() {
    let (held, _) = ask(fresh(2), &Tick(3));
    let (held, asked) = ask(held, &Tick(4));
    let returned = held.returned_as(asked.left);
    assert_eq!(returned, Ticketed::new(asked.left));
    assert_eq!(commit(&returned, 2), Err(Refusal::Ticket));
    assert_eq!(ask(returned, &Tick(1)).1.ticket, 1);
}

/// "an ask after the largest is ignored before any check, with ticket 0".
/// Changes: "it is a new ask, so it voids the earlier ticket".
#[test]
fn an_ask_after_the_largest_is_ignored() {
    let mut held = fresh(2);
    held.tickets.latest = u64::MAX - 1;
    let (mut held, asked) = ask(held, &Tick(3));
    assert_eq!(asked.ticket, u64::MAX);
    assert_eq!(commit(&held, u64::MAX), Ok(asked.left));
    // Settings that 1 refuses, and areas that 5 does.
    for (boxes, lengths) in [(3, ENOUGH), (2, ENOUGH), (3, [0; 3])] {
        held.replica.boxes = boxes;
        for event in [Tick(3), GiveUp, refused()] {
            let (after, asked, lent) = ask_with(held.clone(), &event, lengths);
            let ignored = Step {
                answer: Answer::Ignored,
                frame_length: 0,
                command_length: 0,
            };
            assert_eq!((asked.step, asked.ticket), (ignored, 0));
            assert_eq!((lent, asked.left), (lend(lengths), held.replica));
            assert_eq!(after.replica, held.replica);
            assert_eq!(
                (after.tickets.latest, open_ticket(&after)),
                (u64::MAX, None)
            );
            for ticket in [0, 1, u64::MAX] {
                assert_eq!(commit(&after, ticket), Err(Refusal::Ticket));
            }
        }
    }
}

/// Settings first, "5 also for a record area too short", then the event.
#[test]
fn an_ask_refuses_by_settings_then_areas_then_the_event() {
    let mut last = fresh(2);
    (last.replica.period, last.replica.view) = (u32::MAX, u32::MAX);
    last.replica.mode = Mode::ViewChange;
    let mut unfit = last.clone();
    unfit.replica.settings.n = 7;
    let short = [[615, 69, 24], [616, 68, 24], [616, 69, 23], [0, 0, 0]];
    for (event, number) in [(Tick(1), 6), (GiveUp, 12), (refused(), 8)] {
        let answer = |held: &Ticketed, lengths: [usize; 3]| {
            let (after, asked, lent) = ask_with(held.clone(), &event, lengths);
            assert_eq!((lent, after.replica), (lend(lengths), held.replica));
            assert_eq!((asked.ticket, open_ticket(&after)), (1, None));
            match asked.step.answer {
                Answer::Refused(refusal) => refusal.number(),
                other => panic!("{other:?}"),
            }
        };
        assert_eq!(answer(&last, ENOUGH), number);
        assert_eq!(answer(&unfit, ENOUGH), 2);
        for lengths in short {
            assert_eq!(answer(&last, lengths), 5);
            assert_eq!(answer(&unfit, lengths), 2);
        }
    }
    assert_eq!(Refusal::Ticket.number(), 17);
}

// The planted faults.

/// A replica that was asked these events, one after the other.
fn asked(events: &[Event]) -> Ticketed {
    let ask_next = |held, event| ask(held, event).0;
    events.iter().fold(fresh(2), ask_next)
}

const CASES: [Case; 10] = [
    ("ask_steps", || {
        asked(&[Tick(1)]).replica == fresh(2).replica
    }),
    ("ignored_committed", || {
        let of = |event| commit(&asked(&[event]), 1);
        of(GiveUp).is_err() && of(refused()).is_err()
    }),
    ("void_taken", || {
        let (held, done) = asked(&[Tick(1), Tick(2)]).commit(2);
        done.is_ok() && commit(&held, 1).is_err()
    }),
    ("committed_twice", || {
        let (held, done) = asked(&[Tick(1)]).commit(1);
        done.is_ok() && commit(&held, 1).is_err()
    }),
    ("tickets_go_on", || {
        let returned = asked(&[Tick(1)]).returned_as(fresh(2).replica);
        ask(returned, &Tick(1)).1.ticket == 1
    }),
    ("refused_step_voids", || {
        let (held, ..) = step(asked(&[Tick(1)]), &refused());
        commit(&held, 1).is_ok()
    }),
    ("refused_ask_keeps", || {
        open_ticket(&asked(&[Tick(1), refused()])) != Some(1)
    }),
    ("step_keeps", || {
        let (held, ..) = step(asked(&[Tick(1)]), &Tick(2));
        open_ticket(&held).is_none()
    }),
    ("unstepped_record", || {
        let (_, asked, lent) = ask_with(fresh(2), &Tick(1), ENOUGH);
        lent.record == recorded(&asked.left)
    }),
    ("latest_unread", || {
        let held = asked(&[Tick(1)]);
        commit(&held, 0).is_err() && commit(&held, 2).is_err()
    }),
];

#[test]
fn cases_hold() {
    planted::hold(&CASES);
}

#[test]
fn each_fault_breaks_its_case_alone() {
    planted::each_breaks_its_case_alone(&fault::TICKET_NAMES, &CASES);
}
