//! What is counted of compared steps. This only counts: nothing is compared
//! with it.

use std::ops::Range;

use second::frame::{self, Frame, ACK, DECIDE, ESTIMATE, PROPOSE};
use second::replica::{coordinator, Quorums};
use steps::Held;

use crate::damage::Damage;
use crate::events::Event;
use crate::handed_in::Fit;
use crate::handed_readings::{Handed, COUNT, SINGLE};
use crate::quorums::are_allowed;
use crate::steps::{Call, Left, ENOUGH};

pub type StepTest = fn(&Call, &Left) -> bool;

/// What steps that were done came to.
pub const DONE: [(&str, StepTest); 13] = [
    ("ticks: first", |call, _| is_tick(call) && period(call) == 0),
    ("ticks: proposed", |call, left| {
        is_tick(call) && sent(left) == PROPOSE
    }),
    ("ticks: view raised, Estimate sent", |call, left| {
        is_tick(call) && sent(left) == ESTIMATE
    }),
    ("ticks: view raised, waits", |call, left| {
        is_tick(call) && raised(call, left) && sent(left) == 0
    }),
    ("give-ups: Estimate sent", |call, left| {
        is_give_up(call) && sent(left) == ESTIMATE
    }),
    ("give-ups: waits", |call, left| {
        is_give_up(call) && sent(left) == 0
    }),
    ("Propose adopted", |call, _| arrived(call) == PROPOSE),
    ("Ack entered, fewer than a", |call, left| {
        arrived(call) == ACK && sent(left) == 0
    }),
    ("Ack: decided", |call, left| {
        arrived(call) == ACK && sent(left) == DECIDE
    }),
    ("Decide: decided", |call, _| arrived(call) == DECIDE),
    ("Estimate entered, fewer than b", |call, left| {
        arrived(call) == ESTIMATE && sent(left) == 0
    }),
    ("Estimate: its own taken over", |call, left| {
        took_over(call, left) && is_arriving(call, &left.held)
    }),
    ("Estimate: another taken over", |call, left| {
        took_over(call, left) && !is_arriving(call, &left.held)
    }),
];

/// What ticks came to by the kinds of their readings.
pub const READINGS: [(&str, StepTest); 7] = [
    ("done, a count taken", |call, left| {
        is_done(left) && below(call).any(|reading| reading.kind == COUNT)
    }),
    ("done, a single taken", |call, left| {
        is_done(left) && below(call).any(Handed::is_present_single)
    }),
    ("done, a single counts as missing", |call, left| {
        is_done(left) && below(call).any(Handed::is_missing_single)
    }),
    ("done, the same at or above m", |call, left| {
        is_done(left) && beyond(call).any(Handed::is_missing_single)
    }),
    ("done, a kind of no meaning", |call, left| {
        is_done(left) && below(call).any(|reading| reading.kind > SINGLE)
    }),
    ("refused by 7 for counts alone", |call, left| {
        left.answer == 7 && !beyond(call).any(Handed::is_present_single)
    }),
    ("refused by 7 for singles alone", |call, left| {
        left.answer == 7 && !beyond(call).any(|reading| reading.kind == COUNT)
    }),
];

pub type CallTest = fn(&Call) -> bool;

/// Grounds for ignoring; an event may have several.
pub const GROUNDS: [(&str, CallTest); 10] = [
    ("period 0", |call| period(call) == 0),
    ("decided", |call| held(call).marks[1] != 0),
    ("another period", |call| {
        arriving(call).is_some_and(|frame| frame.period != period(call))
    }),
    ("a lower view", |call| {
        arriving(call).is_some_and(|frame| frame.view < view(call))
    }),
    ("an Ack of a higher view", |call| {
        arriving(call).is_some_and(|frame| frame.kind == ACK && frame.view > view(call))
    }),
    ("an Ack in view-change mode", |call| {
        arrived(call) == ACK && !is_normal(call)
    }),
    ("an Estimate at the own view, normal", |call| {
        is_normal(call) && arriving(call).is_some_and(|frame| is_estimate_here(call, &frame))
    }),
    ("a second Ack", |call| {
        arriving(call).is_some_and(|frame| frame.kind == ACK && has_heard(call, frame.sender))
    }),
    ("a second Estimate", |call| {
        arriving(call)
            .is_some_and(|frame| is_estimate_here(call, &frame) && has_heard(call, frame.sender))
    }),
    ("a give-up by a normal coordinator", |call| {
        let Fit { boxes, own, .. } = call.handed_in.fit;
        is_give_up(call) && is_normal(call) && coordinator(boxes, view(call)) == own
    }),
];

/// Refusals of settings that come before another: 18 after 4 and before 5.
pub const ORDERS: [(&str, StepTest); 5] = [
    ("1, and a pair for 18", |call, left| {
        left.answer == 1 && !has_allowed_pair(call)
    }),
    ("2, and a pair for 18", |call, left| {
        left.answer == 2 && !has_allowed_pair(call)
    }),
    ("3, and a pair for 18", |call, left| {
        left.answer == 3 && !has_allowed_pair(call)
    }),
    ("4, and a pair for 18", |call, left| {
        left.answer == 4 && !has_allowed_pair(call)
    }),
    ("18, and an area too short", |call, left| {
        left.answer == 18 && (0..2).any(|area| call.lent[area] < ENOUGH[area])
    }),
];

/// What replicas, areas and frames are handed in with.
pub const ODD: [(&str, CallTest); 20] = [
    ("period 0", |call| period(call) == 0),
    ("period 4,294,967,295", |call| period(call) == u32::MAX),
    ("view 0", |call| view(call) == 0),
    ("view 4,294,967,295", |call| view(call) == u32::MAX),
    ("view-change mode", |call| held(call).marks[0] != 0),
    ("decided", |call| held(call).marks[1] != 0),
    ("base view above the view", |call| {
        held(call).counters[2] > view(call)
    }),
    ("base period above the period", |call| {
        held(call).counters[3] > period(call)
    }),
    ("boxes heard above N", |call| {
        let boxes = usize::from(call.handed_in.fit.boxes);
        held(call).heard[boxes + 1..].iter().any(|&mark| mark != 0)
    }),
    ("box 0 heard", |call| held(call).heard[0] != 0),
    ("best of no box of the group", |call| {
        has_best(call) && !(1..=call.handed_in.fit.boxes).contains(&held(call).marks[3])
    }),
    ("best with bases above the counters", |call| {
        let counters = held(call).counters;
        has_best(call) && (counters[4] > view(call) || counters[5] > period(call))
    }),
    ("values where there is no best", |call| !has_best(call)),
    ("marks at or above m", |call| {
        let m = call.handed_in.fit.m;
        held(call).present[m..].iter().any(|&mark| mark != 0)
    }),
    ("values under absent marks", |call| {
        let (present, values) = (held(call).present, held(call).values);
        (0..4).any(|j| present[j] == 0 && values[j] != 0)
    }),
    ("values beyond n", |call| {
        let n = call.handed_in.fit.n;
        held(call).state[n..].iter().any(|&value| value != 0)
    }),
    (
        "damaged frames",
        |call| matches!(call.event, Event::Arrive { damage, .. } if damage != Damage::None),
    ),
    ("a or b of 1, a + b above N", |call| {
        numbers(call).contains(&1) && sum(call) > call.handed_in.boxes.into()
    }),
    ("a or b above N", |call| {
        numbers(call).iter().any(|&a| a > call.handed_in.boxes)
    }),
    ("a + b of N, neither below 2", |call| {
        numbers(call).iter().all(|&a| a >= 2) && sum(call) == call.handed_in.boxes.into()
    }),
];

fn held(call: &Call) -> &Held {
    &call.handed_in.held
}

fn period(call: &Call) -> u32 {
    held(call).counters[0]
}

fn view(call: &Call) -> u32 {
    held(call).counters[1]
}

fn has_best(call: &Call) -> bool {
    held(call).marks[2] != 0
}

/// a and b.
fn numbers(call: &Call) -> [u8; 2] {
    let Quorums {
        to_decide,
        to_propose,
    } = call.handed_in.quorums;
    [to_decide, to_propose]
}

fn sum(call: &Call) -> u16 {
    numbers(call).map(u16::from).iter().sum()
}

fn has_allowed_pair(call: &Call) -> bool {
    are_allowed(call.handed_in.boxes, call.handed_in.quorums)
}

fn is_done(left: &Left) -> bool {
    left.answer == 0
}

/// What a tick was handed, at the places from one to another; nothing for
/// other events.
fn handed(call: &Call, places: Range<usize>) -> impl Iterator<Item = Handed> + '_ {
    let readings = match &call.event {
        Event::Tick { readings } => &readings[places],
        _ => &[],
    };
    readings.iter().copied()
}

fn below(call: &Call) -> impl Iterator<Item = Handed> + '_ {
    handed(call, 0..call.handed_in.fit.m)
}

fn beyond(call: &Call) -> impl Iterator<Item = Handed> + '_ {
    handed(call, call.handed_in.fit.m..4)
}

fn is_tick(call: &Call) -> bool {
    matches!(call.event, Event::Tick { .. })
}

fn is_give_up(call: &Call) -> bool {
    matches!(call.event, Event::GiveUp)
}

/// The kind of the frame that arrived; 0 where none did.
pub fn arrived(call: &Call) -> u8 {
    match &call.event {
        Event::Arrive { bytes, .. } => bytes.first().copied().unwrap_or(0),
        _ => 0,
    }
}

/// The kind of the frame sent; 0 where none was.
pub fn sent(left: &Left) -> u8 {
    match left.lengths[0] {
        0 => 0,
        _ => left.frame[0],
    }
}

fn raised(call: &Call, left: &Left) -> bool {
    left.held.counters[1] > view(call)
}

fn took_over(call: &Call, left: &Left) -> bool {
    arrived(call) == ESTIMATE && sent(left) == PROPOSE
}

/// The frame that arrived.
fn arriving(call: &Call) -> Option<Frame> {
    let Event::Arrive { bytes, .. } = &call.event else {
        return None;
    };
    let Fit { n, m, .. } = call.handed_in.fit;
    frame::read(n as u8, m as u8, bytes).ok()
}

/// Whether the state held is that of the frame that arrived.
fn is_arriving(call: &Call, held: &Held) -> bool {
    arriving(call).is_some_and(|frame| frame.state == held.state)
}

fn is_normal(call: &Call) -> bool {
    held(call).marks[0] == 0
}

fn is_estimate_here(call: &Call, frame: &Frame) -> bool {
    frame.kind == ESTIMATE && frame.view == view(call)
}

fn has_heard(call: &Call, box_number: u8) -> bool {
    held(call).heard[usize::from(box_number)] != 0
}
