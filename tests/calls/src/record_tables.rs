//! What is counted of calls on records. This only counts: nothing is compared
//! with it.

use second::frame::{ACK, DECIDE, ESTIMATE, PROPOSE};
use second::replica::coordinator;
use winder::{MISSED_MAX, RECORD};

use crate::handed_readings::{Handed, COUNT, SINGLE};
use crate::quorums::are_allowed;
use crate::record_calls::{Asked, Call, Left, ENOUGH};
use crate::record_layout::*;

pub type RecordTest = fn(&[u8]) -> bool;

/// Of whole records handed in.
pub const HANDED: [(&str, RecordTest); 16] = [
    ("period 0", |record| number(record, PERIOD) == 0),
    ("normal mode", |record| record[MODE] == 0),
    ("view-change mode", |record| record[MODE] == 1),
    ("decided", |record| record[DECIDED] == 1),
    ("coordinator of its view", |record| {
        coordinator(record[BOXES], number(record, VIEW)) == record[OWN]
    }),
    ("view 0", |record| number(record, VIEW) == 0),
    ("base view below a view above 0", |record| {
        number(record, BASE_VIEW) < number(record, VIEW)
    }),
    ("base period below the period", |record| {
        number(record, BASE_PERIOD) < number(record, PERIOD)
    }),
    ("no box heard", |record| heard(record) == 0),
    ("one box heard", |record| heard(record) == 1),
    ("two boxes heard or more", |record| heard(record) >= 2),
    ("all readings absent", |record| record[HELD.marks] == 0),
    ("a best estimate, the own", |record| {
        record[BEST] == 1 && record[BEST_BOX] == record[OWN]
    }),
    ("a best estimate, another's", |record| {
        record[BEST] == 1 && record[BEST_BOX] != record[OWN]
    }),
    ("period near its largest", |record| {
        number(record, PERIOD) > 1 << 31
    }),
    ("view near its largest", |record| {
        number(record, VIEW) > 1 << 31
    }),
];

pub type CallTest = fn(&Call, &Left) -> bool;

/// What calls came to that were done.
pub const DONE: [(&str, CallTest); 21] = [
    ("ticks: proposed", |call, left| {
        is_tick(call) && sent(left) == PROPOSE
    }),
    ("ticks: view raised", |call, left| {
        is_tick(call) && raised(call, left)
    }),
    ("ticks: a count taken", |call, _| {
        below(call).any(|reading| reading.kind == COUNT)
    }),
    ("ticks: a single taken", |call, _| {
        below(call).any(Handed::is_present_single)
    }),
    ("ticks: a single counts as missing", |call, _| {
        below(call).any(Handed::is_missing_single)
    }),
    ("ticks: a kind of no meaning", |call, _| {
        below(call).any(|reading| reading.kind > SINGLE)
    }),
    ("give-ups: Estimate sent", |call, left| {
        matches!(call.asked, Asked::GiveUp) && sent(left) == ESTIMATE
    }),
    ("give-ups: waits", |call, left| {
        matches!(call.asked, Asked::GiveUp) && sent(left) == 0
    }),
    ("Propose adopted", |call, _| arrived(call) == PROPOSE),
    ("Ack entered, fewer than a", |call, left| {
        arrived(call) == ACK && sent(left) == 0
    }),
    ("Ack: decided", |call, left| {
        arrived(call) == ACK && sent(left) == DECIDE
    }),
    ("Decide: decided", |call, left| {
        arrived(call) == DECIDE && left.lengths[1] > 0
    }),
    ("Estimate entered, fewer than b", |call, left| {
        arrived(call) == ESTIMATE && sent(left) == 0
    }),
    ("Estimate: the best held taken over", |call, left| {
        took_over(call, left) && has_state_of(call, left, HEARD_BEST)
    }),
    ("Estimate: the arriving taken over", |call, left| {
        took_over(call, left) && !has_state_of(call, left, HEARD_BEST)
    }),
    ("returned: none missed", |call, _| missed(call) == Some(0)),
    ("returned: few missed", |call, _| {
        missed(call).is_some_and(|missed| (1..100).contains(&missed))
    }),
    ("returned: 10,000 missed", |call, _| {
        missed(call) == Some(MISSED_MAX)
    }),
    ("returned: in a higher view", |call, left| {
        missed(call).is_some() && raised(call, left)
    }),
    ("returned: proposed meanwhile", |call, left| {
        let base = |record| number(record, BASE_PERIOD);
        missed(call).is_some() && base(left.given(&call.asked)) > base(&call.record)
    }),
    ("returned: to period 4,294,967,295", |call, left| {
        let period = |record| number(record, PERIOD);
        missed(call) > Some(0) && period(left.given(&call.asked)) == u32::MAX
    }),
];

/// Refused although something else is wrong too, and areas at their edges.
pub const GROUNDS: [(&str, CallTest); 9] = [
    ("1 to 4, and an area too short", |call, left| {
        (1..=4).contains(&left.answer) && is_short(call)
    }),
    ("1 to 4, and a pair for 18", |call, left| {
        (1..=4).contains(&left.answer) && makes_refused_pair(call)
    }),
    ("18, and an area too short", |call, left| {
        left.answer == 18 && is_short(call)
    }),
    ("15, and an area too short", |call, left| {
        left.answer == 15 && is_short(call)
    }),
    ("15, and too many missed", |call, left| {
        left.answer == 15 && missed(call) > Some(MISSED_MAX)
    }),
    ("5, and too many missed", |call, left| {
        left.answer == 5 && missed(call) > Some(MISSED_MAX)
    }),
    ("5, an area of no byte", |call, left| {
        left.answer == 5 && lent(call).any(|(length, _)| length == 0)
    }),
    ("5, an area one byte too short", |call, left| {
        left.answer == 5 && lent(call).all(|(length, enough)| length + 1 >= enough)
    }),
    ("done, areas just long enough", |call, left| {
        left.answer == 0 && lent(call).all(|(length, enough)| length == enough)
    }),
];

fn heard(record: &[u8]) -> usize {
    let places = &record[HEARD..HEARD + HEARD_PLACES];
    places.iter().map(|&mark| usize::from(mark)).sum()
}

/// The areas that the call is lent: their lengths, and what is enough.
fn lent(call: &Call) -> impl Iterator<Item = (usize, usize)> {
    let of_step = [
        (call.lent.frame, ENOUGH.frame),
        (call.lent.command, ENOUGH.command),
    ];
    let of_record = [(call.lent.area, ENOUGH.area)];
    let of_call = match call.asked.is_step() {
        true => of_step.to_vec(),
        false => of_record.to_vec(),
    };
    of_call.into_iter()
}

fn is_short(call: &Call) -> bool {
    lent(call).any(|(length, enough)| length < enough)
}

/// Whether a replica is to be made with quorums that 18 refuses.
fn makes_refused_pair(call: &Call) -> bool {
    match &call.asked {
        Asked::Make(making) => !are_allowed(making.boxes, making.quorums),
        _ => false,
    }
}

fn is_tick(call: &Call) -> bool {
    matches!(call.asked, Asked::Tick { .. })
}

/// What a tick was handed below m; nothing for other calls.
fn below(call: &Call) -> impl Iterator<Item = Handed> + '_ {
    let readings = match &call.asked {
        Asked::Tick { readings } => &readings[..sizes(&call.record).m],
        _ => &[],
    };
    readings.iter().copied()
}

/// The kind of the frame that arrived; 0 where none did.
pub fn arrived(call: &Call) -> u8 {
    match &call.asked {
        Asked::Arrive { bytes } => bytes.first().copied().unwrap_or(0),
        _ => 0,
    }
}

/// The kind of the frame that a step sent; 0 where none was.
pub fn sent(left: &Left) -> u8 {
    match left.lengths[0] {
        1..=RECORD => left.frame[0],
        _ => 0,
    }
}

fn raised(call: &Call, left: &Left) -> bool {
    number(left.given(&call.asked), VIEW) > number(&call.record, VIEW)
}

fn took_over(call: &Call, left: &Left) -> bool {
    arrived(call) == ESTIMATE && sent(left) == PROPOSE
}

/// Whether the state after a step is that of an estimate before it.
fn has_state_of(call: &Call, left: &Left, estimate: Estimate) -> bool {
    let state = |record: &[u8], at| record[at..at + 24].to_vec();
    state(&left.record, HELD.state) == state(&call.record, estimate.state)
}

fn missed(call: &Call) -> Option<u32> {
    match call.asked {
        Asked::Return { missed } => Some(missed),
        _ => None,
    }
}
