//! What is counted of calls on replicas with tickets. This only counts: nothing
//! is compared with it.

use second::frame::{ACK, DECIDE, ESTIMATE, PROPOSE};
use winder::{IGNORED, TICKETED};

use crate::record_layout::*;
use crate::ticket_calls::{Call, Event, Left, Name};
use crate::ticket_layout::*;
use crate::ticket_lent::{in_pairs, is_short, is_short_by_one, AREA, COMMAND, FRAME};

/// An Ack's length: no frame is shorter.
const SHORTEST_FRAME: usize = 20;

pub type ReplicaTest = fn(&[u8]) -> bool;

/// Of whole replicas with tickets handed in.
pub const HANDED: [(&str, ReplicaTest); 14] = [
    ("no ticket given", |replica| latest(replica) == 0),
    ("a ticket given, not open", |replica| {
        latest(replica) != 0 && !is_open(replica)
    }),
    ("open", is_open),
    ("open: a period begins", |replica| {
        is_open(replica) && number(&left_record(replica), PERIOD) > number(replica, PERIOD)
    }),
    ("open: the view is raised", |replica| {
        is_open(replica) && number(&left_record(replica), VIEW) > number(replica, VIEW)
    }),
    ("open: decides", |replica| {
        is_open(replica) && left_record(replica)[DECIDED] > replica[DECIDED]
    }),
    ("the largest ticket, open", |replica| {
        latest(replica) == u64::MAX && is_open(replica)
    }),
    ("the largest ticket, not open", |replica| {
        latest(replica) == u64::MAX && !is_open(replica)
    }),
    ("the largest - 1, open", |replica| {
        latest(replica) == u64::MAX - 1 && is_open(replica)
    }),
    ("the largest - 1, not open", |replica| {
        latest(replica) == u64::MAX - 1 && !is_open(replica)
    }),
    ("view-change mode", |replica| replica[MODE] == 1),
    ("decided", |replica| replica[DECIDED] == 1),
    ("period near its largest", |replica| {
        number(replica, PERIOD) > 1 << 31
    }),
    ("view near its largest", |replica| {
        number(replica, VIEW) > 1 << 31
    }),
];

/// The events of asks and of steps that were done: with the kinds of the frame
/// that arrives and of the frame that is sent, 0 for none.
pub type EventTest = fn(&Event, u8, u8) -> bool;

pub const DONE: [(&str, EventTest); 11] = [
    ("ticks: proposed", |event, _, sent| {
        matches!(event, Event::Tick { .. }) && sent == PROPOSE
    }),
    ("ticks: Estimate sent", |event, _, sent| {
        matches!(event, Event::Tick { .. }) && sent == ESTIMATE
    }),
    ("ticks: nothing sent", |event, _, sent| {
        matches!(event, Event::Tick { .. }) && sent == 0
    }),
    ("give-ups: Estimate sent", |event, _, sent| {
        matches!(event, Event::GiveUp) && sent == ESTIMATE
    }),
    ("give-ups: waits", |event, _, sent| {
        matches!(event, Event::GiveUp) && sent == 0
    }),
    ("Propose adopted", |_, arrived, _| arrived == PROPOSE),
    ("Ack entered, fewer than a", |_, arrived, sent| {
        arrived == ACK && sent == 0
    }),
    ("Ack: decided", |_, arrived, sent| {
        arrived == ACK && sent == DECIDE
    }),
    ("Decide: decided", |_, arrived, _| arrived == DECIDE),
    ("Estimate entered, fewer than b", |_, arrived, sent| {
        arrived == ESTIMATE && sent == 0
    }),
    ("Estimate: taken over", |_, arrived, sent| {
        arrived == ESTIMATE && sent == PROPOSE
    }),
];

pub type CallTest = fn(&Call, &Left) -> bool;

/// What becomes of an open ticket.
pub const OPENED: [(&str, CallTest); 9] = [
    ("ask: the new one is open", |call, left| {
        is_ask(call) && left.answer == 0
    }),
    ("ask ignored: void", |call, left| {
        is_ask(call) && left.answer == IGNORED && latest(&call.replica) != u64::MAX
    }),
    ("ask refused: void", |call, left| {
        is_ask(call) && is_refused(left)
    }),
    ("ask after the largest: void", |call, left| {
        is_ask(call) && left.answer == IGNORED && latest(&call.replica) == u64::MAX
    }),
    ("step: void", |call, left| is_step(call) && left.answer == 0),
    ("step ignored: stands", |call, left| {
        is_step(call) && left.answer == IGNORED
    }),
    ("step refused: stands", |call, left| {
        is_step(call) && is_refused(left)
    }),
    ("commit: made", |call, left| {
        is_commit(call) && left.answer == 0
    }),
    ("commit of another: stands", |call, left| {
        is_commit(call) && is_refused(left)
    }),
];

/// Refused or ignored although something else is wrong too, and areas at their
/// edges.
pub const GROUNDS: [(&str, CallTest); 11] = [
    ("15, and an area too short", |call, left| {
        left.answer == 15 && is_short(call)
    }),
    ("15, and an ask after the largest", |call, left| {
        left.answer == 15 && is_after_largest(call)
    }),
    ("15, and another ticket", |call, left| {
        left.answer == 15 && commits_another(call)
    }),
    ("after the largest, an area too short", |call, left| {
        left.answer == IGNORED && is_short(call)
    }),
    ("after the largest, no frame", |call, left| {
        left.answer == IGNORED && arrives_no_frame(call)
    }),
    ("5, an area of no byte", |call, left| {
        left.answer == 5 && in_pairs(call).any(|(length, _)| length == 0)
    }),
    ("5, a record area of 615 alone", |call, left| {
        left.answer == 5 && is_ask(call) && is_short_by_one(call, AREA)
    }),
    ("5, an area for tickets of 751", |call, left| {
        left.answer == 5 && !is_ask(call) && is_short_by_one(call, AREA)
    }),
    ("5, a frame area of 68 alone", |call, left| {
        left.answer == 5 && is_short_by_one(call, FRAME)
    }),
    ("5, a command area of 23 alone", |call, left| {
        left.answer == 5 && is_short_by_one(call, COMMAND)
    }),
    ("done, areas just long enough", |call, left| {
        let mut areas = in_pairs(call);
        left.answer == 0 && !is_commit(call) && areas.all(|(length, enough)| length == enough)
    }),
];

fn is_ask(call: &Call) -> bool {
    matches!(call.name, Name::Ask(_))
}

fn is_step(call: &Call) -> bool {
    matches!(call.name, Name::Step(_))
}

fn is_commit(call: &Call) -> bool {
    matches!(call.name, Name::Commit { .. })
}

fn is_refused(left: &Left) -> bool {
    ![0, IGNORED].contains(&left.answer)
}

/// The event that is asked or made.
pub fn event(call: &Call) -> Option<&Event> {
    match &call.name {
        Name::Ask(event) | Name::Step(event) => Some(event),
        Name::Tickets | Name::Commit { .. } => None,
    }
}

/// Of an ask or a step that was done the kinds of the frame that arrived and of
/// the frame that is sent, 0 for none.
pub fn done(call: &Call, left: &Left) -> Option<(u8, u8)> {
    let event = event(call).filter(|_| left.answer == 0)?;
    let sent = left.sent().first().copied().unwrap_or(0);
    Some((arrived(event), sent))
}

/// The kind of the frame that arrives; 0 where none does.
fn arrived(event: &Event) -> u8 {
    match event {
        Event::Arrive { bytes } => bytes.first().copied().unwrap_or(0),
        Event::Tick { .. } | Event::GiveUp => 0,
    }
}

fn arrives_no_frame(call: &Call) -> bool {
    match event(call) {
        Some(Event::Arrive { bytes }) => bytes.len() < SHORTEST_FRAME,
        _ => false,
    }
}

fn is_after_largest(call: &Call) -> bool {
    is_ask(call) && call.replica.len() == TICKETED && latest(&call.replica) == u64::MAX
}

fn commits_another(call: &Call) -> bool {
    match call.name {
        Name::Commit { ticket, .. } => {
            call.replica.len() == TICKETED && latest(&call.replica) != ticket
        }
        _ => false,
    }
}
