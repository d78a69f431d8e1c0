//! Calls for a replica with tickets: of what its box may meet, and of what it
//! may not.

use winder::RECORD;

use crate::prng::Prng;
use crate::record_events;
use crate::record_layout::sizes;
use crate::ticket_box::{Spent, TicketBox};
use crate::ticket_calls::{Event, Name, Ticket};
use crate::ticket_layout::{latest, put_latest};
use crate::traffic::Traffic;

/// The sorts of tickets that are committed. The latest ones come more often.
pub const TICKETS: [(Ticket, &str); 9] = [
    (Ticket::Latest, "the latest"),
    (Ticket::Zero, "0"),
    (Ticket::BelowLatest, "the latest - 1"),
    (Ticket::AboveLatest, "the latest + 1"),
    (Ticket::Committed, "a committed one"),
    (Ticket::Void, "a void one"),
    (Ticket::TurnedDown, "one of an ask not ok"),
    (Ticket::BeforeReturn, "one of before a return"),
    (Ticket::AtRandom, "at random"),
];

/// In most boxes an event is asked, so that there are many open tickets.
pub fn open_one(prng: &mut Prng, one: &mut TicketBox, traffic: &Traffic) -> Result<(), String> {
    if prng.chance(70) {
        let event = event(prng, &one.replica, traffic);
        one.ask(&event)?;
    }
    Ok(())
}

/// Counters come near their largest values, and so does the latest ticket: the
/// replica stays whole.
pub fn push_numbers(prng: &mut Prng, one: &mut TicketBox) {
    if prng.chance(15) {
        record_events::push_counters(prng, &mut one.replica);
    }
    if prng.chance(15) {
        let away = prng.pick(&[0, 0, 1, 2]);
        put_latest(&mut one.replica, u64::MAX - away);
    }
}

/// What is called with a whole replica, which may be damaged after that.
pub fn make(prng: &mut Prng, one: &TicketBox, traffic: &Traffic) -> Name {
    match prng.below(100) {
        0..=7 => Name::Tickets,
        8..=49 => Name::Ask(event(prng, &one.replica, traffic)),
        50..=69 => commit(prng, one),
        _ => Name::Step(event(prng, &one.replica, traffic)),
    }
}

fn event(prng: &mut Prng, replica: &[u8], traffic: &Traffic) -> Event {
    let record = &replica[..RECORD];
    match prng.below(20) {
        0..=5 => Event::Tick {
            readings: record_events::readings(prng, sizes(record).m),
        },
        6..=8 => Event::GiveUp,
        _ => Event::Arrive {
            bytes: record_events::arriving(prng, record, traffic),
        },
    }
}

/// The latest ticket, or one that is not to be taken; where the box has none
/// such, the latest.
fn commit(prng: &mut Prng, one: &TicketBox) -> Name {
    let sort = match prng.chance(40) {
        true => Ticket::Latest,
        false => TICKETS[prng.below(TICKETS.len())].0,
    };
    let latest = latest(&one.replica);
    match ticket(prng, sort, latest, &one.spent) {
        Some(ticket) => Name::Commit { ticket, sort },
        None => Name::Commit {
            ticket: latest,
            sort: Ticket::Latest,
        },
    }
}

fn ticket(prng: &mut Prng, sort: Ticket, latest: u64, spent: &Spent) -> Option<u64> {
    match sort {
        Ticket::Latest => Some(latest),
        Ticket::Zero => Some(0),
        Ticket::BelowLatest => Some(latest.wrapping_sub(1)),
        Ticket::AboveLatest => Some(latest.wrapping_add(1)),
        Ticket::Committed => spent.committed,
        Ticket::Void => spent.void,
        Ticket::TurnedDown => spent.turned_down,
        Ticket::BeforeReturn => spent.before_return,
        Ticket::AtRandom => Some(prng.next()),
    }
}
