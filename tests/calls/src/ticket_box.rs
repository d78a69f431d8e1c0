//! A box that asks first, each call by both implementations: its replica with
//! tickets, the record that it stored last, and what became of its tickets.

use winder::{IGNORED, RECORD, TICKETED};

use crate::digest::Digest;
use crate::issued::Issued;
use crate::quorum_reach::Reached;
use crate::record_calls::{self, Asked, Lent, Making};
use crate::record_layout::{quorums_of, Record, BOXES};
use crate::ticket_calls::{called_by_both, Call, Event, Left, Name, Ticket};
use crate::ticket_layout::{is_open, latest, Replica};
use crate::ticket_tables::done;

/// For every call of a box.
pub const ENOUGH: Lent = Lent {
    area: TICKETED,
    ..record_calls::ENOUGH
};

pub struct TicketBox {
    pub replica: Replica,
    stored: Record,
    pub spent: Spent,
    /// Commands that its asks and its steps gave.
    pub issued: Issued,
    /// Quorums that they reached.
    pub reached: Reached,
    /// Of what they left, where it is asked for.
    digest: Option<Digest>,
}

/// The last ticket of each sort that is not to be taken any more.
#[derive(Default)]
pub struct Spent {
    pub committed: Option<u64>,
    pub void: Option<u64>,
    /// Its ask was ignored or refused.
    pub turned_down: Option<u64>,
    pub before_return: Option<u64>,
}

/// What an ask gave that was ok.
pub struct Offer {
    ticket: u64,
    record: Record,
    frame: Vec<u8>,
}

impl TicketBox {
    pub fn make(making: Making, digest: Option<Digest>) -> Result<TicketBox, String> {
        let stored = recorded(vec![], Asked::Make(Box::new(making)))?;
        let replica = with_tickets(&stored)?;
        let spent = Spent::default();
        Ok(TicketBox {
            replica,
            stored,
            spent,
            issued: Issued::default(),
            reached: Reached::default(),
            digest,
        })
    }

    /// A power cycle: tickets count from 1 again.
    pub fn come_back(&mut self, missed: u32) -> Result<(), String> {
        let record = recorded(self.stored.clone(), Asked::Return { missed })?;
        self.spent = Spent {
            before_return: Some(latest(&self.replica)),
            ..Spent::default()
        };
        self.replica = with_tickets(&record)?;
        Ok(())
    }

    /// What the ask gave; nothing where it was ignored or refused.
    pub fn ask(&mut self, event: &Event) -> Result<Option<Offer>, String> {
        if is_open(&self.replica) {
            self.spent.void = Some(latest(&self.replica));
        }
        let left = self.call(Name::Ask(event.clone()))?;
        let [ticket] = left.ticket;
        if left.answer != 0 {
            self.spent.turned_down = Some(ticket);
            return Ok(None);
        }
        Ok(Some(Offer {
            ticket,
            record: left.area[..RECORD].to_vec(),
            frame: left.sent().to_vec(),
        }))
    }

    pub fn store(&mut self, offer: &Offer) {
        self.stored.clone_from(&offer.record);
    }

    /// The frame that may leave now. A ticket that a box commits is taken.
    pub fn commit(&mut self, offer: Offer) -> Result<Vec<u8>, String> {
        let Offer { ticket, frame, .. } = offer;
        let sort = Ticket::Latest;
        let left = self.call(Name::Commit { ticket, sort })?;
        self.spent.committed = Some(ticket);
        match left.answer {
            0 => Ok(frame),
            number => Err(format!("ticket {ticket}: refused by {number}")),
        }
    }

    /// What was committed last is not taken again.
    pub fn commit_again(&mut self) -> Result<(), String> {
        let Some(ticket) = self.spent.committed else {
            return Ok(());
        };
        let sort = Ticket::Committed;
        match self.call(Name::Commit { ticket, sort })?.answer {
            17 => Ok(()),
            number => Err(format!("ticket {ticket}, again: answered by {number}")),
        }
    }

    /// A step without an ask, with its record stored: the frame to send.
    pub fn step(&mut self, event: &Event) -> Result<Vec<u8>, String> {
        let open = is_open(&self.replica).then(|| latest(&self.replica));
        let left = self.call(Name::Step(event.clone()))?;
        match left.answer {
            0 => {
                self.stored = self.replica[..RECORD].to_vec();
                self.spent.void = open.or(self.spent.void);
                Ok(left.sent().to_vec())
            }
            IGNORED => Ok(vec![]),
            number => Err(format!("{event:?}: refused by {number}")),
        }
    }

    /// No frame arrives, which is refused: tickets stay as they are.
    pub fn refuse(&mut self) -> Result<(), String> {
        let event = Event::Arrive { bytes: vec![] };
        match self.call(Name::Step(event))?.answer {
            8 => Ok(()),
            number => Err(format!("no frame: answered by {number}")),
        }
    }

    /// Adds what all its calls left, and what making or returning gave.
    pub fn add_to(&self, digest: &mut Digest) {
        let own = self.digest.as_ref().map(Digest::to_string);
        digest.add(own.unwrap_or_default().as_bytes());
        digest.add(&self.replica);
        digest.add(&self.stored);
    }

    fn call(&mut self, name: Name) -> Result<Left, String> {
        let call = Call {
            replica: self.replica.clone(),
            name,
            lent: ENOUGH,
        };
        let left = called_by_both(&call)?;
        if let Some(digest) = &mut self.digest {
            left.add_to(digest);
        }
        self.replica.copy_from_slice(&left.replica[..TICKETED]);
        self.issued.count(&left.command, left.lengths[1]);
        if let Some((arrived, sent)) = done(&call, &left) {
            let (boxes, quorums) = (call.replica[BOXES], quorums_of(&call.replica));
            self.reached.count(boxes, quorums, arrived, sent);
        }
        Ok(left)
    }
}

/// The record that making or returning gives.
fn recorded(record: Record, asked: Asked) -> Result<Record, String> {
    let call = record_calls::Call {
        record,
        asked,
        lent: record_calls::ENOUGH,
    };
    let left = record_calls::called_by_both(&call)?;
    match left.answer {
        0 => Ok(left.given(&call.asked).to_vec()),
        number => Err(format!("{call:?}: refused by {number}")),
    }
}

fn with_tickets(record: &[u8]) -> Result<Replica, String> {
    let call = Call {
        replica: record.to_vec(),
        name: Name::Tickets,
        lent: ENOUGH,
    };
    let left = called_by_both(&call)?;
    match left.answer {
        0 => Ok(left.area[..TICKETED].to_vec()),
        number => Err(format!("{call:?}: refused by {number}")),
    }
}
