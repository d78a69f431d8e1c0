//! Document 02, L6, "Ask first, store, then commit": "Asking an event yields
//! the answer, record, frame and command it would give, with a ticket, making
//! no step; committing that ticket makes exactly that step and writes no frame
//! or command."
//!
//! "Tickets stand beside the replica": here by value, in `area` as bytes.

pub(crate) mod area;

pub use area::LENGTH;

use crate::fault::{planted, Fault};
use crate::record;
use crate::refusal::Refusal;
use crate::replica::{Answer, Areas, Replica, Step};

/// A replica and its tickets.
#[derive(Clone, Debug, PartialEq, Eq)]
pub struct Ticketed {
    pub replica: Replica,
    pub tickets: Tickets,
}

/// Changes: "the last ticket given (64 bits), whether it can still be
/// committed, and the replica that it would make".
#[derive(Clone, Debug, Default, PartialEq, Eq)]
pub struct Tickets {
    /// The latest ticket, 0 before the first.
    pub latest: u64,
    /// The latest ticket where it can be committed.
    pub open: Option<Open>,
    /// What was open before it was made void: only with the planted fault of
    /// the void ticket taken.
    voided: Vec<Open>,
}

/// A ticket that can be committed.
#[derive(Clone, Copy, Debug, PartialEq, Eq)]
pub struct Open {
    pub ticket: u64,
    /// What its step leaves.
    pub left: Replica,
}

/// What an ask gives beside what stands in the areas.
#[derive(Clone, Copy, Debug, PartialEq, Eq)]
pub struct Asked {
    pub step: Step,
    pub ticket: u64,
    /// What the step would leave; the replica as it is where the answer is not
    /// ok.
    pub left: Replica,
}

impl Ticketed {
    /// A replica that was made or has returned; tickets "count from 1 after
    /// each making or return".
    pub fn new(replica: Replica) -> Ticketed {
        let tickets = Tickets::default();
        Ticketed { replica, tickets }
    }

    /// The replica that has returned in this one's place.
    pub fn returned_as(self, replica: Replica) -> Ticketed {
        let mut returned = Ticketed::new(replica);
        if planted(Fault::TicketsGoOn) {
            returned.tickets.latest = self.tickets.latest;
        }
        returned
    }

    /// Asks an event, "making no step". The record is that of the replica
    /// after the step, at the start of its area; where the answer is not ok
    /// all areas hold what they held.
    ///
    /// "an ask after the largest is ignored before any check, with ticket 0".
    pub fn ask(
        mut self,
        record: &mut [u8],
        areas: Areas,
        event: impl FnOnce(Replica, Areas) -> (Replica, Step),
    ) -> (Ticketed, Asked) {
        let Some(ticket) = self.tickets.latest.checked_add(1) else {
            return self.ask_after_the_largest();
        };
        let (left, step) = self
            .foresee(record, areas, event)
            .unwrap_or_else(|refusal| (self.replica, Step::silent(Answer::Refused(refusal))));
        self.tickets.enter(Open { ticket, left }, step.answer);
        if planted(Fault::AskSteps) {
            self.replica = left;
        }
        (self, Asked { step, ticket, left })
    }

    /// A plain step.
    pub fn step(
        mut self,
        areas: Areas,
        event: impl FnOnce(Replica, Areas) -> (Replica, Step),
    ) -> (Ticketed, Step) {
        let (replica, step) = event(self.replica, areas);
        self.replica = replica;
        self.tickets.note_step(step.answer);
        (self, step)
    }

    /// "committing that ticket makes exactly that step and writes no frame or
    /// command"; refused by 17, nothing changes.
    pub fn commit(mut self, ticket: u64) -> (Ticketed, Result<(), Refusal>) {
        let committed = self.tickets.take(ticket);
        if let Ok(left) = committed {
            self.replica = left;
        }
        (self, committed.map(|_| ()))
    }

    /// Changes: "it is a new ask, so it voids the earlier ticket".
    fn ask_after_the_largest(mut self) -> (Ticketed, Asked) {
        if !planted(Fault::LargestKeeps) {
            self.tickets.void();
        }
        let asked = Asked {
            step: Step::silent(Answer::Ignored),
            ticket: 0,
            left: self.replica,
        };
        (self, asked)
    }

    /// What the event would leave and give. Settings are refused before the
    /// lent areas, as in any step, and the record's is one of these.
    fn foresee(
        &self,
        record: &mut [u8],
        areas: Areas,
        event: impl FnOnce(Replica, Areas) -> (Replica, Step),
    ) -> Result<(Replica, Step), Refusal> {
        self.replica.check_settings()?;
        check_record_area(record)?;
        let (left, step) = event(self.replica, areas);
        if step.answer == Answer::Ok {
            put_record(self.recorded(&left), record)?;
        }
        Ok((left, step))
    }

    /// The replica whose record an ask gives.
    fn recorded<'a>(&'a self, left: &'a Replica) -> &'a Replica {
        if planted(Fault::UnsteppedRecord) {
            return &self.replica;
        }
        left
    }
}

impl Tickets {
    /// The ticket of a new ask: it can be committed unless its ask was ignored
    /// or refused. "A new ask of any answer .. voids the earlier ticket".
    fn enter(&mut self, asked: Open, answer: Answer) {
        self.latest = asked.ticket;
        let can_be_committed = answer == Answer::Ok || planted(Fault::IgnoredCommitted);
        if can_be_committed || !planted(Fault::RefusedAskKeeps) {
            self.void();
        }
        if can_be_committed {
            self.open = Some(asked);
        }
    }

    /// "or a step made, voids the earlier ticket". Changes: "a step whose
    /// answer is ok".
    fn note_step(&mut self, answer: Answer) {
        let voids = match answer {
            Answer::Ok => !planted(Fault::StepKeeps),
            Answer::Ignored | Answer::Refused(_) => planted(Fault::RefusedStepVoids),
        };
        if voids {
            self.void();
        }
    }

    fn void(&mut self) {
        let open = self.open.take();
        if planted(Fault::VoidTaken) {
            self.voided.extend(open);
        }
    }

    /// What the step leaves of a ticket that is committed. Refusal 17: "ticket
    /// not the latest ask's, void or committed, or that ask ignored or
    /// refused".
    fn take(&mut self, ticket: u64) -> Result<Replica, Refusal> {
        let is_taken = |open: &Open| open.ticket == ticket || planted(Fault::LatestUnread);
        let Some(open) = self.open.filter(is_taken) else {
            return self.take_voided(ticket);
        };
        if !planted(Fault::CommittedTwice) {
            self.open = None;
        }
        Ok(open.left)
    }

    /// None is kept, but with a fault planted.
    fn take_voided(&mut self, ticket: u64) -> Result<Replica, Refusal> {
        let mut voided = self.voided.iter();
        let place = voided.position(|open| open.ticket == ticket);
        let place = place.ok_or(Refusal::Ticket)?;
        Ok(self.voided.remove(place).left)
    }
}

/// Refusal 5: "also for a record area too short".
fn check_record_area(area: &[u8]) -> Result<(), Refusal> {
    if area.len() < record::LENGTH - usize::from(planted(Fault::ShortRecordTaken)) {
        return Err(Refusal::Areas);
    }
    Ok(())
}

/// The record at the start of its area, which only with a fault planted may be
/// shorter than the record.
fn put_record(replica: &Replica, area: &mut [u8]) -> Result<(), Refusal> {
    let mut record = [0; record::LENGTH];
    record::write(replica, &mut record)?;
    for (place, byte) in area.iter_mut().zip(record) {
        *place = byte;
    }
    Ok(())
}
