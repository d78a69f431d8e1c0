//! A box of a script with what its host keeps for it: the record stored last
//! and what the latest ask gave.

use super::played::Played;
use super::remembered::Remembered;
use crate::fault::{planted, Fault};
use crate::frame::{COMMAND_AREA, FRAME_AREA};
use crate::reading::Row;
use crate::record;
use crate::refusal::Refusal;
use crate::replica::{Answer, Areas, Replica, Step};
use crate::tickets::Ticketed;

/// What a line tells a box to do.
pub enum What {
    Step(Event),
    /// The event is asked.
    Ask(Event),
    /// The ticket is committed.
    Commit(u64),
    /// The record of the replica is stored.
    Store,
    /// The record that the latest ask gave is stored.
    StoreAsked(Vec<u8>),
    /// The box comes back from a record.
    Return {
        record: Vec<u8>,
        missed: u32,
    },
}

pub enum Event {
    Tick(Row),
    GiveUp,
    Deliver(Vec<u8>),
}

impl Event {
    fn happen(&self, replica: Replica, areas: Areas) -> (Replica, Step) {
        match self {
            Event::Tick(row) => replica.tick(row, areas),
            Event::GiveUp => replica.give_up(areas),
            Event::Deliver(bytes) => replica.arrive(bytes, areas),
        }
    }
}

#[derive(Debug, PartialEq, Eq)]
pub struct Station {
    pub held: Ticketed,
    stored: Option<Vec<u8>>,
    /// The latest ask since the box was made or returned, as the last one;
    /// those before it only where a fault is planted that commits them.
    asks: Vec<Ask>,
    /// Of the steps made since then, for planted faults alone.
    remembered: Remembered,
}

/// What an ask gave, for the lines that name it later.
#[derive(Debug, PartialEq, Eq)]
struct Ask {
    ticket: u64,
    answer: Answer,
    record: Vec<u8>,
    frame: Vec<u8>,
    command: Vec<u8>,
    /// What is remembered where it is committed.
    remembered: Remembered,
}

/// The areas that a script lends.
struct Lent {
    frame: [u8; FRAME_AREA],
    command: [u8; COMMAND_AREA],
}

impl Station {
    pub fn new(replica: Replica) -> Station {
        Station {
            held: Ticketed::new(replica),
            stored: None,
            asks: Vec::new(),
            remembered: Remembered::default(),
        }
    }

    /// The record that was stored last.
    pub fn stored_record(&self) -> Option<Vec<u8>> {
        self.stored.clone()
    }

    /// Changes: `bad` "where there has been no ask since the box was made or
    /// returned, or the latest was ignored or refused".
    pub fn asked_record(&self) -> Option<Vec<u8>> {
        let latest = self.asks.last()?;
        (latest.answer == Answer::Ok).then(|| latest.record.clone())
    }

    pub fn play(&mut self, what: &What) -> Played {
        match what {
            What::Step(event) => self.step(event),
            What::Ask(event) => self.ask(event),
            What::Commit(ticket) => self.commit(*ticket),
            What::Store => self.store(record_of(&self.held.replica)),
            What::StoreAsked(record) => self.store(Ok(record.clone())),
            What::Return { record, missed } => self.come_back(record, *missed),
        }
    }

    fn step(&mut self, event: &Event) -> Played {
        let mut lent = Lent::new();
        let happen = |replica: Replica, areas: Areas| event.happen(replica, areas);
        let before = self.held.replica;
        let (held, step) = self.held.clone().step(lent.areas(), happen);
        self.held = held;
        let command = &mut lent.command[..step.command_length];
        self.remembered = self.remembered.after(&before, &self.held.replica, command);
        Played {
            answer: step.answer,
            replica: self.held.replica,
            frame: lent.frame[..step.frame_length].to_vec(),
            command: command.to_vec(),
            ticket: None,
        }
    }

    /// Changes: "the period, view, bases and state that the step would leave
    /// (those of the replica as it is where the answer is not ok)".
    fn ask(&mut self, event: &Event) -> Played {
        let mut lent = Lent::new();
        let mut record = vec![0; record::LENGTH];
        let happen = |replica: Replica, areas: Areas| event.happen(replica, areas);
        let before = self.held.replica;
        let (held, asked) = self.held.clone().ask(&mut record, lent.areas(), happen);
        self.held = held;
        let command = &mut lent.command[..asked.step.command_length];
        let remembered = self.remembered.after(&before, &asked.left, command);
        let played = Played {
            answer: asked.step.answer,
            replica: asked.left,
            frame: lent.frame[..asked.step.frame_length].to_vec(),
            command: command.to_vec(),
            ticket: Some(asked.ticket),
        };
        self.keep(Ask {
            ticket: asked.ticket,
            answer: played.answer,
            record,
            frame: played.frame.clone(),
            command: played.command.clone(),
            remembered,
        });
        played
    }

    fn keep(&mut self, ask: Ask) {
        if !planted(Fault::VoidTaken) && !planted(Fault::RefusedAskKeeps) {
            self.asks.clear();
        }
        self.asks.push(ask);
    }

    /// Changes: "on ok the line prints its own number as frame where the ask
    /// gave a frame, and the command that the ask gave"; "on r17 the box as it
    /// is, `-` `-`, and nothing changes".
    fn commit(&mut self, ticket: u64) -> Played {
        let (held, done) = self.held.clone().commit(ticket);
        self.held = held;
        let mut played = self.quiet(done);
        if let (Ok(()), Some(ask)) = (done, self.ask_of(ticket)) {
            played.frame = ask.frame.clone();
            played.command = ask.command.clone();
            self.remembered = ask.remembered;
        }
        played
    }

    /// The ask of a ticket that was committed: the latest one, but with a
    /// fault planted.
    fn ask_of(&self, ticket: u64) -> Option<&Ask> {
        let mut asks = self.asks.iter();
        let named = asks.find(|ask| ask.ticket == ticket);
        named.or(self.asks.last())
    }

    fn store(&mut self, record: Result<Vec<u8>, Refusal>) -> Played {
        let is_dropped = planted(Fault::SecondStoreDropped) && self.stored.is_some();
        let done = record.map(|record| {
            if !is_dropped {
                self.stored = Some(record);
            }
        });
        self.quiet(done)
    }

    /// Changes: "box r comes back from the record that it stored last"; "`r16`
    /// where returning refuses, and then the box stays as it was". "After an
    /// ok `R` tickets count from 1 and there is no latest ask".
    fn come_back(&mut self, record: &[u8], missed: u32) -> Played {
        let returned = if planted(Fault::PresentReturned) {
            record_of(&self.held.replica).and_then(|record| record::return_from(&record, missed))
        } else {
            record::return_from(record, missed)
        };
        if let Ok(replica) = returned {
            self.held = self.held.clone().returned_as(replica);
            self.asks.clear();
            self.remembered = Remembered::default();
        }
        self.quiet(returned.map(|_| ()))
    }

    /// The box as it is. Changes: "frame and command are `-`".
    fn quiet(&self, done: Result<(), Refusal>) -> Played {
        Played {
            answer: match done {
                Ok(()) => Answer::Ok,
                Err(refusal) => Answer::Refused(refusal),
            },
            replica: self.held.replica,
            frame: Vec::new(),
            command: Vec::new(),
            ticket: None,
        }
    }
}

impl Lent {
    fn new() -> Lent {
        Lent {
            frame: [0; FRAME_AREA],
            command: [0; COMMAND_AREA],
        }
    }

    fn areas(&mut self) -> Areas<'_> {
        Areas {
            frame: &mut self.frame,
            command: &mut self.command,
        }
    }
}

fn record_of(replica: &Replica) -> Result<Vec<u8>, Refusal> {
    let mut record = vec![0; record::LENGTH];
    record::write(replica, &mut record)?;
    Ok(record)
}
