//! What a box's host has beside the replica: its tickets, the record that it
//! stored last, and what was made and has not left.

use second::record::{self, LENGTH};
use second::refusal::Refusal;
use second::replica::Replica;
use second::tickets::Tickets;

use crate::decision::Decision;

/// "missed count over 10,000" is refused.
pub const MOST_MISSED: u32 = 10_000;

/// What the last step made, while the replica is still that step's.
#[derive(Clone, Copy)]
pub struct Waiting {
    /// The frame's place among those sent.
    pub frame: Option<usize>,
    /// The decision whose command it wrote.
    pub decided: Option<Decision>,
}

/// What an ask gave.
#[derive(Clone)]
pub struct Ask {
    pub ticket: u64,
    pub is_ok: bool,
    pub record: Vec<u8>,
    /// The period of the replica that it would make.
    pub period: u32,
    pub frame: Vec<u8>,
    /// The decision that its step makes.
    pub decided: Option<Decision>,
    pub is_stored: bool,
    pub is_committed: bool,
    /// Whether nothing has occurred at the box since its commit.
    pub is_present: bool,
    /// Steps since, but for its own.
    pub steps_since: usize,
    /// Events since that were ignored or refused.
    pub refused_since: usize,
    /// Returns since that were refused.
    pub returns_refused: usize,
    /// Its line.
    pub line: usize,
    /// Whether a record made later was stored.
    pub is_overtaken: bool,
}

#[derive(Clone, Default)]
pub struct Station {
    pub tickets: Tickets,
    record: Option<Vec<u8>>,
    record_period: u32,
    /// Whether that record is one of an ask that is not committed.
    pub is_record_asked: bool,
    pub waiting: Option<Waiting>,
    /// What the latest ask's commit made, if the box has gone on since: its
    /// record can still be stored.
    pub behind: Option<Waiting>,
    /// Since the box was made or returned, the latest last.
    pub asks: Vec<Ask>,
    /// Steps since the record stored last.
    pub unstored: usize,
    /// Whether nothing has occurred since the box returned.
    pub just_returned: bool,
    /// Whether its last command since it was made or returned was marked.
    pub was_marked: bool,
    /// Whether the box has no power now.
    pub is_down: bool,
}

impl Station {
    pub fn has_record(&self) -> bool {
        self.record.is_some()
    }

    /// The period of the record stored last.
    pub fn record_period(&self) -> u32 {
        self.record_period
    }

    /// The latest ask, if its answer was ok.
    pub fn latest_ask(&self) -> Option<&Ask> {
        self.asks.last().filter(|ask| ask.is_ok)
    }

    /// Whether the latest ask can be committed.
    pub fn is_asked(&self) -> bool {
        self.tickets.open.is_some()
    }

    /// Whether the record of the replica as it is may be stored: "a record of
    /// the unstepped replica counts as made before the ask's".
    pub fn may_store(&self) -> bool {
        let is_stored = self.latest_ask().is_some_and(|ask| ask.is_stored);
        !(self.is_asked() && is_stored)
    }

    /// Whether the latest ask's record may be stored.
    pub fn may_store_asked(&self) -> bool {
        self.latest_ask().is_some_and(|ask| !ask.is_overtaken)
    }

    /// Stores the record of the replica; gives what leaves by that.
    pub fn store(&mut self, replica: &Replica) -> Option<Waiting> {
        let mut record = vec![0; LENGTH];
        record::write(replica, &mut record).expect("a replica of a history");
        self.record = Some(record);
        self.record_period = replica.period;
        self.is_record_asked = false;
        self.unstored = 0;
        let counts_as_later = !self.is_asked();
        if let Some(ask) = self.asks.last_mut() {
            ask.is_overtaken |= counts_as_later;
        }
        self.waiting.take()
    }

    /// Stores the record that the latest ask gave; gives what leaves by that.
    pub fn store_asked(&mut self) -> Option<Waiting> {
        let ask = self.asks.last_mut().expect("something was asked");
        self.record = Some(ask.record.clone());
        self.record_period = ask.period;
        self.is_record_asked = !ask.is_committed;
        self.unstored = ask.steps_since;
        ask.is_stored = true;
        match (ask.is_committed, ask.is_present) {
            (false, _) => None,
            (true, true) => self.waiting.take(),
            (true, false) => self.behind.take(),
        }
    }

    /// The replica that returns, "from the record stored last".
    pub fn come_back(&self, missed: u32) -> Result<Replica, Refusal> {
        let record = self.record.as_ref().expect("a record is stored");
        record::return_from(record, missed)
    }
}

#[cfg(test)]
mod tests {
    use super::*;
    use crate::group::Group;
    use second::tickets::Open;

    #[test]
    fn what_waits_leaves_with_the_record_and_returns_are_from_it() {
        let replica = Group::bench().replica(2);
        let mut station = Station {
            waiting: Some(Waiting {
                frame: Some(4),
                decided: None,
            }),
            unstored: 2,
            ..Station::default()
        };
        assert!(!station.has_record());
        let left = station.store(&replica).unwrap();
        assert_eq!((left.frame, left.decided), (Some(4), None));
        assert!(station.store(&replica).is_none());
        assert_eq!((station.has_record(), station.unstored), (true, 0));
        assert_eq!(station.come_back(0), Ok(replica));
        assert_eq!(station.come_back(3).unwrap().period, 3);
        assert_eq!(station.come_back(MOST_MISSED + 1), Err(Refusal::Missed));
        assert_eq!(station.record_period(), 0);
    }

    fn asked(replica: &Replica) -> (Station, Ask) {
        let mut record = vec![0; LENGTH];
        record::write(replica, &mut record).unwrap();
        let ask = Ask {
            ticket: 1,
            is_ok: true,
            record,
            period: replica.period,
            frame: Vec::new(),
            decided: None,
            is_stored: false,
            is_committed: false,
            is_present: false,
            steps_since: 0,
            refused_since: 0,
            returns_refused: 0,
            line: 1,
            is_overtaken: false,
        };
        let mut station = Station::default();
        station.tickets.open = Some(Open {
            ticket: 1,
            left: *replica,
        });
        station.asks.push(ask.clone());
        (station, ask)
    }

    /// While it can be committed, the replica as it is is stored before what
    /// was asked alone; then what was asked before it alone.
    #[test]
    fn records_are_stored_in_the_order_that_counts() {
        let replica = Group::bench().replica(2);
        let (mut station, _) = asked(&replica);
        station.store(&replica);
        assert!(station.may_store() && station.may_store_asked());
        station.store_asked();
        assert!(!station.may_store() && station.may_store_asked());
        assert!(station.is_record_asked);
        station.tickets.open = None;
        assert!(station.may_store());
        station.store(&replica);
        assert!(!station.may_store_asked() && !station.is_record_asked);
    }

    #[test]
    fn what_a_commit_made_leaves_with_what_was_asked() {
        let replica = Group::bench().replica(2);
        let waiting = |frame| Waiting {
            frame: Some(frame),
            decided: None,
        };
        let (mut station, ask) = asked(&replica);
        station.waiting = Some(waiting(7));
        assert!(station.store_asked().is_none());
        station.tickets.open = None;
        for (is_present, frame) in [(true, 7), (false, 8)] {
            station.waiting = Some(waiting(7));
            station.behind = Some(waiting(8));
            station.asks = vec![Ask {
                is_committed: true,
                is_present,
                ..ask.clone()
            }];
            assert_eq!(station.store_asked().unwrap().frame, Some(frame));
        }
    }
}
