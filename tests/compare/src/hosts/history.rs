//! Histories of document 02's L4 and L6 with records as values: what a host
//! stores, in which order and from which record a box returns, is an entry of
//! its own, so that each of the host's conditions can be broken alone.

mod asks;
#[cfg(test)]
mod marks;

use std::collections::BTreeMap;

use second::frame::{COMMAND_AREA, FRAME_AREA};
use second::law::MAX_READINGS;
use second::reading::{convert_row, Reading, Row};
use second::record::{self, LENGTH};
use second::replica::{Answer, Areas, Replica};

use crate::command::Command;
use crate::demand3::Seen;
use crate::group::Group;
use crate::past::Past;

/// What document 02 asks of the host.
#[derive(Clone, Copy, Debug, PartialEq, Eq)]
pub enum Condition {
    /// "each frame or command left after its step's record was stored"
    StoredFirst,
    /// "none was stored after one made later"
    InOrder,
    /// "the last one stored is returned"
    LastReturned,
    /// What was made before a stop and not stored by then is gone: "steps
    /// between that record and the stop .. don't count".
    GoneAtStop,
    /// "in L4 a record of the unstepped replica counts as made before the
    /// ask's"
    UnsteppedFirst,
}

/// One entry at the box at a place. Entries are known by their numbers, which
/// rise. Each box has made a record, by an entry of its own number, before the
/// first: that of the fresh replica.
#[derive(Clone, Copy, Debug, PartialEq, Eq)]
pub struct Entry {
    pub number: usize,
    pub place: usize,
    pub what: What,
}

#[derive(Clone, Copy, Debug, PartialEq, Eq)]
pub enum What {
    Event(Event),
    /// The event is asked.
    Ask(Event),
    /// The ask of this entry is committed.
    Commit(usize),
    /// A record of the replica as it is is made once more.
    Record,
    /// The record that this entry made is stored. Its command leaves, unless
    /// it was asked for and not committed.
    Store(usize),
    /// The box returns from the record that this entry made.
    Return {
        record: usize,
        missed: u32,
    },
}

#[derive(Clone, Copy, Debug, PartialEq, Eq)]
pub enum Event {
    Tick(Option<i32>),
    GiveUp,
    /// The frame that this entry made arrives.
    Arrive(usize),
}

/// What an entry made.
pub struct Made {
    pub place: usize,
    pub replica: Replica,
    past: Past,
    pub frame: Vec<u8>,
    command: Option<Command>,
    pub is_stored: bool,
    /// Whether it was asked for, and has not been committed.
    is_asked: bool,
    /// The period whose decided state its step shows.
    shown: Option<u32>,
    /// The ask before which a record of the replica as it was counts as made.
    before: Option<usize>,
}

impl Made {
    /// A record without a frame or a command.
    fn silent(place: usize, replica: Replica, past: Past) -> Made {
        Made {
            place,
            replica,
            past,
            frame: Vec::new(),
            command: None,
            is_stored: false,
            is_asked: false,
            shown: None,
            before: None,
        }
    }
}

/// A box and what its host has stored.
pub struct Station {
    pub replica: Replica,
    past: Past,
    /// The entry that made the replica.
    pub present: usize,
    /// The ask that can be committed.
    pub open: Option<usize>,
    /// The records stored, by the entries that made them; the last is the one
    /// stored last.
    pub stored: Vec<usize>,
    /// The last return.
    pub since: usize,
}

pub struct History {
    group: Group,
    pub stations: Vec<Station>,
    pub made: BTreeMap<usize, Made>,
    /// The conditions that it breaks, one for each time.
    pub broken: Vec<Condition>,
    seen: Seen,
    /// Two commands of one period that left and differ, or two such states.
    pub differing: Option<String>,
}

impl History {
    pub fn new(group: Group) -> History {
        let fresh = |own| group.replica(own);
        let station = |own| Station {
            replica: fresh(own),
            past: Past::default(),
            present: own.into(),
            open: None,
            stored: Vec::new(),
            since: 0,
        };
        let made = |own: u8| {
            let place = usize::from(own) - 1;
            (own.into(), Made::silent(place, fresh(own), Past::default()))
        };
        History {
            group,
            stations: (1..=group.boxes).map(station).collect(),
            made: (1..=group.boxes).map(made).collect(),
            broken: Vec::new(),
            seen: Seen::default(),
            differing: None,
        }
    }

    /// One entry more; gives whether there is what it names and, if it is an
    /// event, whether the answer is ok. If not, nothing has occurred.
    pub fn enter(&mut self, entry: &Entry) -> bool {
        match entry.what {
            What::Event(event) => self.step(entry, event),
            What::Ask(event) => self.ask(entry, event),
            What::Commit(ask) => self.commit(entry.place, ask),
            What::Record => self.record(entry),
            What::Store(number) => self.store(entry.place, number),
            What::Return { record, missed } => self.come_back(entry, record, missed),
        }
    }

    fn step(&mut self, entry: &Entry, event: Event) -> bool {
        let Some(made) = self.called(entry.place, event) else {
            return false;
        };
        self.made.insert(entry.number, made);
        self.become_made(entry.number);
        true
    }

    /// The box is now what this entry made.
    fn become_made(&mut self, number: usize) {
        let made = &self.made[&number];
        let (shown, state) = (made.shown, made.replica.estimate.state);
        let station = &mut self.stations[made.place];
        station.replica = made.replica;
        station.past = made.past.clone();
        station.present = number;
        station.open = None;
        self.show(shown, &state);
    }

    /// What an event at a box makes, if there is what it names and the answer
    /// is ok. A frame that arrives must have left.
    fn called(&mut self, place: usize, event: Event) -> Option<Made> {
        let (mut frame, mut command) = ([0; FRAME_AREA], [0; COMMAND_AREA]);
        let areas = Areas {
            frame: &mut frame,
            command: &mut command,
        };
        let station = &self.stations[place];
        let (replica, step) = match event {
            Event::Tick(reading) => station.replica.tick(&row(reading), areas),
            Event::GiveUp => station.replica.give_up(areas),
            Event::Arrive(number) => station.replica.arrive(self.frame_of(number)?, areas),
        };
        if step.answer != Answer::Ok {
            return None;
        }
        let mut made = Made {
            frame: frame[..step.frame_length].to_vec(),
            command: match step.command_length {
                0 => None,
                length => Some(Command::written(&command[..length]).expect("a mark")),
            },
            ..Made::silent(place, replica, station.past.clone())
        };
        match event {
            Event::Tick(reading) => made.shown = made.past.tick(convert_row(&row(reading))),
            Event::GiveUp => {}
            Event::Arrive(number) => self.note_arrival(number),
        }
        Some(made)
    }

    /// The frame that an entry made, but for one not committed.
    fn frame_of(&self, number: usize) -> Option<&[u8]> {
        let made = self.made.get(&number)?;
        let is_there = !made.frame.is_empty() && !made.is_asked;
        is_there.then_some(&made.frame[..])
    }

    fn note_arrival(&mut self, number: usize) {
        let made = &self.made[&number];
        if !made.is_stored {
            self.broken.push(Condition::StoredFirst);
        }
        if !made.is_stored && number < self.stations[made.place].since {
            self.broken.push(Condition::GoneAtStop);
        }
    }

    /// Whether the frame that an entry made would change the box at a place.
    pub fn would_change(&self, number: usize, place: usize) -> bool {
        let replica = self.stations[place].replica;
        let areas = Areas {
            frame: &mut [0; FRAME_AREA],
            command: &mut [0; COMMAND_AREA],
        };
        replica.arrive(&self.made[&number].frame, areas).0 != replica
    }

    fn store(&mut self, place: usize, number: usize) -> bool {
        let Some(made) = self.made.get(&number).filter(|made| made.place == place) else {
            return false;
        };
        let is_asked = made.is_asked;
        let condition = match made.before {
            Some(_) => Condition::UnsteppedFirst,
            None => Condition::InOrder,
        };
        let order = self.order(number);
        let mut stored = self.stations[place].stored.iter();
        if stored.any(|&stored| self.order(stored) > order) {
            self.broken.push(condition);
        }
        let station = &mut self.stations[place];
        if number < station.since {
            self.broken.push(Condition::GoneAtStop);
        }
        station.stored.push(number);
        self.made.get_mut(&number).expect("just found").is_stored = true;
        if !is_asked {
            self.issue(number);
        }
        true
    }

    /// What the order of records goes by: "a record of the unstepped replica
    /// counts as made before the ask's".
    fn order(&self, number: usize) -> (usize, bool) {
        match self.made[&number].before {
            Some(ask) => (ask, false),
            None => (number, true),
        }
    }

    /// The command that an entry made leaves, if there is one.
    fn issue(&mut self, number: usize) {
        let made = self.made.get_mut(&number).expect("an entry's");
        let Some(command) = &made.command else {
            return;
        };
        let station = &mut self.stations[made.place];
        let period = made.replica.period;
        made.past.decide(period);
        if station.present == number {
            station.past.decide(period);
        }
        let taken = self.seen.take_command(period, command.clone());
        self.differing = self.differing.take().or(taken.err());
    }

    fn come_back(&mut self, entry: &Entry, number: usize, missed: u32) -> bool {
        let station = &mut self.stations[entry.place];
        if !station.stored.contains(&number) {
            return false;
        }
        let mut record = [0; LENGTH];
        let returned = record::write(&self.made[&number].replica, &mut record)
            .and_then(|()| record::return_from(&record, missed));
        let Ok(replica) = returned else { return false };
        if station.stored.last() != Some(&number) {
            self.broken.push(Condition::LastReturned);
        }
        let mut past = self.made[&number].past.clone();
        let shown = past.miss(missed as usize);
        station.replica = replica;
        station.past = past.clone();
        station.present = entry.number;
        station.open = None;
        station.since = entry.number;
        let made = Made::silent(entry.place, replica, past);
        self.made.insert(entry.number, made);
        self.show(shown, &replica.estimate.state);
        true
    }

    fn show(&mut self, decided: Option<u32>, state: &[i32]) {
        let n = usize::from(self.group.settings.n);
        if let Some(period) = decided {
            let taken = self.seen.take_state(period, state[..n].to_vec());
            self.differing = self.differing.take().or(taken.err());
        }
    }

    /// What demand 3 has against it, if anything.
    pub fn violation(mut self) -> Option<String> {
        if self.differing.is_some() {
            return self.differing;
        }
        for station in &self.stations {
            self.seen.take_rows(&station.past);
        }
        self.seen.search(&self.group.settings).err()
    }
}

/// What a tick is handed.
fn row(reading: Option<i32>) -> Row {
    let mut row = [Reading::Missing; MAX_READINGS];
    row[0] = reading.map_or(Reading::Missing, Reading::Count);
    row
}

/// The history of those entries for which there is what they name, with them.
pub fn play(group: Group, entries: &[Entry]) -> (History, Vec<Entry>) {
    let mut history = History::new(group);
    let mut played = entries.to_vec();
    played.retain(|entry| history.enter(entry));
    (history, played)
}

#[cfg(test)]
mod tests {
    use super::*;
    use What::{Return, Store};

    const TICK: What = What::Event(Event::Tick(Some(5)));

    fn tick(reading: Option<i32>) -> What {
        What::Event(Event::Tick(reading))
    }

    fn arrive(sent: usize) -> What {
        What::Event(Event::Arrive(sent))
    }

    /// The history of these entries, numbered from 4 on, at the bench's boxes.
    fn played(entries: &[(usize, What)]) -> (History, usize) {
        let entry = |(at, &(place, what)): (usize, &(usize, What))| Entry {
            number: at + 4,
            place,
            what,
        };
        let entries: Vec<Entry> = entries.iter().enumerate().map(entry).collect();
        let (history, played) = play(Group::bench(), &entries);
        (history, played.len())
    }

    fn broken(entries: &[(usize, What)]) -> Vec<Condition> {
        let (history, played) = played(entries);
        assert_eq!(played, entries.len());
        history.broken
    }

    fn back(record: usize) -> What {
        Return { record, missed: 0 }
    }

    #[test]
    fn each_condition_is_broken_alone() {
        assert_eq!(broken(&[(0, TICK), (0, Store(4))]), []);
        let kept = [
            (0, TICK),
            (0, Store(4)),
            (1, TICK),
            (1, Store(6)),
            (1, arrive(4)),
        ];
        assert_eq!(broken(&kept), []);
        let early = [(0, TICK), (1, TICK), (1, arrive(4))];
        assert_eq!(broken(&early), [Condition::StoredFirst]);
        let order = [
            (0, TICK),
            (0, TICK),
            (0, Store(5)),
            (0, Store(4)),
            (0, back(4)),
        ];
        assert_eq!(broken(&order), [Condition::InOrder]);
        let older = [
            (0, TICK),
            (0, Store(4)),
            (0, TICK),
            (0, Store(6)),
            (0, back(4)),
        ];
        assert_eq!(broken(&older), [Condition::LastReturned]);
        let gone = [(0, Store(1)), (0, TICK), (0, back(1)), (0, Store(5))];
        assert_eq!(broken(&gone), [Condition::GoneAtStop]);
        let gone = [
            (0, Store(1)),
            (0, TICK),
            (0, back(1)),
            (1, TICK),
            (1, arrive(5)),
        ];
        let both = [Condition::StoredFirst, Condition::GoneAtStop];
        assert_eq!(broken(&gone), both);
        // What the return itself made may be stored.
        let stored = [(0, Store(1)), (0, back(1)), (0, Store(5)), (0, back(5))];
        assert_eq!(broken(&stored), []);
    }

    #[test]
    fn entries_that_name_what_is_not_there_come_to_nothing() {
        let nothing = [
            (0, What::Event(Event::GiveUp)),
            (1, arrive(4)),
            (0, arrive(1)),
            (0, Store(2)),
            (0, Store(40)),
            (0, back(1)),
        ];
        let (history, played) = played(&nothing);
        assert_eq!((history.made.len(), played), (3, 0));
        let refused = Return {
            record: 1,
            missed: 10_001,
        };
        assert_eq!(self::played(&[(0, Store(1)), (0, refused)]).1, 1);
    }

    fn thirty() -> Command {
        Command::printed("30").unwrap()
    }

    /// The decision of period 1 counts once it is stored; the row that a
    /// return undid does not.
    #[test]
    fn what_left_is_held_to_demand_3() {
        let entries = [
            (0, Store(1)),
            (0, tick(Some(60))),
            (0, back(1)),
            (0, tick(Some(100))),
            (0, Store(7)),
            (1, tick(None)),
            (1, arrive(7)),
            (1, Store(10)),
            (0, arrive(10)),
            (0, Store(12)),
        ];
        let (history, _) = played(&entries);
        assert_eq!(history.violation(), None);
        let (mut history, _) = played(&entries);
        assert!(history.seen.take_command(1, thirty()).is_err());
        let (mut history, _) = played(&entries[..9]);
        assert!(history.seen.take_command(1, thirty()).is_ok());
        let what = history.violation().unwrap();
        assert_eq!(what, "period 1: no choice of rows gives it");
    }
}
