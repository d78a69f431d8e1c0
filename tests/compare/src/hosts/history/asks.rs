//! Asks, commits and records of the replica as it is.

use super::{Entry, Event, History, Made};

impl History {
    /// "making no step". A newer ask voids the earlier one.
    pub(super) fn ask(&mut self, entry: &Entry, event: Event) -> bool {
        let Some(made) = self.called(entry.place, event) else {
            return false;
        };
        let made = Made {
            is_asked: true,
            ..made
        };
        self.made.insert(entry.number, made);
        self.stations[entry.place].open = Some(entry.number);
        true
    }

    /// "the commit counts as writing and sending what its ask gave"
    pub(super) fn commit(&mut self, place: usize, ask: usize) -> bool {
        if self.stations[place].open != Some(ask) {
            return false;
        }
        let made = self.made.get_mut(&ask).expect("what the ask made");
        made.is_asked = false;
        let is_stored = made.is_stored;
        self.become_made(ask);
        if is_stored {
            self.issue(ask);
        }
        true
    }

    /// The replica has not made the step of an ask that can be committed.
    pub(super) fn record(&mut self, entry: &Entry) -> bool {
        let station = &self.stations[entry.place];
        let made = Made {
            before: station.open,
            ..Made::silent(entry.place, station.replica, station.past.clone())
        };
        self.made.insert(entry.number, made);
        true
    }
}

#[cfg(test)]
mod tests {
    use super::super::{play, Condition, What};
    use super::*;
    use crate::group::Group;
    use What::{Ask, Commit, Record, Return, Store};

    /// The history of these entries, numbered from 4 on, at the bench's boxes.
    fn played(entries: &[(usize, What)]) -> (History, usize) {
        let entry = |(at, &(place, what)): (usize, &(usize, What))| Entry {
            number: at + 4,
            place,
            what,
        };
        let entries: Vec<Entry> = entries.iter().enumerate().map(entry).collect();
        let (history, played) = play(Group::bench(), &entries);
        (history, played.len())
    }

    fn broken(entries: &[(usize, What)]) -> Vec<Condition> {
        let (history, played) = played(entries);
        assert_eq!(played, entries.len());
        history.broken
    }

    const TICK: Event = Event::Tick(Some(5));

    #[test]
    fn a_record_of_the_unstepped_replica_counts_as_made_before() {
        let ask = (0, Ask(TICK));
        let after = [ask, (0, Store(4)), (0, Record), (0, Store(6))];
        assert_eq!(broken(&after), [Condition::UnsteppedFirst]);
        let before = [ask, (0, Record), (0, Store(5)), (0, Store(4))];
        assert_eq!(broken(&before), []);
        // Once it is committed, or void.
        let committed = [
            ask,
            (0, Store(4)),
            (0, Commit(4)),
            (0, Record),
            (0, Store(7)),
        ];
        assert_eq!(broken(&committed), []);
        let void = [
            ask,
            (0, Store(4)),
            (0, What::Event(TICK)),
            (0, Record),
            (0, Store(7)),
        ];
        assert_eq!(broken(&void), []);
    }

    #[test]
    fn only_the_latest_ask_is_committed_and_once() {
        let none = [(0, Ask(TICK)), (0, What::Event(TICK)), (0, Commit(4))];
        assert_eq!(played(&none).1, 2);
        let none = [(0, Ask(TICK)), (0, Ask(TICK)), (0, Commit(4))];
        assert_eq!(played(&none).1, 2);
        let once = [(0, Ask(TICK)), (0, Commit(4)), (0, Commit(4))];
        let (history, count) = played(&once);
        assert_eq!((history.stations[0].replica.period, count), (1, 2));
        let back = Return {
            record: 4,
            missed: 0,
        };
        let gone = [(0, Ask(TICK)), (0, Store(4)), (0, back), (0, Commit(4))];
        let (history, count) = played(&gone);
        assert_eq!((history.stations[0].replica.period, count), (1, 3));
    }

    #[test]
    fn nothing_leaves_before_the_commit() {
        let entries = [
            (0, Ask(TICK)),
            (0, Store(4)),
            (1, What::Event(TICK)),
            (1, What::Event(Event::Arrive(4))),
        ];
        assert_eq!(played(&entries).1, 3);
        let entries = [&entries[..3], &[(0, Commit(4)), (1, Ask(Event::Arrive(4)))]].concat();
        assert_eq!(broken(&entries), []);
    }
}
