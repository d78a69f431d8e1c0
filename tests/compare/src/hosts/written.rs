//! A history as a rig script.
//!
//! `S` stores the replica as it is, `SA` what the latest ask gave, and `R`
//! returns from what was stored last. A host that breaks a condition may have
//! another record then. So of a box that returns the script has the `S` of the
//! record that it returns from, and none of those that the host made after it.

mod stores;

use std::collections::BTreeMap;

use super::history::{Entry, Event, History, What};
use crate::group::Group;
use stores::{stores, Stores};

pub struct Written {
    pub lines: Vec<String>,
    /// The line of each event, commit and return: by its number, and a
    /// commit's by that of its ask.
    line_of: BTreeMap<usize, usize>,
    /// The tickets given up to now, by ask and by place.
    ticket_of: BTreeMap<usize, usize>,
    tickets: BTreeMap<usize, usize>,
    /// What the host stores that the script cannot show, or must not.
    pub unwritten: Vec<String>,
}

/// The history's script.
pub fn written(boxes: usize, entries: &[Entry]) -> Written {
    let stores = stores(boxes, entries);
    let mut written = Written {
        lines: Vec::new(),
        line_of: BTreeMap::new(),
        ticket_of: BTreeMap::new(),
        tickets: BTreeMap::new(),
        unwritten: Vec::new(),
    };
    // Of fresh replicas, which no entry made.
    for number in stores.after.iter().filter(|number| **number <= boxes) {
        written.lines.push(format!("S {number}"));
    }
    for entry in entries {
        written.take(entry, &stores);
    }
    written
}

impl Written {
    fn take(&mut self, entry: &Entry, stores: &Stores) {
        let number = entry.place + 1;
        let mut made = entry.number;
        match entry.what {
            What::Event(event) => self.lines.push(self.event(number, event)),
            What::Ask(event) => {
                let ticket = self.tickets.entry(number).or_default();
                *ticket += 1;
                self.ticket_of.insert(made, *ticket);
                self.lines.push(format!("A{}", self.event(number, event)));
            }
            What::Commit(ask) => {
                made = ask;
                let ticket = self.ticket_of[&ask];
                self.lines.push(format!("C {number} {ticket}"));
            }
            What::Return { missed, .. } => {
                self.tickets.remove(&number);
                self.lines.push(format!("R {number} {missed}"));
            }
            What::Store(made) => return self.take_store(entry, made, stores),
            What::Record => return self.store_after(entry, stores),
        };
        self.line_of.insert(made, self.lines.len());
        self.store_after(entry, stores);
    }

    fn store_after(&mut self, entry: &Entry, stores: &Stores) {
        if stores.after.contains(&entry.number) {
            let letters = match entry.what {
                What::Ask(_) => "SA",
                _ => "S",
            };
            self.lines.push(format!("{letters} {}", entry.place + 1));
        }
    }

    fn event(&self, number: usize, event: Event) -> String {
        match event {
            Event::Tick(None) => format!("T {number} -"),
            Event::Tick(Some(reading)) => format!("T {number} {reading}"),
            Event::GiveUp => format!("G {number}"),
            Event::Arrive(sent) => format!("D {number} {}", self.line_of[&sent]),
        }
    }

    fn take_store(&mut self, entry: &Entry, made: usize, stores: &Stores) {
        if let Some(letters) = stores.instead.get(&entry.number) {
            return self.lines.push(format!("{letters} {}", entry.place + 1));
        }
        let made = match self.line_of.get(&made) {
            Some(line) => format!("line {line}"),
            None => "the fresh replica".to_string(),
        };
        let last = self.lines.len();
        self.unwritten
            .push(format!("after line {last} the record of {made} is stored"));
    }

    /// The whole input of the rig.
    pub fn input(&self, group: &Group) -> String {
        format!("{}\n{}\n", group.first_line(), self.lines.join("\n"))
    }

    /// Whether the rig's boxes are those of the history, entry by entry.
    pub fn is_of(&self, history: &History, output: &[u8]) -> bool {
        let output = String::from_utf8_lossy(output);
        let rows: Vec<&str> = output.lines().collect();
        self.line_of.iter().all(|(number, &line)| {
            let replica = &history.made[number].replica;
            let n = usize::from(replica.settings.n);
            let state = replica.estimate.state[..n].iter().map(i32::to_string);
            let shown = format!(
                " {} {} {} {} {} ",
                replica.period,
                replica.view,
                replica.base_view,
                replica.estimate.base_period,
                state.collect::<Vec<_>>().join(",")
            );
            rows.get(line).is_some_and(|row| row.contains(&shown))
        })
    }
}

#[cfg(test)]
mod tests {
    use super::super::history::play;
    use super::*;
    use What::{Ask, Commit, Event as Happens, Record, Return, Store};

    fn of(entries: &[(usize, What)]) -> (History, Written) {
        let entry = |(at, &(place, what)): (usize, &(usize, What))| Entry {
            number: at + 4,
            place,
            what,
        };
        let entries: Vec<Entry> = entries.iter().enumerate().map(entry).collect();
        let (history, played) = play(Group::bench(), &entries);
        assert_eq!(played, entries);
        (history, written(3, &entries))
    }

    fn is_played(history: &History, written: &Written) -> bool {
        let input = written.input(&Group::bench());
        let mut output = Vec::new();
        second::script::rig(input.as_bytes(), &mut output).unwrap();
        written.is_of(history, &output)
    }

    fn back(record: usize) -> What {
        Return { record, missed: 0 }
    }

    const TICK: What = Happens(Event::Tick(Some(5)));

    #[test]
    fn a_history_that_keeps_the_conditions_is_written_as_it_is() {
        let entries = [
            (0, Store(1)),
            (0, TICK),
            (0, Store(5)),
            (1, Happens(Event::Tick(None))),
            (1, Happens(Event::Arrive(5))),
            (
                0,
                Return {
                    record: 5,
                    missed: 2,
                },
            ),
            (0, Store(9)),
            (0, back(9)),
        ];
        let (history, written) = of(&entries);
        let lines = [
            "S 1", "T 1 5", "S 1", "T 2 -", "D 2 2", "R 1 2", "S 1", "R 1 0",
        ];
        assert_eq!(written.lines, lines);
        assert!(written.unwritten.is_empty());
        assert!(is_played(&history, &written));
    }

    #[test]
    fn the_store_that_counts_is_written_where_its_replica_is() {
        // Stored after one made later.
        let (history, script) = of(&[
            (0, TICK),
            (0, TICK),
            (0, Store(5)),
            (0, Store(4)),
            (0, back(4)),
        ]);
        assert_eq!(script.lines, ["T 1 5", "S 1", "T 1 5", "R 1 0"]);
        let unwritten = [
            "after line 3 the record of line 3 is stored",
            "after line 3 the record of line 1 is stored",
        ];
        assert_eq!(script.unwritten, unwritten);
        assert!(is_played(&history, &script));
        // Not the last one stored is returned.
        let (history, script) = of(&[(0, Store(1)), (0, TICK), (0, Store(5)), (0, back(1))]);
        assert_eq!(script.lines, ["S 1", "T 1 5", "R 1 0"]);
        assert!(is_played(&history, &script));
        // Stored after the return.
        let (history, script) = of(&[(0, Store(1)), (0, TICK), (0, back(1)), (0, Store(5))]);
        assert_eq!(script.lines, ["S 1", "T 1 5", "R 1 0"]);
        let unwritten = ["after line 3 the record of line 2 is stored"];
        assert_eq!(script.unwritten, unwritten);
        assert!(is_played(&history, &script));
    }

    #[test]
    fn a_fresh_replica_is_stored_ahead_of_all_lines() {
        let (history, script) = of(&[(0, TICK), (0, Store(1)), (0, back(1))]);
        assert_eq!(script.lines, ["S 1", "T 1 5", "R 1 0"]);
        assert!(is_played(&history, &script));
    }

    /// A box that returns from what was stored after its return cannot be
    /// written.
    #[test]
    fn a_script_of_other_boxes_is_told() {
        let (history, script) = of(&[
            (0, Store(1)),
            (0, TICK),
            (0, back(1)),
            (0, Store(5)),
            (0, back(5)),
        ]);
        assert!(!is_played(&history, &script));
    }

    #[test]
    fn asks_are_written_with_their_tickets() {
        let tick = Ask(Event::Tick(Some(5)));
        let entries = [
            (0, tick),
            (0, tick),
            (0, Store(5)),
            (0, Commit(5)),
            (1, Happens(Event::Tick(None))),
            (1, Happens(Event::Arrive(5))),
            (0, back(5)),
            (0, tick),
            (0, Commit(11)),
        ];
        let (history, written) = of(&entries);
        let lines = [
            "AT 1 5", "AT 1 5", "SA 1", "C 1 2", "T 2 -", "D 2 4", "R 1 0", "AT 1 5", "C 1 1",
        ];
        assert_eq!(written.lines, lines);
        assert!(written.unwritten.is_empty());
        assert!(is_played(&history, &written));
    }

    #[test]
    fn the_unstepped_replica_is_stored_after_what_was_asked() {
        let entries = [
            (0, Ask(Event::Tick(Some(5)))),
            (0, Record),
            (0, Store(4)),
            (0, Store(5)),
            (0, Commit(4)),
            (0, back(5)),
        ];
        let (history, written) = of(&entries);
        assert_eq!(written.lines, ["AT 1 5", "SA 1", "S 1", "C 1 1", "R 1 0"]);
        assert!(written.unwritten.is_empty());
        assert!(is_played(&history, &written));
    }
}
