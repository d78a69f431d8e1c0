//! Where a history's script stores records.

use std::collections::{BTreeMap, BTreeSet};

use super::super::history::{Entry, What};

/// Where a script has an `S` or an `SA`.
pub struct Stores {
    /// In place of these entries.
    pub instead: BTreeMap<usize, &'static str>,
    /// Directly after these entries.
    pub after: BTreeSet<usize>,
}

pub fn stores(boxes: usize, entries: &[Entry]) -> Stores {
    let mut stores = Stores {
        instead: of_the_present(boxes, entries),
        after: BTreeSet::new(),
    };
    for entry in entries {
        let What::Return { record, .. } = entry.what else {
            continue;
        };
        let between = |other: &&Entry| {
            other.place == entry.place && (record..entry.number).contains(&other.number)
        };
        let between: Vec<&Entry> = entries.iter().filter(between).collect();
        let is_store = |other: &&&Entry| {
            other.what == What::Store(record) && stores.instead.contains_key(&other.number)
        };
        let stored = between.iter().rev().find(is_store);
        let stored = stored.map(|other| other.number);
        if stored.is_none() {
            stores.after.insert(record);
        }
        let later = between.iter().filter(|other| Some(other.number) > stored);
        for other in later.filter(|other| matches!(other.what, What::Store(_))) {
            stores.instead.remove(&other.number);
        }
    }
    stores
}

/// The stores of what the replica is at that time, and of what the latest ask
/// gave.
fn of_the_present(boxes: usize, entries: &[Entry]) -> BTreeMap<usize, &'static str> {
    let mut shelves: Vec<Shelf> = (1..=boxes).map(Shelf::fresh).collect();
    let mut found = BTreeMap::new();
    for entry in entries {
        let shelf = &mut shelves[entry.place];
        match entry.what {
            What::Event(_) => shelf.hold(entry.number),
            What::Ask(_) => shelf.asked = Some(entry.number),
            What::Commit(ask) => shelf.hold(ask),
            What::Record => shelf.records.push(entry.number),
            What::Store(made) if shelf.asked == Some(made) => {
                found.insert(entry.number, "SA");
            }
            What::Store(made) if shelf.records.contains(&made) => {
                found.insert(entry.number, "S");
            }
            What::Store(_) => {}
            What::Return { .. } => *shelf = Shelf::fresh(entry.number),
        }
    }
    found
}

/// What a box can store.
struct Shelf {
    /// The entries that made a record of the replica as it is.
    records: Vec<usize>,
    /// The latest ask since the box was made or returned.
    asked: Option<usize>,
}

impl Shelf {
    fn fresh(number: usize) -> Shelf {
        Shelf {
            records: vec![number],
            asked: None,
        }
    }

    fn hold(&mut self, number: usize) {
        self.records = vec![number];
    }
}
