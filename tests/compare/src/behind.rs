//! What is behind a box: behind its replica, behind the record that it stored
//! last, and behind what each of its asks would make.

use std::collections::BTreeMap;

use crate::past::Past;
use crate::played::Event;

#[derive(Clone, Default)]
pub struct Behind {
    now: Past,
    stored: Option<Stored>,
    /// By their tickets, since the box was made or returned.
    asks: BTreeMap<u64, Ask>,
    /// The ticket of the latest of these.
    latest: u64,
}

#[derive(Clone)]
struct Stored {
    past: Past,
    /// The ticket of the ask that gave it, of those since the box was made or
    /// returned.
    ticket: Option<u64>,
}

#[derive(Clone)]
struct Ask {
    past: Past,
    /// The period whose decided state its step shows.
    shown: Option<u32>,
}

impl Behind {
    /// What is behind the replica.
    pub fn now(&self) -> &Past {
        &self.now
    }

    /// An event not refused. Gives the period whose decided state shows now.
    pub fn step(&mut self, event: Event) -> Option<u32> {
        with(&mut self.now, event)
    }

    /// An ask, by its event where the answer is ok. "an event never committed
    /// has not occurred, unless its record is returned".
    pub fn ask(&mut self, ticket: u64, event: Option<Event>) {
        let mut past = self.now.clone();
        let shown = event.and_then(|event| with(&mut past, event));
        self.asks.insert(ticket, Ask { past, shown });
        self.latest = ticket;
    }

    /// "committing that ticket makes exactly that step": what was behind the
    /// box at the ask, and its own row. Gives the period whose decided state
    /// shows now.
    pub fn commit(&mut self, ticket: u64) -> Result<Option<u32>, String> {
        let unknown = || format!("ticket {ticket} is committed, which no ask gave");
        let ask = self.asks.get(&ticket).ok_or_else(unknown)?;
        self.now = ask.past.clone();
        Ok(ask.shown)
    }

    /// The box wrote a command that left; if by a commit, also what was stored
    /// of its ask knows that, and what will be.
    pub fn decide(&mut self, period: u32, ticket: Option<u64>) {
        self.now.decide(period);
        let Some(ticket) = ticket else { return };
        if let Some(ask) = self.asks.get_mut(&ticket) {
            ask.past.decide(period);
        }
        if let Some(stored) = self.stored.as_mut() {
            if stored.ticket == Some(ticket) {
                stored.past.decide(period);
            }
        }
    }

    pub fn store(&mut self) {
        self.stored = Some(Stored {
            past: self.now.clone(),
            ticket: None,
        });
    }

    pub fn store_asked(&mut self) -> Result<(), String> {
        let ask = self.asks.get(&self.latest).ok_or("nothing was asked")?;
        self.stored = Some(Stored {
            past: ask.past.clone(),
            ticket: Some(self.latest),
        });
        Ok(())
    }

    /// The box returns from what it stored last. Gives the period whose decided
    /// state shows now.
    pub fn come_back(&mut self, missed: usize) -> Result<Option<u32>, String> {
        let stored = self.stored.as_mut().ok_or("a return from no record")?;
        // Tickets count anew.
        stored.ticket = None;
        self.now = stored.past.clone();
        self.asks.clear();
        Ok(self.now.miss(missed))
    }
}

/// One event more; of these only ticks have a row.
fn with(past: &mut Past, event: Event) -> Option<u32> {
    match event {
        Event::Tick(readings) => past.tick(readings),
        Event::GiveUp | Event::Deliver(_) => None,
    }
}

#[cfg(test)]
mod tests {
    use super::*;
    use second::law::Readings;

    fn tick(value: i32) -> Event {
        Event::Tick(Readings {
            marks: 1,
            values: [value, 0, 0, 0],
        })
    }

    fn shown(behind: &Behind) -> Vec<i32> {
        let rows = behind.now().rows().iter();
        rows.map(|row| row.readings.values[0]).collect()
    }

    #[test]
    fn an_asked_row_counts_once_committed() {
        let mut behind = Behind::default();
        behind.step(tick(5));
        behind.ask(1, Some(tick(6)));
        assert_eq!(shown(&behind), [5]);
        behind.ask(2, Some(tick(7)));
        assert_eq!(behind.commit(2), Ok(None));
        assert_eq!(shown(&behind), [5, 7]);
        assert!(behind.commit(3).is_err());
        // Ignored or refused: no row.
        behind.ask(3, None);
        assert_eq!(behind.commit(3), Ok(None));
        assert_eq!(shown(&behind), [5, 7]);
    }

    #[test]
    fn an_asked_row_counts_once_its_record_is_returned() {
        let mut behind = Behind::default();
        behind.ask(1, Some(tick(6)));
        behind.store_asked().unwrap();
        behind.step(tick(7));
        assert_eq!(shown(&behind), [7]);
        assert_eq!(behind.come_back(1), Ok(None));
        assert_eq!(shown(&behind), [6, 0]);
        assert!(behind.commit(1).is_err());
        assert!(behind.store_asked().is_err());
    }

    #[test]
    fn a_decided_state_shows_at_the_commit_of_the_next_tick() {
        let mut behind = Behind::default();
        behind.step(tick(5));
        behind.ask(1, Some(Event::GiveUp));
        behind.store_asked().unwrap();
        assert_eq!(behind.commit(1), Ok(None));
        behind.decide(1, Some(1));
        behind.ask(2, Some(tick(6)));
        assert_eq!(behind.commit(2), Ok(Some(1)));
        // What was stored before the commit knows of the decision too.
        assert_eq!(behind.come_back(1), Ok(Some(1)));
    }
}
