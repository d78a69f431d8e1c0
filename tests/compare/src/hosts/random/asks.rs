//! What a host does that asks first.

use super::super::history::{Condition, Event, What};
use super::Random;

impl Random<'_> {
    /// Whether the host asks: the one that keeps all conditions, and the one
    /// that breaks what is said of asks.
    fn asks(&self) -> bool {
        matches!(self.breaks, None | Some(Condition::UnsteppedFirst))
    }

    /// An event, asked first or not. Gives the step that was made and whose
    /// record the host may store now.
    pub(super) fn event(&mut self, place: usize, event: Event) -> Option<usize> {
        if !self.asks() || self.prng.chance(50) {
            return self.enter(place, What::Event(event));
        }
        let ask = self.enter(place, What::Ask(event))?;
        if self.prng.chance(15) {
            self.store_anew(place);
        }
        if self.prng.chance(70) {
            self.enter(place, What::Store(ask));
            if self.may_break(Condition::UnsteppedFirst, 40) {
                self.store_unstepped(place, ask);
                return None;
            }
            if self.prng.chance(10) {
                self.come_back(place);
                return None;
            }
        }
        match self.prng.chance(80) {
            true => self.commit(place),
            false => None,
        }
    }

    /// Before an event: an ask that waits is committed.
    pub(super) fn commit_late(&mut self) {
        if self.asks() && self.prng.chance(20) {
            let place = self.prng.below(self.history.stations.len());
            if let Some(step) = self.commit(place) {
                self.store_or_stop(place, step);
            }
        }
    }

    /// Gives the step, if something was asked.
    fn commit(&mut self, place: usize) -> Option<usize> {
        let ask = self.history.stations[place].open?;
        self.enter(place, What::Commit(ask))?;
        if self.history.made[&ask].is_stored {
            self.let_leave(ask);
        }
        Some(ask)
    }

    /// A record of the replica as it is is made and stored.
    fn store_anew(&mut self, place: usize) {
        if let Some(record) = self.enter(place, What::Record) {
            self.enter(place, What::Store(record));
        }
    }

    /// After the ask's record one of the unstepped replica is stored; then the
    /// ask is committed, its frame arrives, and the box returns.
    fn store_unstepped(&mut self, place: usize, ask: usize) {
        self.store_anew(place);
        if self.commit(place).is_some() {
            self.send_and_stop(place, ask);
        }
    }
}
