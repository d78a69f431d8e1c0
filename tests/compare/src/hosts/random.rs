//! Histories at random, at a host that keeps the conditions or breaks one.

mod asks;

use super::history::{Condition, Entry, Event, History, Station, What};
use crate::group::Group;
use crate::prng::Prng;

/// So many entries at most has a history.
const MOST_ENTRIES: usize = 70;

/// A history while it is made.
pub struct Random<'a> {
    prng: &'a mut Prng,
    breaks: Option<Condition>,
    pub history: History,
    pub entries: Vec<Entry>,
    /// The entries whose frames left.
    left: Vec<usize>,
}

impl<'a> Random<'a> {
    /// Up to two commands of one period that differ, or to the end.
    pub fn run(prng: &'a mut Prng, group: Group, breaks: Option<Condition>) -> Random<'a> {
        let mut host = Random {
            prng,
            breaks,
            history: History::new(group),
            entries: Vec::new(),
            left: Vec::new(),
        };
        for place in 0..host.history.stations.len() {
            if host.prng.chance(70) {
                host.enter(place, What::Store(place + 1));
            }
        }
        while host.entries.len() < MOST_ENTRIES && host.history.differing.is_none() {
            host.turn();
        }
        host
    }

    /// One event, and what the host does after it. Most of what occurs is of
    /// one period, so that boxes get far in it.
    fn turn(&mut self) {
        self.commit_late();
        let any = self.prng.below(self.history.stations.len());
        let step = match self.prng.below(40) {
            0 => self.tick(any),
            1..=12 => self.tick_behind(any),
            13..=18 => self.event(any, Event::GiveUp),
            _ => self.deliver(),
        };
        let Some(step) = step else { return };
        let place = self.history.made[&step].place;
        if self.may_break(Condition::GoneAtStop, 30) {
            return self.store_too_late(place, step);
        }
        if self.may_break(Condition::StoredFirst, 20) {
            return self.send_and_stop(place, step);
        }
        self.store_or_stop(place, step);
    }

    /// After a step its record is stored, or not; the box stops, or another.
    fn store_or_stop(&mut self, place: usize, step: usize) {
        if self.prng.chance(80) {
            self.store(place, step);
        }
        if self.prng.chance(15) {
            let any = self.prng.below(self.history.stations.len());
            let place = self.prng.pick(&[place, any]);
            self.come_back(place);
        }
    }

    fn tick(&mut self, place: usize) -> Option<usize> {
        let reading = self.prng.between(-500, 500);
        let reading = (!self.prng.chance(15)).then_some(reading);
        self.event(place, Event::Tick(reading))
    }

    /// A tick at a box that is behind another, or in period 0.
    fn tick_behind(&mut self, place: usize) -> Option<usize> {
        let period = |station: &Station| station.replica.period;
        let newest = self.history.stations.iter().map(period).max();
        let own = period(&self.history.stations[place]);
        (own == 0 || Some(own) < newest).then(|| self.tick(place))?
    }

    /// Any frame that left, mostly one of the last, comes to any box; if that
    /// changes nothing, another one, a few times over.
    fn deliver(&mut self) -> Option<usize> {
        for _ in 0..8 {
            let newest = match self.prng.chance(85) {
                true => self.left.len().min(8),
                false => self.left.len(),
            };
            if newest == 0 {
                return None;
            }
            let sent = self.left[self.left.len() - 1 - self.prng.below(newest)];
            let place = self.prng.below(self.history.stations.len());
            if self.history.would_change(sent, place) {
                return self.event(place, Event::Arrive(sent));
            }
        }
        None
    }

    fn enter(&mut self, place: usize, what: What) -> Option<usize> {
        let number = self.history.stations.len() + self.entries.len() + 1;
        let entry = Entry {
            number,
            place,
            what,
        };
        if !self.history.enter(&entry) {
            return None;
        }
        self.entries.push(entry);
        Some(number)
    }

    /// The record of a step is stored, and its frame leaves.
    fn store(&mut self, place: usize, step: usize) {
        self.enter(place, What::Store(step));
        self.let_leave(step);
        if self.may_break(Condition::InOrder, 40) {
            let station = &self.history.stations[place];
            let earlier = self.history.made.range(station.since..step);
            let earlier = earlier.rev().find(|(_, made)| made.place == place);
            if let Some((&earlier, _)) = earlier {
                self.enter(place, What::Store(earlier));
            }
        }
    }

    fn let_leave(&mut self, step: usize) {
        if !self.history.made[&step].frame.is_empty() {
            self.left.push(step);
        }
    }

    /// The box stops and returns.
    fn come_back(&mut self, place: usize) {
        let stored = &self.history.stations[place].stored;
        let (Some(&last), first) = (stored.last(), stored.len().saturating_sub(2)) else {
            return;
        };
        let before = stored[first];
        let record = match self.may_break(Condition::LastReturned, 60) {
            true => before,
            false => last,
        };
        let missed = self.prng.pick(&[0, 0, 0, 0, 1, 2]);
        self.enter(place, What::Return { record, missed });
    }

    /// The frame of a step arrives, stored or not; then the box returns.
    fn send_and_stop(&mut self, place: usize, step: usize) {
        let others = 0..self.history.stations.len();
        let mut others: Vec<usize> = others.filter(|&other| other != place).collect();
        self.prng.shuffle(&mut others);
        for other in others {
            if let Some(arrival) = self.enter(other, What::Event(Event::Arrive(step))) {
                self.store(other, arrival);
            }
        }
        self.come_back(place);
    }

    /// The box returns before the record of its step is stored; then that is
    /// stored, and its frame leaves.
    fn store_too_late(&mut self, place: usize, step: usize) {
        self.come_back(place);
        self.enter(place, What::Store(step));
        self.let_leave(step);
    }

    /// Whether the host breaks this condition now: of a hundred chances so
    /// many, if it is one that does.
    fn may_break(&mut self, condition: Condition, percent: usize) -> bool {
        self.breaks == Some(condition) && self.prng.chance(percent)
    }
}
