//! Records that asks gave, and what leaves by them.

use second::replica::Answer;

use super::Writer;

impl Writer<'_> {
    /// `SA`: the record that the latest ask gave is stored, unless one made
    /// later was.
    pub(super) fn store_asked(&mut self, place: usize) {
        if self.is_full() || self.is_out(place) || !self.stations[place].may_store_asked() {
            return;
        }
        self.push_store_asked(place);
        let station = &self.stations[place];
        let is_open = station.is_asked();
        let is_void = !is_open && station.latest_ask().is_some_and(|ask| !ask.is_committed);
        self.counts.asks.count_store(is_open, is_void);
        if is_open {
            // Its record counts as made before the one that is stored now.
            self.drop_waiting(place);
        }
        if let Some(waiting) = self.stations[place].store_asked() {
            self.leave(waiting);
        }
    }

    /// `SA` where there is nothing to store.
    pub(super) fn store_nothing(&mut self, place: usize) {
        if self.is_full() || self.is_out(place) || self.stations[place].latest_ask().is_some() {
            return;
        }
        self.push_store_asked(place);
        self.counts.malformed += 1;
        self.counts.asks.bad_stores += 1;
    }

    /// After a step that made an ask void: its record is stored all the same.
    pub(super) fn store_void(&mut self, place: usize) {
        let latest = self.stations[place].latest_ask();
        let is_void = latest.is_some_and(|ask| !ask.is_committed && ask.steps_since == 1);
        if is_void && self.prng.chance(25) {
            self.store_asked(place);
        }
    }

    /// The numbers of the boxes whose latest ask gave nothing to store.
    pub(super) fn without_ask(&self) -> Vec<usize> {
        let places = 0..self.stations.len();
        let without = places.filter(|&place| self.stations[place].latest_ask().is_none());
        without.map(|place| place + 1).collect()
    }

    fn push_store_asked(&mut self, place: usize) {
        self.lines.push(format!("SA {}", place + 1).into_bytes());
        self.unsent.push(self.lines.len());
    }

    /// What the present replica's step made gives way to an event's. What a
    /// commit made can still leave by `SA`.
    pub(super) fn set_aside(&mut self, place: usize, answer: Answer) {
        let station = &mut self.stations[place];
        if let Some(ask) = station.asks.last_mut() {
            match answer {
                Answer::Ok => ask.steps_since += 1,
                _ => ask.refused_since += 1,
            }
            if std::mem::take(&mut ask.is_present) && !ask.is_overtaken {
                station.behind = station.waiting.take();
            }
        }
        self.drop_waiting(place);
    }
}
