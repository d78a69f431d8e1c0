//! Records that are stored, boxes that lose their power and return.

use second::replica::{Answer, Mode};

use super::Writer;
use crate::station::{Waiting, MOST_MISSED};

impl Writer<'_> {
    /// After an event: a record is stored late, a box loses its power, another
    /// returns.
    pub(super) fn let_time_pass(&mut self, last: usize) {
        if self.prng.chance(25) {
            self.store_late();
        }
        if self.prng.chance(self.disturbances.power_cuts) {
            self.cut_power_somewhere(last);
        }
        if self.prng.chance(5) {
            self.come_back_late();
        }
        if self.asking.is_some() {
            self.commit_late();
        }
    }

    /// After a step its record is stored at once, later or never.
    pub(super) fn hold(&mut self, place: usize, waiting: Waiting, answer: Answer) {
        self.set_aside(place, answer);
        let station = &mut self.stations[place];
        station.waiting = Some(waiting);
        station.just_returned = false;
        station.unstored += usize::from(answer == Answer::Ok);
        if self.asking.is_some() {
            self.store_void(place);
        }
        let may_leave = waiting.frame.is_some() || waiting.decided.is_some();
        let share = match answer {
            Answer::Ok if may_leave => self.stored_at_once,
            Answer::Ok => self.stored_at_once / 2,
            _ => self.stored_at_once / 30,
        };
        if self.prng.chance(share) {
            self.store(place);
        } else if answer == Answer::Ok && self.prng.chance(50) {
            self.to_store.push(place);
        }
    }

    /// What was made and not stored never leaves.
    pub(super) fn drop_waiting(&mut self, place: usize) {
        let waiting = self.stations[place].waiting.take();
        self.count_dropped(waiting);
    }

    /// The same of what a commit made before the last event.
    pub(super) fn drop_behind(&mut self, place: usize) {
        let behind = self.stations[place].behind.take();
        self.count_dropped(behind);
    }

    fn count_dropped(&mut self, waiting: Option<Waiting>) {
        if let Some(waiting) = waiting {
            self.counts.frames_never_left += usize::from(waiting.frame.is_some());
            self.counts.commands_never_left += usize::from(waiting.decided.is_some());
        }
    }

    /// `S`: the record of the replica is stored, unless it counts as made
    /// before one that was stored.
    pub fn store(&mut self, place: usize) {
        if self.is_full() || self.is_out(place) || !self.stations[place].may_store() {
            return;
        }
        self.drop_behind(place);
        self.counts.stores += 1;
        self.lines.push(format!("S {}", place + 1).into_bytes());
        self.unsent.push(self.lines.len());
        let replica = &self.replicas[place];
        if let Some(waiting) = self.stations[place].store(replica) {
            self.leave(waiting);
        }
    }

    /// A record that is not stored yet is stored now.
    fn store_late(&mut self) {
        if !self.to_store.is_empty() {
            let next = self.prng.below(self.to_store.len());
            let place = self.to_store.swap_remove(next);
            self.store(place);
        }
    }

    /// The box loses its power, unless it has no record to return from.
    pub fn cut_power(&mut self, place: usize) {
        self.stations[place].is_down |= self.stations[place].has_record();
    }

    /// `R`: the box returns from the record stored last.
    pub fn come_back(&mut self, place: usize, missed: u32) {
        if self.is_full() || self.stopped[place] || !self.stations[place].has_record() {
            return;
        }
        let line = format!("R {} {missed}", place + 1);
        self.lines.push(line.into_bytes());
        self.unsent.push(self.lines.len());
        self.stations[place].is_down = false;
        match self.stations[place].come_back(missed) {
            Ok(replica) => {
                self.count_return(place, missed);
                self.drop_waiting(place);
                self.drop_behind(place);
                let held = self.take_held(place).returned_as(replica);
                self.put_back(place, held);
                let former = std::mem::take(&mut self.stations[place].asks);
                self.stations[place].unstored = 0;
                self.stations[place].just_returned = true;
                self.stations[place].was_marked = false;
                self.commit_former(place, &former);
            }
            Err(refusal) => {
                self.counts.refused[usize::from(refusal.number())] += 1;
                if let Some(ask) = self.stations[place].asks.last_mut() {
                    ask.returns_refused += 1;
                }
            }
        }
    }

    /// The box returns with so many missed periods as it may have been away
    /// for, or any other number; then its record is stored, or it stops once
    /// more.
    pub fn come_back_somehow(&mut self, place: usize) {
        let missed = self.missed_count(place);
        self.come_back(place, missed);
        // So far from the others few boxes stay.
        let again = match self.is_far(place) {
            true => 90,
            false => 10,
        };
        if self.prng.chance(again) {
            let exact = self.periods_behind(place);
            self.come_back(place, exact);
        }
        if self.prng.chance(60) {
            self.store(place);
        }
    }

    /// The periods from the record stored last to the others' newest.
    pub fn periods_behind(&self, place: usize) -> u32 {
        let newest = self.newest_period();
        newest.saturating_sub(self.stations[place].record_period())
    }

    fn missed_count(&mut self, place: usize) -> u32 {
        let exact = self.periods_behind(place);
        match self.prng.below(200) {
            0 => MOST_MISSED,
            1..=3 => self
                .prng
                .pick(&[MOST_MISSED + 1, MOST_MISSED + 2, u32::MAX]),
            4..=29 => 0,
            30..=49 => 1,
            50..=69 => exact + 1 + self.prng.below(3) as u32,
            70..=79 => self.prng.below(exact as usize + 1) as u32,
            80..=89 => 2 + self.prng.below(5) as u32,
            _ => exact,
        }
    }

    /// Any box loses its power, most often the one at which something has
    /// just occurred; half of them return at once.
    fn cut_power_somewhere(&mut self, last: usize) {
        let place = match self.prng.below(5) {
            0 => self.prng.below(self.replicas.len()),
            1 => self.coordinator_seen_by(last),
            _ => last,
        };
        if self.is_out(place) || !self.stations[place].has_record() {
            return;
        }
        self.cut_power(place);
        if self.prng.chance(50) {
            self.come_back_somehow(place);
        }
    }

    /// A box without power returns.
    fn come_back_late(&mut self) {
        let place = self.prng.below(self.replicas.len());
        if self.stations[place].is_down {
            self.come_back_somehow(place);
        }
    }

    /// The numbers of the boxes that have stored nothing.
    pub(super) fn without_record(&self) -> Vec<usize> {
        let places = 0..self.stations.len();
        let without = places.filter(|&place| !self.stations[place].has_record());
        without.map(|place| place + 1).collect()
    }

    /// What has not left when the script ends never leaves.
    pub fn end(&mut self) {
        for place in 0..self.stations.len() {
            self.drop_waiting(place);
            self.drop_behind(place);
        }
    }

    /// Counts a return by what it undoes; the replica is still the one that
    /// stopped.
    fn count_return(&mut self, place: usize, missed: u32) {
        let (station, replica) = (&self.stations[place], &self.replicas[place]);
        let is_coordinator = self.coordinator_seen_by(place) == place;
        let has_proposed = is_coordinator
            && replica.mode == Mode::Normal
            && replica.period > 0
            && (replica.base_view, replica.estimate.base_period) == (replica.view, replica.period);
        let cases = [
            missed == 0,
            missed == 1,
            (2..MOST_MISSED).contains(&missed),
            missed == MOST_MISSED,
            self.is_past(place, missed),
            has_proposed && !replica.decided,
            replica.decided,
            replica.mode == Mode::ViewChange,
            station.just_returned,
            station.unstored > 0,
        ];
        self.counts.steps_lost += station.unstored;
        self.counts.asks.returned += usize::from(station.is_record_asked);
        for (count, case) in self.counts.returns.iter_mut().zip(cases) {
            *count += usize::from(case);
        }
    }

    /// Whether a return leads to a period that no other box has been in.
    fn is_past(&self, place: usize, missed: u32) -> bool {
        let others = (0..self.replicas.len()).filter(|&other| other != place);
        let newest = others.map(|other| self.replicas[other].period).max();
        newest < Some(self.stations[place].record_period() + missed)
    }
}
