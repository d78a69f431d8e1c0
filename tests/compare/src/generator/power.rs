//! Boxes of a course that lose their power for some time, also most of them at
//! once.

use super::Course;
use crate::station::MOST_MISSED;

impl Course<'_> {
    /// A period is missed by boxes that return after the others' ticks.
    pub(super) fn tick_and_restore(&mut self) {
        let is_missed = self.chance(60);
        if !is_missed {
            self.restore_power();
        }
        self.tick_all();
        if is_missed {
            self.restore_power();
        }
    }

    /// Boxes without power return, most of them, and those far from the
    /// others.
    fn restore_power(&mut self) {
        if self.chance(self.habits.blackout) {
            self.blackout();
        }
        for place in self.writer.places() {
            self.come_back_from_afar(place);
            if self.writer.stations[place].is_down && self.chance(60) {
                self.writer.come_back_somehow(place);
            }
        }
    }

    /// A box that returned to a period far from the others' returns once more,
    /// if its record leads to where they are.
    fn come_back_from_afar(&mut self, place: usize) {
        let record_period = self.writer.stations[place].record_period();
        let missed = self.writer.newest_period().checked_sub(record_period);
        match missed {
            Some(missed) if self.writer.is_far(place) && missed <= MOST_MISSED => {
                self.writer.come_back(place, missed);
            }
            _ => {}
        }
    }

    /// A majority loses its power, also all boxes; what the others do comes to
    /// little. Then all return, most of them to one period.
    fn blackout(&mut self) {
        let is_long = self.chance(3);
        let least = self.writer.majority();
        let most = self.away.len();
        let cut = match is_long {
            true => most,
            false => least + self.writer.prng.below(most - least + 1),
        };
        let mut places = self.writer.places();
        places.truncate(cut);
        for &place in &places {
            if !self.writer.stations[place].has_record() {
                self.writer.store(place);
            }
            self.writer.cut_power(place);
        }
        self.writer.counts.blackouts += 1;
        self.crowd_gives_up(60);
        self.pump(50);
        let target = self.writer.newest_period() + self.passed_periods(&places, is_long);
        for place in places {
            let missed = target.saturating_sub(self.writer.stations[place].record_period());
            match self.chance(80) {
                true => self.writer.come_back(place, missed),
                false if is_long => self.writer.come_back(place, missed),
                false => self.writer.come_back_somehow(place),
            }
        }
    }

    /// The periods that pass before a majority has power again, after the
    /// newest: a few, or as many as a box can return with.
    fn passed_periods(&mut self, places: &[usize], is_long: bool) -> u32 {
        if !is_long {
            return self.writer.prng.pick(&[0, 0, 1, 1, 2, 5]);
        }
        let behind = places
            .iter()
            .map(|&place| self.writer.periods_behind(place));
        MOST_MISSED.saturating_sub(behind.max().unwrap_or(0))
    }

    /// The coordinator decides with just enough Acks, and nobody hears of it;
    /// it loses its power, and boxes that sent those Acks return. What they
    /// acknowledged they must know.
    pub(super) fn acks_survive(&mut self) {
        let mut others = self.undecided();
        let Some(&seen_by) = others.first() else {
            return;
        };
        let coordinator = self.writer.coordinator_seen_by(seen_by);
        others.retain(|&place| place != coordinator);
        others.truncate(self.writer.to_decide() - 1);
        self.pump_to(&[&others[..], &[coordinator]].concat(), 100);
        for place in others {
            if self.chance(70) {
                let missed = self.writer.periods_behind(place);
                self.writer.come_back(place, missed);
            }
        }
        self.writer.cut_power(coordinator);
        self.converge(0);
    }
}
