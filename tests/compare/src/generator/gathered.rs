//! What a course does for a group that needs more than a majority of its boxes
//! to decide or to take over, since it would otherwise seldom do so.

use second::replica::Mode;

use super::Course;

impl Course<'_> {
    pub(super) fn needs_most(&self) -> bool {
        self.writer.to_go_on() > self.writer.majority()
    }

    /// All boxes come to so many periods after the newest, and no parting lasts.
    pub(super) fn gather(&mut self, after: u32) {
        self.away.fill(0);
        self.parted = 0;
        let due = self.writer.newest_period() + after;
        for place in self.writer.places() {
            self.bring_to(place, due);
        }
    }

    fn bring_to(&mut self, place: usize, due: u32) {
        if self.writer.stations[place].is_down {
            let missed = self.writer.periods_behind(place);
            self.writer.come_back(place, missed);
        }
        while self.is_behind(place, due) && !self.writer.is_full() {
            self.writer.tick(place);
        }
    }

    /// Those of these boxes that can lead a take-over: the normal coordinators,
    /// if the others are too few. A normal coordinator's give-up is ignored, so
    /// that its estimate is heard only where it leads.
    pub(super) fn leading(&self, places: &[usize]) -> Vec<usize> {
        let (bound, free): (Vec<usize>, Vec<usize>) =
            places.iter().partition(|place| self.is_bound(**place));
        let are_few = self.needs_most() && free.len() < self.writer.to_propose();
        match are_few && !bound.is_empty() {
            true => bound,
            false => places.to_vec(),
        }
    }

    fn is_bound(&self, place: usize) -> bool {
        let is_normal = self.writer.replicas[place].mode == Mode::Normal;
        is_normal && self.writer.coordinator_seen_by(place) == place
    }

    /// How many of so many boxes hear of a proposal that falls just short of the
    /// Acks to decide, or fewer where the rest would not be enough to take over.
    pub(super) fn few_hearing(&self, others: usize) -> usize {
        let few = self.writer.to_decide().saturating_sub(2);
        match self.needs_most() {
            true => few.min(others.saturating_sub(self.writer.to_propose())),
            false => few,
        }
    }
}
