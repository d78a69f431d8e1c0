//! The rows of readings that a script hands out.

use second::law::{self, State, MAX_READINGS};
use second::reading::{Reading, Row};
use second::replica::Replica;

use super::Writer;
use crate::single_bits;
use crate::stops::Period;

/// How a script's readings are drawn.
#[derive(Clone, Copy)]
pub struct Rows {
    /// So many different rows a period are handed out, which bounds the
    /// search of the demand-3 check.
    pub variety: usize,
    pub largest: i32,
    /// Of a hundred places, those without a reading.
    pub absent: usize,
    /// Of a hundred readings, those that are singles.
    pub singles: usize,
}

impl Writer<'_> {
    /// One of the rows made for the period after the box's; the first box to
    /// come there is the one whose state they are aimed by.
    pub(super) fn row_for(&mut self, place: usize) -> Row {
        let period = self.replicas[place].period as usize;
        if self.handed.len() <= period {
            while self.handed.len() <= period {
                let rows = (0..self.rows.variety).map(|_| self.new_row()).collect();
                self.handed.push(rows);
            }
            self.aim_rows(place);
        }
        self.prng.pick(&self.handed[period])
    }

    /// Aims the rows made for the period after the box's.
    fn aim_rows(&mut self, place: usize) {
        let Some(stops) = &mut self.stops else { return };
        let replica = &self.replicas[place];
        let period = Period {
            settings: &replica.settings,
            number: replica.period + 1,
            state: &next_state(replica),
            singles: self.rows.singles,
        };
        stops.aim(&period, &mut self.handed[replica.period as usize]);
    }

    /// Missing at and above m, where a script has no word for it.
    fn new_row(&mut self) -> Row {
        let mut row = [Reading::Missing; MAX_READINGS];
        for reading in &mut row[..self.group.settings.m.into()] {
            if !self.prng.chance(self.rows.absent) {
                *reading = self.new_reading();
            }
        }
        row
    }

    fn new_reading(&mut self) -> Reading {
        if self.prng.chance(self.rows.singles) {
            return Reading::Newtons(f32::from_bits(self.new_single()));
        }
        Reading::Count(match self.prng.below(50) {
            0 => self.prng.pick(&[i32::MIN, i32::MAX, 0, -1]),
            _ => self.value(),
        })
    }

    /// Mostly of a count's size, for the sake of the demand-3 check.
    fn new_single(&mut self) -> u32 {
        let value = self.value();
        match self.prng.below(8) {
            0 => single_bits::special(self.prng),
            _ => single_bits::near(self.prng, value),
        }
    }

    fn value(&mut self) -> i32 {
        self.prng.between(-self.rows.largest, self.rows.largest)
    }
}

/// The state that the replica's next tick leaves.
fn next_state(replica: &Replica) -> State {
    let estimate = &replica.estimate;
    match replica.period {
        0 => estimate.state,
        _ => {
            law::update(&replica.settings, &estimate.state, &estimate.readings)
                .expect("good settings")
                .state
        }
    }
}
