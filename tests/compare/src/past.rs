//! What stands behind a replica, or behind the record of one, as far as
//! demand 3 asks for it.

use std::rc::Rc;

use second::law::Readings;

/// A row of readings that counts as one tick's.
#[derive(Clone, Copy, Debug, PartialEq, Eq)]
pub struct Row {
    pub readings: Readings,
    /// Of a missed period: "the single controller's run may use all-absent
    /// readings for the missed periods, which count as ticks".
    pub is_missed: bool,
}

/// "Row k is one that some box was handed for period k: by that box's k-th
/// tick not refused." Steps that a return undoes "don't count".
#[derive(Clone, Debug, Default)]
pub struct Past {
    rows: Rc<Vec<Row>>,
    /// A period that it decided, with a command that left, until the next
    /// tick.
    decided: Option<u32>,
}

impl Past {
    pub fn rows(&self) -> &[Row] {
        &self.rows
    }

    pub fn decide(&mut self, period: u32) {
        self.decided = Some(period);
    }

    /// A tick not refused. Gives the period whose decided state shows now.
    pub fn tick(&mut self, readings: Readings) -> Option<u32> {
        self.add(readings, false);
        self.decided.take()
    }

    /// So many missed periods. Gives the period whose decided state shows
    /// now.
    pub fn miss(&mut self, missed: usize) -> Option<u32> {
        for _ in 0..missed {
            self.add(Readings::default(), true);
        }
        match missed {
            0 => None,
            1 => self.decided.take(),
            _ => {
                self.decided = None;
                None
            }
        }
    }

    fn add(&mut self, readings: Readings, is_missed: bool) {
        let row = Row {
            readings,
            is_missed,
        };
        Rc::make_mut(&mut self.rows).push(row);
    }
}

#[cfg(test)]
mod tests {
    use super::*;

    fn row(value: i32) -> Readings {
        Readings {
            marks: 1,
            values: [value, 0, 0, 0],
        }
    }

    fn shown(past: &Past) -> Vec<(i32, bool)> {
        let shown = |row: &Row| (row.readings.values[0], row.is_missed);
        past.rows().iter().map(shown).collect()
    }

    #[test]
    fn rows_go_back_to_the_record_and_on_by_those_missed() {
        let mut past = Past::default();
        past.tick(row(5));
        let stored = past.clone();
        past.tick(row(6));
        past.tick(row(7));
        assert_eq!(shown(&past), [(5, false), (6, false), (7, false)]);
        past = stored.clone();
        past.miss(2);
        past.tick(row(8));
        let expected = [(5, false), (0, true), (0, true), (8, false)];
        assert_eq!(shown(&past), expected);
        assert_eq!(shown(&stored), [(5, false)]);
    }

    #[test]
    fn a_decided_state_shows_at_the_next_tick_alone() {
        let decided = || {
            let mut past = Past::default();
            past.tick(row(5));
            past.decide(1);
            past
        };
        let mut past = decided();
        assert_eq!(past.miss(0), None);
        assert_eq!(past.tick(row(6)), Some(1));
        assert_eq!(past.tick(row(7)), None);
        let mut past = decided();
        assert_eq!((past.miss(1), past.miss(1)), (Some(1), None));
        let mut past = decided();
        assert_eq!((past.miss(2), past.tick(row(6))), (None, None));
    }
}
