//! The beginning of a course on the bench by which its state comes to the lowest
//! end.

use super::Course;
use crate::stops::PRESSING_TICKS;

impl Course<'_> {
    /// Every box ticks until the bench's state is the lowest. The frames of that
    /// time are lost, but for some that come out of order.
    pub(super) fn press(&mut self) {
        for _ in 0..PRESSING_TICKS {
            for place in self.writer.places() {
                self.writer.tick(place);
            }
        }
        self.writer.pending.clear();
    }
}
