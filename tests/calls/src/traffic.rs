//! Frames between the boxes of a group.

use second::frame::{DECIDE, PROPOSE};
use second::replica::coordinator;

use crate::prng::Prng;
use crate::record_layout::number;

/// Where the view stands in a frame.
const VIEW_IN_FRAME: usize = 8;

#[derive(Default)]
pub struct Traffic {
    /// All that was sent.
    sent: Vec<Vec<u8>>,
    /// Frames that are under way, with the place of the box that each goes to.
    under_way: Vec<(usize, Vec<u8>)>,
}

impl Traffic {
    /// Propose and Decide go to all other boxes, an Ack and an Estimate to the
    /// coordinator of the frame's view.
    pub fn send(&mut self, boxes: usize, from: usize, frame: &[u8]) {
        if frame.is_empty() {
            return;
        }
        self.sent.push(frame.to_vec());
        let to_all = [PROPOSE, DECIDE].contains(&frame[0]);
        let to = usize::from(coordinator(boxes as u8, number(frame, VIEW_IN_FRAME))) - 1;
        let places = (0..boxes).filter(|&place| place != from && (to_all || place == to));
        self.under_way
            .extend(places.map(|place| (place, frame.to_vec())));
    }

    /// The next frame to arrive, any of those under way, and the place of its
    /// box; some arrive twice. At times none although there are some.
    pub fn next(&mut self, prng: &mut Prng) -> Option<(usize, Vec<u8>)> {
        if self.under_way.is_empty() || prng.chance(1) {
            return None;
        }
        let one = prng.below(self.under_way.len());
        let (place, bytes) = self.under_way.swap_remove(one);
        if prng.chance(2) {
            self.under_way.push((place, bytes.clone()));
        }
        Some((place, bytes))
    }

    /// One of the frames that were sent, more often one that is under way to
    /// this box; none where there is none.
    pub fn frame_for(&self, prng: &mut Prng, own: u8) -> Option<Vec<u8>> {
        let to_own = |(place, _): &&(usize, Vec<u8>)| *place + 1 == usize::from(own);
        let under_way = self.under_way.iter().filter(to_own);
        let under_way: Vec<&Vec<u8>> = under_way.map(|(_, frame)| frame).collect();
        let sent: Vec<&Vec<u8>> = self.sent.iter().collect();
        let frames = match under_way.is_empty() || prng.chance(25) {
            true => sent,
            false => under_way,
        };
        (!frames.is_empty()).then(|| prng.pick(&frames).clone())
    }
}
