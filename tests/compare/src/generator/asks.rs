//! Acks of a course that are asked for, or given while something else is asked.
//! A box that has acknowledged must know it, whatever it commits then and
//! whatever record it returns from.

use super::Course;
use crate::writer::AskedAck;

impl Course<'_> {
    /// The coordinator decides with just enough Acks, and nobody hears of it; it
    /// loses its power, and the others go on without it.
    pub(super) fn asked_acks(&mut self) {
        let mut others = self.undecided();
        let Some(&seen_by) = others.first() else {
            return;
        };
        let coordinator = self.writer.coordinator_seen_by(seen_by);
        others.retain(|&place| place != coordinator);
        others.truncate(self.writer.to_decide() - 1);
        let manner = self.writer.prng.pick(&AskedAck::ALL);
        for &place in &others {
            if let Some(proposal) = self.proposal_to(place) {
                self.writer.acknowledge(proposal, place, manner);
            }
        }
        self.pump_to(&[coordinator], 100);
        self.writer.cut_power(coordinator);
        for place in others {
            match manner {
                AskedAck::AfterAsk => self.writer.commit_once_more(place),
                AskedAck::Refused | AskedAck::Asked => {
                    let missed = self.writer.periods_behind(place);
                    self.writer.come_back(place, missed);
                }
            }
        }
        self.converge(0);
    }

    /// A Propose on its way to a box, which comes to it by that.
    fn proposal_to(&mut self, place: usize) -> Option<usize> {
        let writer = &mut self.writer;
        let mut pending = writer.pending.iter();
        let at = pending.position(|&(sent, to)| to == place && writer.is_propose(sent))?;
        writer.pending.remove(at).map(|(sent, _)| sent)
    }
}
