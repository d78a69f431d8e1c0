//! Acks that are asked for, or given while something else is asked.

use super::Writer;

/// How a box comes to acknowledge a proposal.
#[derive(Clone, Copy, PartialEq, Eq)]
pub enum AskedAck {
    /// After a give-up was asked, which the Ack makes void.
    AfterAsk,
    /// It is asked for and stored; then another ask, which is refused, makes it
    /// void, and the replica is stored as it is. So the Ack never leaves.
    Refused,
    /// It is asked for, stored and committed.
    Asked,
}

impl AskedAck {
    pub const ALL: [AskedAck; 3] = [AskedAck::AfterAsk, AskedAck::Refused, AskedAck::Asked];
}

impl Writer<'_> {
    /// A box that is there acknowledges a proposal.
    pub fn acknowledge(&mut self, proposal: usize, place: usize, manner: AskedAck) {
        let period = self.replicas[place].period;
        if self.is_full() || self.is_out(place) || self.sent[proposal].frame.period != period {
            return;
        }
        match manner {
            AskedAck::AfterAsk => {
                self.only(true, |writer| writer.give_up_alone(place));
                self.only(false, |writer| writer.deliver_alone(proposal, place));
                self.store(place);
            }
            AskedAck::Refused => {
                self.only(true, |writer| writer.deliver_alone(proposal, place));
                self.store_asked(place);
                self.only(true, |writer| writer.refused_step(place));
                self.store(place);
                self.commit(place, self.latest_ticket(place).saturating_sub(1));
            }
            AskedAck::Asked => {
                self.only(true, |writer| writer.deliver_alone(proposal, place));
                self.store_asked(place);
                self.commit_latest(place);
            }
        }
    }
}
