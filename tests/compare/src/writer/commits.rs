//! Commits of right and of wrong tickets.

use super::Writer;
use crate::counts::Ground;
use crate::station::{Ask, Waiting};

impl Writer<'_> {
    /// After an event: an ask that waits is committed.
    pub(super) fn commit_late(&mut self) {
        if self.to_commit.is_empty() || !self.prng.chance(35) {
            return;
        }
        let next = self.prng.below(self.to_commit.len());
        let place = self.to_commit.swap_remove(next);
        self.commit_latest(place);
        match self.prng.below(4) {
            0 => self.store(place),
            1 => self.store_asked(place),
            2 => self.to_store.push(place),
            _ => {}
        }
    }

    /// The latest ticket, and now and then a wrong one before and after it.
    pub(super) fn commit_latest(&mut self, place: usize) {
        let wrong = self.asking.map_or(0, |asking| asking.wrong);
        if self.prng.chance(wrong) {
            let ticket = self.wrong_ticket(place);
            self.commit(place, ticket);
        }
        self.commit(place, self.latest_ticket(place));
        if self.prng.chance(wrong) {
            self.commit(place, self.latest_ticket(place));
        }
    }

    /// The latest ticket, whether it can be committed or not.
    pub fn commit_once_more(&mut self, place: usize) {
        self.commit(place, self.latest_ticket(place));
    }

    /// After a return: a ticket from before it.
    pub(super) fn commit_former(&mut self, place: usize, former: &[Ask]) {
        if let (Some(ask), true) = (former.last(), self.asking.is_some()) {
            if self.prng.chance(20) {
                self.commit(place, ask.ticket);
            }
            if self.prng.chance(5) {
                self.store_nothing(place);
            }
        }
    }

    pub(super) fn latest_ticket(&self, place: usize) -> u64 {
        self.stations[place].tickets.latest
    }

    fn wrong_ticket(&mut self, place: usize) -> u64 {
        let latest = self.latest_ticket(place);
        let earlier = latest.saturating_sub(1 + self.prng.below(3) as u64);
        self.prng
            .pick(&[0, earlier, earlier, latest + 1, latest + 2, u64::MAX])
    }

    /// `C`: a ticket is committed, or refused.
    pub(super) fn commit(&mut self, place: usize, ticket: u64) {
        if self.is_full() || self.is_out(place) {
            return;
        }
        let ground = self.ground(place, ticket);
        let (held, done) = self.take_held(place).commit(ticket);
        self.put_back(place, held);
        self.lines
            .push(format!("C {} {ticket}", place + 1).into_bytes());
        match done {
            Ok(()) => self.make_committed(place, ticket),
            Err(refusal) => {
                self.unsent.push(self.lines.len());
                self.counts.refused[usize::from(refusal.number())] += 1;
                self.counts.asks.refused[ground as usize] += 1;
            }
        }
    }

    /// Why a commit is refused, if it is.
    fn ground(&self, place: usize, ticket: u64) -> Ground {
        let asks = &self.stations[place].asks;
        match asks.last() {
            _ if ticket == 0 => Ground::Zero,
            None => Ground::NoneAsked,
            Some(latest) if ticket < latest.ticket => Ground::Earlier,
            Some(latest) if ticket > latest.ticket => Ground::Later,
            Some(latest) if !latest.is_ok => Ground::Idle,
            Some(latest) if latest.is_committed => Ground::Committed,
            Some(_) => Ground::Void,
        }
    }

    /// "the commit counts as writing and sending what its ask gave"; what is
    /// stored already leaves at once.
    fn make_committed(&mut self, place: usize, ticket: u64) {
        self.drop_waiting(place);
        let line = self.lines.len();
        let asks = &mut self.stations[place].asks;
        let named = asks.iter().position(|ask| ask.ticket == ticket);
        // No ticket but the latest is taken, unless a fault is planted.
        let at = named.unwrap_or(asks.len() - 1);
        let ask = &mut asks[at];
        ask.is_committed = true;
        ask.is_present = true;
        self.counts.asks.committed += 1;
        self.counts.asks.committed_late += usize::from(line > ask.line + 2);
        self.counts.asks.committed_after_refused += usize::from(ask.refused_since > 0);
        self.counts.asks.committed_after_return += usize::from(ask.returns_refused > 0);
        let (is_stored, decided) = (ask.is_stored, ask.decided);
        let bytes = ask.frame.clone();
        let waiting = Waiting {
            frame: self.made_frame(&bytes),
            decided,
        };
        if let Some(decision) = decided {
            self.count_decision(place, &decision);
            self.counts.marks.committed += usize::from(decision.is_marked);
        }
        let station = &mut self.stations[place];
        if is_stored {
            station.is_record_asked = false;
            self.leave(waiting);
        } else {
            station.unstored += 1;
            station.waiting = Some(waiting);
        }
    }
}
