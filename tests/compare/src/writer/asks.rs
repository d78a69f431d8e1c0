//! Events that are asked first, and what the host does then.

use second::record::LENGTH;
use second::replica::{Answer, Areas, Replica, Step};

use super::Writer;
use crate::decision::Decision;
use crate::prng::Prng;
use crate::station::{Ask, MOST_MISSED};

/// How the boxes of a script ask.
#[derive(Clone, Copy)]
pub struct Asking {
    /// Of a hundred events, those that are asked first.
    asked: usize,
    /// Of a hundred commits, those around which another ticket is tried.
    pub(super) wrong: usize,
}

impl Asking {
    pub fn random(prng: &mut Prng) -> Asking {
        Asking {
            asked: prng.pick(&[20, 40, 70, 100]),
            wrong: prng.pick(&[2, 5, 15]),
        }
    }
}

impl Writer<'_> {
    /// Whether the next event is asked.
    pub(super) fn is_asked_first(&mut self) -> bool {
        let asking = self.asking;
        match (self.only, asking) {
            (Some(is_asked), _) => is_asked,
            (None, Some(asking)) => self.prng.chance(asking.asked),
            (None, None) => false,
        }
    }

    /// Events that are all asked, with nothing after them, or none of them.
    pub(super) fn only(&mut self, is_asked: bool, events: impl FnOnce(&mut Self)) {
        self.only = Some(is_asked);
        events(self);
        self.only = None;
    }

    /// `AT`, `AG` or `AD`, and what its host does then. Gives what the step
    /// wrote, if it was made by that.
    pub(super) fn ask(
        &mut self,
        place: usize,
        text: String,
        areas: Areas,
        event: impl FnOnce(Replica, Areas) -> (Replica, Step),
    ) -> Step {
        let Areas { frame, command } = areas;
        let mut record = vec![0; LENGTH];
        let was_asked = self.stations[place].is_asked();
        let areas = Areas {
            frame: &mut *frame,
            command: &mut *command,
        };
        let (held, asked) = self.take_held(place).ask(&mut record, areas, event);
        self.put_back(place, held);
        self.lines.push(format!("A{text}").into_bytes());
        self.unsent.push(self.lines.len());
        self.counts.asks.count_ask(asked.step.answer, was_asked);
        let decided = Decision::of(&asked.left, &command[..asked.step.command_length]);
        let is_marked = decided.is_some_and(|decision| decision.is_marked);
        self.counts.marks.asked += usize::from(is_marked);
        self.drop_behind(place);
        self.stations[place].just_returned = false;
        self.stations[place].asks.push(Ask {
            ticket: asked.ticket,
            is_ok: asked.step.answer == Answer::Ok,
            record,
            period: asked.left.period,
            frame: frame[..asked.step.frame_length].to_vec(),
            decided,
            is_stored: false,
            is_committed: false,
            is_present: false,
            steps_since: 0,
            refused_since: 0,
            returns_refused: 0,
            line: self.lines.len(),
            is_overtaken: false,
        });
        match asked.step.answer {
            _ if self.only.is_some() => {}
            Answer::Ok => self.after_ask(place),
            _ => self.after_idle_ask(place, was_asked),
        }
        let is_made = |ask: &Ask| ask.ticket == asked.ticket && ask.is_committed;
        match self.stations[place].asks.last().is_some_and(is_made) {
            true => asked.step,
            false => Step {
                frame_length: 0,
                command_length: 0,
                ..asked.step
            },
        }
    }

    /// Most asks are stored and committed at once, in one order or another;
    /// others later, or never.
    fn after_ask(&mut self, place: usize) {
        match self.prng.below(100) {
            0..=34 => {
                self.store_asked(place);
                self.commit_latest(place);
            }
            35..=49 => {
                self.commit_latest(place);
                self.store_asked(place);
            }
            50..=59 => {
                self.commit_latest(place);
                self.store(place);
            }
            60..=64 => {
                self.store(place);
                self.store_asked(place);
                self.commit_latest(place);
            }
            65..=72 => {
                self.commit_latest(place);
                self.to_store.push(place);
            }
            73..=90 => self.let_wait(place),
            91..=93 => {
                self.store_asked(place);
                self.come_back_somehow(place);
            }
            94..=95 => self.store_asked(place),
            _ => {}
        }
    }

    /// The ask is committed later, its record stored before or not. Meanwhile
    /// something may be refused at the box, also a return.
    fn let_wait(&mut self, place: usize) {
        if self.prng.chance(60) {
            self.store_asked(place);
        }
        if self.prng.chance(40) {
            self.only(false, |writer| writer.refused_step(place));
        }
        if self.prng.chance(15) {
            self.come_back(place, MOST_MISSED + 1);
        }
        self.to_commit.push(place);
    }

    /// What was ignored or refused is neither stored nor committed; it makes
    /// void what was asked before.
    fn after_idle_ask(&mut self, place: usize, was_asked: bool) {
        if self.prng.chance(10) {
            self.commit(place, self.latest_ticket(place));
        }
        if was_asked && self.prng.chance(40) {
            self.commit(place, self.latest_ticket(place).saturating_sub(1));
        }
        if self.prng.chance(5) {
            self.store_nothing(place);
        }
    }

    /// A frame of the box's own comes to it.
    pub(super) fn refused_step(&mut self, place: usize) {
        let sent = (0..self.sent.len()).rev();
        let mut own = sent.filter(|&sent| self.sent[sent].has_left && self.sender(sent) == place);
        if let Some(own) = own.next() {
            self.deliver_alone(own, place);
        }
    }
}
