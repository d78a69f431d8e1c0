//! Writes a script line by line and runs each line on the second
//! implementation's replicas at once, so that it knows what was sent, by whom
//! and what came of it.

mod asked_acks;
mod asked_records;
mod asks;
mod commits;
mod power;
mod rows;

use std::collections::VecDeque;

use second::frame::{self, Frame, ACK, COMMAND_AREA, DECIDE, ESTIMATE, FRAME_AREA, PROPOSE};
use second::reading::{Reading, Row};
use second::replica::{coordinator, majority, Answer, Areas, Estimate, Heard, Replica, Step};
use second::tickets::Ticketed;

use crate::counts::Counts;
use crate::decision::Decision;
use crate::group::Group;
use crate::malformed;
use crate::played::Host;
use crate::prng::Prng;
use crate::station::{Station, Waiting};
use crate::stops::Stops;
pub use asked_acks::AskedAck;
pub use asks::Asking;
use rows::Rows;

/// How often, of a hundred lines, something out of order follows.
#[derive(Clone, Copy, Default)]
pub struct Disturbances {
    pub malformed: usize,
    pub doubled: usize,
    pub late: usize,
    pub misdirected: usize,
    /// A box loses its power, and returns at once or later.
    pub power_cuts: usize,
}

/// So many periods from the others are far.
const FAR: u32 = 100;

struct Sent {
    line: usize,
    frame: Frame,
    bytes: Vec<u8>,
    /// The places that it was delivered to.
    delivered: Vec<usize>,
    /// Whether it may be delivered.
    has_left: bool,
}

/// A reading as a script has it.
fn word(reading: &Reading) -> String {
    match reading {
        Reading::Count(count) => count.to_string(),
        Reading::Newtons(single) => format!("f{:08x}", single.to_bits()),
        Reading::Missing => "-".to_string(),
    }
}

/// The boxes of a script stand at places from 0; their numbers are one more.
pub struct Writer<'a> {
    pub prng: &'a mut Prng,
    pub counts: &'a mut Counts,
    pub replicas: Vec<Replica>,
    pub lines: Vec<Vec<u8>>,
    /// Frames on their way: place in `sent` and the place they go to.
    pub pending: VecDeque<(usize, usize)>,
    /// "A stopped box has no further entry."
    pub stopped: Vec<bool>,
    pub stations: Vec<Station>,
    /// None where no event is asked.
    pub asking: Option<Asking>,
    /// What readings are aimed by, if they are.
    pub stops: Option<Stops>,
    /// Whether the next event is asked, if that is not left to chance.
    only: Option<bool>,
    group: Group,
    host: Host,
    /// Of a hundred steps, those whose record is stored at once.
    stored_at_once: usize,
    /// Places whose record is stored later, if at all.
    to_store: Vec<usize>,
    /// Places whose latest ask is committed later, if at all.
    to_commit: Vec<usize>,
    limit: usize,
    disturbances: Disturbances,
    rows: Rows,
    /// The rows made up to now, by period.
    handed: Vec<Vec<Row>>,
    sent: Vec<Sent>,
    unsent: Vec<usize>,
    decided: Vec<u32>,
}

impl<'a> Writer<'a> {
    pub fn new(
        prng: &'a mut Prng,
        counts: &'a mut Counts,
        group: Group,
        host: Host,
        limit: usize,
    ) -> Self {
        let replicas = (1..=group.boxes).map(|own| group.replica(own)).collect();
        let rare = |prng: &mut Prng| prng.pick(&[0, 1, 2, 4]);
        let disturbances = Disturbances {
            malformed: rare(prng),
            doubled: rare(prng) * 2,
            late: rare(prng) * 2,
            misdirected: rare(prng),
            power_cuts: match host {
                Host::Plain => 0,
                Host::Storing => prng.pick(&[1, 2, 4, 8]),
            },
        };
        let stored_at_once = match host {
            Host::Plain => 0,
            Host::Storing => prng.pick(&[80, 90, 97, 100]),
        };
        let rows = Rows {
            variety: prng.pick(&[2, 2, 3, 3, 4, group.boxes.into()]),
            largest: prng.pick(&[200, 100_000, 100_000, 100_000, i32::MAX]),
            absent: prng.pick(&[0, 10, 30]),
            singles: match group.takes_singles {
                true => prng.pick(&[0, 20, 50, 50, 100]),
                false => 0,
            },
        };
        Writer {
            prng,
            counts,
            replicas,
            lines: Vec::new(),
            pending: VecDeque::new(),
            stopped: vec![false; group.boxes.into()],
            stations: vec![Station::default(); group.boxes.into()],
            asking: None,
            stops: None,
            only: None,
            group,
            host,
            stored_at_once,
            to_store: Vec::new(),
            to_commit: Vec::new(),
            limit,
            disturbances,
            rows,
            handed: Vec::new(),
            sent: Vec::new(),
            unsent: Vec::new(),
            decided: Vec::new(),
        }
    }

    pub fn is_full(&self) -> bool {
        self.lines.len() >= self.limit
    }

    /// The places of all boxes, in random order.
    pub fn places(&mut self) -> Vec<usize> {
        let mut places: Vec<usize> = (0..self.replicas.len()).collect();
        self.prng.shuffle(&mut places);
        places
    }

    /// The newest period of the group. A box far ahead of most has returned
    /// with too many missed periods, and does not count.
    pub fn newest_period(&self) -> u32 {
        let mut periods: Vec<u32> = self.replicas.iter().map(|r| r.period).collect();
        periods.sort_unstable();
        let usual = periods[periods.len() / 2];
        periods.retain(|&period| period <= usual + FAR);
        periods.last().copied().unwrap_or(usual)
    }

    /// Whether a box is so far from the others that no ticks make up for it.
    pub fn is_far(&self, place: usize) -> bool {
        self.replicas[place].period.abs_diff(self.newest_period()) > FAR
    }

    /// Whether nothing can occur at a box now.
    pub fn is_out(&self, place: usize) -> bool {
        self.stopped[place] || self.stations[place].is_down
    }

    /// More than half of the boxes.
    pub fn majority(&self) -> usize {
        majority(self.group.boxes).into()
    }

    /// a, "the boxes needed to decide".
    pub fn to_decide(&self) -> usize {
        self.group.quorums().to_decide.into()
    }

    /// b, "the boxes heard before a new coordinator proposes".
    pub fn to_propose(&self) -> usize {
        self.group.quorums().to_propose.into()
    }

    /// The boxes without which the group cannot go on: some are needed to take
    /// over, and some to decide then.
    pub fn to_go_on(&self) -> usize {
        self.to_decide().max(self.to_propose())
    }

    /// The place of a view's coordinator.
    pub fn coordinator_of(&self, view: u32) -> usize {
        usize::from(coordinator(self.group.boxes, view)) - 1
    }

    /// The coordinator's place in the view of the box at this place.
    pub fn coordinator_seen_by(&self, place: usize) -> usize {
        self.coordinator_of(self.replicas[place].view)
    }

    pub fn sender(&self, sent: usize) -> usize {
        usize::from(self.sent[sent].frame.sender) - 1
    }

    pub fn view_of(&self, sent: usize) -> u32 {
        self.sent[sent].frame.view
    }

    pub fn is_ack(&self, sent: usize) -> bool {
        self.sent[sent].frame.kind == ACK
    }

    pub fn is_propose(&self, sent: usize) -> bool {
        self.sent[sent].frame.kind == PROPOSE
    }

    pub fn is_decide(&self, sent: usize) -> bool {
        self.sent[sent].frame.kind == DECIDE
    }

    // The lines of a script. Each does nothing once the script is full,
    // and nothing at a box that has stopped or has no power.

    pub fn tick(&mut self, place: usize) {
        if self.is_full() || self.is_out(place) {
            return;
        }
        let row = self.row_for(place);
        self.counts.ticks += 1;
        let mut text = format!("T {}", place + 1);
        for reading in &row[..self.group.settings.m.into()] {
            self.counts.count_reading(reading);
            text += &format!(" {}", word(reading));
        }
        self.run(place, text, |replica, areas| replica.tick(&row, areas));
        self.disturb(place);
    }

    pub fn give_up(&mut self, place: usize) {
        if self.is_full() || self.is_out(place) {
            return;
        }
        self.give_up_alone(place);
        self.disturb(place);
    }

    /// A give-up that no disturbance follows.
    fn give_up_alone(&mut self, place: usize) {
        self.counts.give_ups += 1;
        self.run(place, format!("G {}", place + 1), Replica::give_up);
    }

    pub fn deliver(&mut self, sent: usize, place: usize) {
        self.deliver_alone(sent, place);
        self.disturb(place);
    }

    /// A delivery that no disturbance follows, for disturbances themselves.
    fn deliver_alone(&mut self, sent: usize, place: usize) {
        if self.is_full() || self.is_out(place) {
            return;
        }
        self.count_delivery(sent, place);
        let best = self.best_with(sent, place);
        self.sent[sent].delivered.push(place);
        let bytes = self.sent[sent].bytes.clone();
        let text = format!("D {} {}", place + 1, self.sent[sent].line);
        let step = self.run(place, text, |replica, areas| replica.arrive(&bytes, areas));
        if self.sent[sent].frame.kind == ESTIMATE && step.frame_length > 0 {
            self.count_proposal(place, &best);
        }
    }

    fn malformed(&mut self) {
        if self.is_full() {
            return;
        }
        let place = malformed::Place {
            boxes: self.group.boxes,
            readings: self.group.settings.m,
            takes_singles: self.group.takes_singles,
            line: self.lines.len() + 1,
            unsent: &self.unsent,
            without_record: &self.without_record(),
            without_ask: &self.without_ask(),
        };
        let line = malformed::line(self.prng, &place);
        self.counts.malformed += 1;
        self.lines.push(line);
        self.unsent.push(self.lines.len());
    }

    /// Writes the line of an event, asked or not, and runs it. Gives what the
    /// step wrote, if it was made.
    fn run(
        &mut self,
        place: usize,
        text: String,
        event: impl FnOnce(Replica, Areas) -> (Replica, Step),
    ) -> Step {
        let (mut frame, mut command) = ([0; FRAME_AREA], [0; COMMAND_AREA]);
        let areas = Areas {
            frame: &mut frame,
            command: &mut command,
        };
        if self.is_asked_first() {
            return self.ask(place, text, areas, event);
        }
        let was_asked = self.stations[place].is_asked();
        let (held, step) = self.take_held(place).step(areas, event);
        self.put_back(place, held);
        self.lines.push(text.into_bytes());
        let decided = Decision::of(&self.replicas[place], &command[..step.command_length]);
        self.count_step(place, step.answer, decided);
        self.counts.asks.void_by_step += usize::from(was_asked && step.answer == Answer::Ok);
        let waiting = Waiting {
            frame: self.made_frame(&frame[..step.frame_length]),
            decided,
        };
        match self.host {
            Host::Plain => self.leave(waiting),
            Host::Storing => self.hold(place, waiting, step.answer),
        }
        step
    }

    /// The replica with its tickets, out of the box.
    fn take_held(&mut self, place: usize) -> Ticketed {
        Ticketed {
            replica: self.replicas[place],
            tickets: std::mem::take(&mut self.stations[place].tickets),
        }
    }

    fn put_back(&mut self, place: usize, held: Ticketed) {
        self.replicas[place] = held.replica;
        self.stations[place].tickets = held.tickets;
    }

    /// The frame that the last line made, if it made one.
    fn made_frame(&mut self, bytes: &[u8]) -> Option<usize> {
        if bytes.is_empty() {
            self.unsent.push(self.lines.len());
            return None;
        }
        Some(self.keep(bytes))
    }

    /// Keeps a frame that was made.
    fn keep(&mut self, bytes: &[u8]) -> usize {
        let settings = &self.group.settings;
        let frame = frame::read(settings.n, settings.m, bytes).expect("a replica's own frame");
        self.sent.push(Sent {
            line: self.lines.len(),
            frame,
            bytes: bytes.to_vec(),
            delivered: Vec::new(),
            has_left: false,
        });
        self.sent.len() - 1
    }

    /// What a step made leaves: its frame is on its way to those it is meant
    /// for, and its command counts.
    fn leave(&mut self, waiting: Waiting) {
        if let Some(decision) = waiting.decided {
            self.count_decided(&decision);
        }
        let Some(sent) = waiting.frame else { return };
        self.sent[sent].has_left = true;
        for place in self.places() {
            if self.is_meant_for(sent, place) {
                self.pending.push_back((sent, place));
            }
        }
    }

    /// Propose and Decide go "to all others", Ack and Estimate to the
    /// coordinator of their view.
    fn is_meant_for(&self, sent: usize, place: usize) -> bool {
        let frame = &self.sent[sent].frame;
        let others = place != self.sender(sent);
        match frame.kind {
            ACK | ESTIMATE => others && place == self.coordinator_of(frame.view),
            _ => others,
        }
    }

    // Lines out of order.

    /// Now and then, one line more that is out of order.
    fn disturb(&mut self, place: usize) {
        let disturbances = self.disturbances;
        if self.host == Host::Storing {
            self.let_time_pass(place);
        }
        if self.prng.chance(disturbances.malformed) {
            self.malformed();
        }
        if self.prng.chance(disturbances.doubled) {
            self.disturbing_delivery(|writer, sent, place| {
                writer.sent[sent].delivered.contains(&place) && !writer.is_late(sent, place)
            });
        }
        if self.prng.chance(disturbances.late) {
            self.disturbing_delivery(|writer, sent, place| {
                writer.is_late(sent, place) && writer.is_meant_for(sent, place)
            });
        }
        if self.prng.chance(disturbances.misdirected) {
            self.disturbing_delivery(|writer, sent, place| !writer.is_meant_for(sent, place));
        }
    }

    /// Delivers a frame of the wanted sort, if some tries find one. Half of
    /// the tries look at the newest frames alone, which matter most.
    fn disturbing_delivery(&mut self, wanted: impl Fn(&Self, usize, usize) -> bool) {
        for _ in 0..30 {
            if self.sent.is_empty() {
                return;
            }
            let newest = match self.prng.chance(50) {
                true => self.sent.len().min(12),
                false => self.sent.len(),
            };
            let sent = self.sent.len() - 1 - self.prng.below(newest);
            let place = self.prng.below(self.replicas.len());
            let can_arrive = self.sent[sent].has_left && !self.is_out(place);
            if can_arrive && wanted(self, sent, place) {
                return self.deliver_alone(sent, place);
            }
        }
    }

    /// A random frame to a random box.
    pub fn random_delivery(&mut self) {
        self.disturbing_delivery(|_, _, _| true);
    }

    /// Of an earlier period than the box is in, or of an earlier view in it.
    fn is_late(&self, sent: usize, place: usize) -> bool {
        let (frame, replica) = (&self.sent[sent].frame, &self.replicas[place]);
        (frame.period, frame.view) < (replica.period, replica.view)
    }

    // The counts.

    fn count_delivery(&mut self, sent: usize, place: usize) {
        self.counts.deliveries += 1;
        self.counts.doubled += usize::from(self.sent[sent].delivered.contains(&place));
        self.counts.late += usize::from(self.is_late(sent, place));
        self.counts.misdirected += usize::from(!self.is_meant_for(sent, place));
    }

    fn count_step(&mut self, place: usize, answer: Answer, decided: Option<Decision>) {
        match answer {
            Answer::Ok => {}
            Answer::Ignored => self.counts.ignored += 1,
            Answer::Refused(refusal) => self.counts.refused[usize::from(refusal.number())] += 1,
        }
        if let Some(decision) = decided {
            self.count_decision(place, &decision);
        }
    }

    fn count_decision(&mut self, place: usize, decision: &Decision) {
        let replica = &self.replicas[place];
        self.counts.decisions += 1;
        self.counts.decisions_above_view_0 += usize::from(replica.view > 0);
        let was_marked = &mut self.stations[place].was_marked;
        self.counts.marks.count_decision(decision, *was_marked);
        *was_marked = decision.is_marked;
    }

    fn count_decided(&mut self, decision: &Decision) {
        let period = decision.period;
        if !self.decided.contains(&period) {
            let missed = period > 1 && !self.decided.contains(&(period - 1));
            self.counts.decided_periods += 1;
            self.counts.pairs.count_period(&self.group);
            self.counts.decided_after_missed += usize::from(missed);
            let on_the_bench = !self.group.takes_singles;
            self.counts.marks.count_period(decision, on_the_bench);
            self.decided.push(period);
        }
    }

    /// The best estimate that the box at this place has, should it take in
    /// this frame as an Estimate.
    fn best_with(&self, sent: usize, place: usize) -> Heard {
        let (frame, replica) = (&self.sent[sent].frame, &self.replicas[place]);
        let own = Heard {
            from: replica.own,
            base_view: replica.base_view,
            estimate: replica.estimate,
        };
        let arriving = Heard {
            from: frame.sender,
            base_view: frame.base_view,
            estimate: Estimate {
                state: frame.state,
                readings: frame.readings,
                base_period: frame.base_period,
            },
        };
        let kept = match replica.has_best && frame.view == replica.view {
            true => replica.best,
            false => own,
        };
        if arriving.beats(&kept) {
            arriving
        } else {
            kept
        }
    }

    fn count_proposal(&mut self, place: usize, best: &Heard) {
        let counts = &mut self.counts;
        counts.proposals_after_estimates += 1;
        counts.pairs.count_proposal(&self.group);
        if best.estimate.base_period == self.replicas[place].period {
            counts.open_taken_over += 1;
        } else if usize::from(best.from) != place + 1 && best.estimate.base_period > 0 {
            counts.older_taken_over += 1;
        }
    }
}
