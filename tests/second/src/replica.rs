//! Document 01, "What a replica holds", "Events" and "Where each refusal is
//! made": one replica as a value that takes events. Its tick takes readings as
//! document 02's L1 has them, its commands say what L7 asks for, and its two
//! quorum numbers are those of L8.

use crate::fault::{planted, Fault};
use crate::frame::{self, Frame, ACK, DECIDE, ESTIMATE, PROPOSE};
use crate::law::{self, Commanded, Readings, Settings, State, Updated};
use crate::reading::{self, Row};
use crate::refusal::Refusal;

/// "Group size N, 3 to 9"
pub const LEAST_BOXES: u8 = 3;
pub const MOST_BOXES: u8 = 9;

/// Places for the boxes heard: box b has place b, so that place 0 is no box's.
pub const HEARD_PLACES: usize = MOST_BOXES as usize + 1;

/// Document 02, L8: "each 2 to N".
const LEAST_QUORUM: u8 = 2;

/// "a majority is N/2 rounded down, plus 1"
pub fn majority(boxes: u8) -> u8 {
    boxes / 2 + 1
}

/// Document 02, L8: "The majority becomes two settings: a, the boxes needed to
/// decide, and b, the boxes heard before a new coordinator proposes". "They are
/// equal in all boxes of a group".
#[derive(Clone, Copy, Debug, Default, PartialEq, Eq)]
pub struct Quorums {
    /// a
    pub to_decide: u8,
    /// b
    pub to_propose: u8,
}

impl Quorums {
    /// The majority of N for both.
    pub fn majorities(boxes: u8) -> Quorums {
        Quorums {
            to_decide: majority(boxes),
            to_propose: majority(boxes),
        }
    }
}

/// "The coordinator of view v is box (v mod N) + 1." Only for N not 0.
pub fn coordinator(boxes: u8, view: u32) -> u8 {
    let zero_based = view % u32::from(boxes);
    u8::try_from(zero_based).expect("below N") + 1
}

/// Refusal 1: "N not 3 to 9, or own number not 1 to N".
pub fn check_group(boxes: u8, own: u8) -> Result<(), Refusal> {
    if (LEAST_BOXES..=MOST_BOXES).contains(&boxes) && (1..=boxes).contains(&own) {
        Ok(())
    } else {
        Err(Refusal::Group)
    }
}

/// Refusal 18: "a or b outside 2 to N, or a + b not above N".
pub fn check_quorums(boxes: u8, quorums: Quorums) -> Result<(), Refusal> {
    let (a, b) = (quorums.to_decide, quorums.to_propose);
    let fits = |number: u8| (LEAST_QUORUM..=boxes).contains(&number);
    let (sum, n) = (u16::from(a) + u16::from(b), u16::from(boxes));
    let is_above = sum > n || sum == n && planted(Fault::SumOfNTaken);
    if (fits(a) || is_misfit_taken(boxes, a)) && fits(b) && is_above {
        Ok(())
    } else {
        Err(Refusal::Quorums)
    }
}

/// An a of 1, or above N: only with a fault planted.
fn is_misfit_taken(boxes: u8, a: u8) -> bool {
    a == 1 && planted(Fault::QuorumOfOneTaken) || a > boxes && planted(Fault::QuorumAboveTaken)
}

/// Refusals 1 to 4 of settings and, as document 02's L8 has it, "with the
/// settings, after 4: 18".
fn check_all(boxes: u8, own: u8, quorums: Quorums, settings: &Settings) -> Result<(), Refusal> {
    check_group(boxes, own)?;
    let of_law = law::check(settings);
    if of_law == Err(Refusal::Limits) && planted(Fault::QuorumsBeforeLimits) {
        check_quorums(boxes, quorums)?;
    }
    of_law?;
    check_quorums(boxes, quorums)
}

#[derive(Clone, Copy, Debug, PartialEq, Eq)]
pub enum Mode {
    Normal,
    ViewChange,
}

/// "an estimate (state, readings, base period)"
#[derive(Clone, Copy, Debug, Default, PartialEq, Eq)]
pub struct Estimate {
    pub state: State,
    pub readings: Readings,
    pub base_period: u32,
}

/// An estimate heard in a view change, with what it is compared by.
#[derive(Clone, Copy, Debug, Default, PartialEq, Eq)]
pub struct Heard {
    pub from: u8,
    pub base_view: u32,
    pub estimate: Estimate,
}

impl Heard {
    /// "Best is the largest base view, then the largest base period, then the
    /// lowest box number."
    pub fn beats(&self, other: &Heard) -> bool {
        let bases = |heard: &Heard| {
            if planted(Fault::BasePeriodFirst) {
                return (heard.estimate.base_period, heard.base_view);
            }
            (heard.base_view, heard.estimate.base_period)
        };
        let (own, others) = (bases(self), bases(other));
        own > others || own == others && self.from < other.from
    }
}

/// What an event came to.
#[derive(Clone, Copy, Debug, PartialEq, Eq)]
pub enum Answer {
    Ok,
    Ignored,
    Refused(Refusal),
}

/// "A step gives the length written to each area; where that is 0 the whole
/// area keeps what it held."
#[derive(Clone, Copy, Debug, PartialEq, Eq)]
pub struct Step {
    pub answer: Answer,
    pub frame_length: usize,
    pub command_length: usize,
}

/// The areas lent to a step.
pub struct Areas<'a> {
    pub frame: &'a mut [u8],
    pub command: &'a mut [u8],
}

/// What an event that takes place sends. "Each event sends at most one frame."
#[derive(Default)]
struct Sent {
    frame: Option<Frame>,
    /// Limited where it or the update that it comes from is.
    command: Option<Commanded>,
}

/// What a rule does with an event; nothing is sent for one that is ignored.
enum Outcome {
    Ignored,
    Done(Sent),
}

/// One replica. Its fields may hold anything; every step looks at the
/// settings among them first. What a step's rule does not write comes back as
/// it was handed in, also what has no meaning there: places beyond n and m,
/// values under absent marks, boxes above N.
#[derive(Clone, Copy, Debug, PartialEq, Eq)]
pub struct Replica {
    /// N
    pub boxes: u8,
    /// The own number.
    pub own: u8,
    /// a and b.
    pub quorums: Quorums,
    pub settings: Settings,
    pub period: u32,
    pub view: u32,
    pub base_view: u32,
    pub mode: Mode,
    pub decided: bool,
    pub estimate: Estimate,
    /// "the boxes heard (Acks or Estimates)"; box b at place b. Place 0 and
    /// those above N are never counted.
    pub heard: [bool; HEARD_PLACES],
    /// Whether there is a best estimate: a field of its own, so that one
    /// handed in may hold anything for a best estimate that is not there.
    pub has_best: bool,
    /// "in a view change, the best estimate heard"; all 0 once emptied.
    pub best: Heard,
}

impl Replica {
    /// A fresh replica: "all counters 0, normal, undecided, starting state,
    /// no reading, no box heard". Refuses settings by 1 to 4, then by 18.
    pub fn new(
        boxes: u8,
        own: u8,
        quorums: Quorums,
        settings: Settings,
    ) -> Result<Replica, Refusal> {
        check_all(boxes, own, quorums, &settings)?;
        let mut state = State::default();
        let n = usize::from(settings.n);
        state[..n].copy_from_slice(&settings.start[..n]);
        Ok(Replica {
            boxes,
            own,
            quorums,
            settings,
            period: 0,
            view: 0,
            base_view: 0,
            mode: Mode::Normal,
            decided: false,
            estimate: Estimate {
                state,
                ..Estimate::default()
            },
            heard: [false; HEARD_PLACES],
            has_best: false,
            best: Heard::default(),
        })
    }

    /// "Tick with readings." Document 02: "The tick takes these, and 7 looks
    /// at them converted." So the conversion comes before all that looks at
    /// the row.
    pub fn tick(self, row: &Row, areas: Areas) -> (Replica, Step) {
        let mut readings = reading::convert_row(row);
        if planted(Fault::MarksUnconverted) {
            // Of marks at or above m, only 7 takes notice.
            readings.marks |= reading::marks_handed_beyond(row, self.settings.m);
        }
        self.step(areas, |replica| replica.on_tick(&readings))
    }

    /// "Give up the view."
    pub fn give_up(self, areas: Areas) -> (Replica, Step) {
        self.step(areas, Replica::on_give_up)
    }

    /// A frame arrives.
    pub fn arrive(self, bytes: &[u8], areas: Areas) -> (Replica, Step) {
        self.step(areas, |replica| replica.on_frame(bytes))
    }

    /// Runs one event. "A refusal returns its number, no frame and no
    /// command"; refused or ignored, the replica comes back unchanged.
    fn step(
        self,
        areas: Areas,
        event: impl FnOnce(&mut Replica) -> Result<Outcome, Refusal>,
    ) -> (Replica, Step) {
        let mut next = self;
        match next.run(areas, event) {
            Ok(step) if step.answer == Answer::Ok => (next, step),
            Ok(step) => (self, step),
            Err(refusal) => (self, Step::silent(Answer::Refused(refusal))),
        }
    }

    /// "settings in it that 1 to 4 would refuse get that number, before the
    /// lent areas", and so do those that 18 would; "lent areas are looked at
    /// before the event."
    fn run(
        &mut self,
        areas: Areas,
        event: impl FnOnce(&mut Replica) -> Result<Outcome, Refusal>,
    ) -> Result<Step, Refusal> {
        if planted(Fault::AreasBeforeSettings) {
            areas.check()?;
        }
        self.check_in_step()?;
        areas.check()?;
        match event(self)? {
            Outcome::Ignored => Ok(Step::silent(Answer::Ignored)),
            Outcome::Done(sent) => self.write(&sent, areas),
        }
    }

    /// Refusals 1 to 4, then 18, of the settings in a replica.
    pub(crate) fn check_settings(&self) -> Result<(), Refusal> {
        check_all(self.boxes, self.own, self.quorums, &self.settings)
    }

    /// The same in a step.
    fn check_in_step(&self) -> Result<(), Refusal> {
        match self.check_settings() {
            Err(Refusal::Quorums) if planted(Fault::QuorumsNotInStep) => Ok(()),
            checked => checked,
        }
    }

    fn write(&self, sent: &Sent, areas: Areas) -> Result<Step, Refusal> {
        let Settings { n, m, p, .. } = self.settings;
        let mut step = Step::silent(Answer::Ok);
        if let Some(frame) = &sent.frame {
            step.frame_length = frame::write(n, m, frame, areas.frame)?;
        }
        if let Some(Commanded { values, limited }) = &sent.command {
            step.command_length =
                frame::write_command(p, self.period, values, *limited, areas.command)?;
        }
        Ok(step)
    }

    // The events.

    /// "The state becomes Update of the estimate's state and readings, except
    /// on the first tick (period 0 to 1). Period rises by 1, the readings are
    /// taken, base view and base period stay, decided is cleared. In
    /// view-change mode the view is then raised. In normal mode a coordinator
    /// proposes."
    fn on_tick(&mut self, readings: &Readings) -> Result<Outcome, Refusal> {
        self.check_tick(readings)?;
        if self.tick_updates() {
            self.estimate.state = self.updated()?.state;
        }
        self.period += 1;
        self.estimate.readings = readings.as_read(self.settings.m);
        self.decided = false;
        self.empty_heard();
        match self.mode {
            Mode::ViewChange => self.raise_view(),
            Mode::Normal if self.is_coordinator() => self.propose(),
            Mode::Normal => Ok(Outcome::Done(Sent::default())),
        }
    }

    fn tick_updates(&self) -> bool {
        if planted(Fault::FirstTick) && self.period == 0 {
            return true;
        }
        if planted(Fault::OldEstimate) && !self.decided {
            return false;
        }
        self.period != 0
    }

    /// "Raises it, unless the box is coordinator in normal mode." Ignored in
    /// period 0 or in a decided period; "ignoring a give-up comes before 12".
    fn on_give_up(&mut self) -> Result<Outcome, Refusal> {
        if planted(Fault::GiveUpRefused) {
            self.check_view()?;
        }
        let normal_coordinator = self.mode == Mode::Normal && self.is_coordinator();
        if self.period == 0 || self.decided || normal_coordinator {
            return Ok(Outcome::Ignored);
        }
        self.raise_view()
    }

    /// 8, 9, 10 and 11 "are found before any ground for ignoring".
    fn on_frame(&mut self, bytes: &[u8]) -> Result<Outcome, Refusal> {
        let frame = frame::read(self.settings.n, self.settings.m, bytes)?;
        if planted(Fault::IgnoringBeforeRefusals) && self.ignores(&frame) {
            return Ok(Outcome::Ignored);
        }
        self.check_frame(&frame)?;
        if self.ignores(&frame) {
            return Ok(Outcome::Ignored);
        }
        match frame.kind {
            PROPOSE => self.on_propose(&frame),
            ACK => self.on_ack(&frame),
            DECIDE => self.on_decide(&frame),
            _ => self.on_estimate(&frame),
        }
    }

    /// "View and estimate are adopted, base view is the view, mode is normal,
    /// Ack goes back. A repeated one is acknowledged again."
    fn on_propose(&mut self, frame: &Frame) -> Result<Outcome, Refusal> {
        self.adopt(frame);
        self.send(self.ack_frame())
    }

    /// "the box decides: Decide to all others, and the command", at document
    /// 02's a, "the boxes needed to decide".
    fn on_ack(&mut self, frame: &Frame) -> Result<Outcome, Refusal> {
        if self.has_heard(frame.sender) {
            // Only with the planted fault of the doubled Ack.
            self.enter_unheard();
        } else {
            self.enter(frame.sender);
        }
        if !self.enough_to_decide() {
            return Ok(Outcome::Done(Sent::default()));
        }
        let command = self.decide()?;
        Ok(Outcome::Done(Sent {
            frame: Some(self.frame_of_view(DECIDE)),
            command: Some(command),
        }))
    }

    /// "Adopted like Propose, no Ack; the box decides and issues the command."
    fn on_decide(&mut self, frame: &Frame) -> Result<Outcome, Refusal> {
        self.adopt(frame);
        let command = self.decide()?;
        Ok(Outcome::Done(Sent {
            frame: planted(Fault::DecideAcknowledged).then(|| self.ack_frame()),
            command: Some(command),
        }))
    }

    /// "At a higher view the box first enters it in view-change mode with its
    /// own estimate heard." At document 02's b, "the boxes heard before a new
    /// coordinator proposes", it "takes the best estimate whole and proposes."
    fn on_estimate(&mut self, frame: &Frame) -> Result<Outcome, Refusal> {
        if frame.view > self.view {
            self.enter_view(frame.view);
        }
        self.hear(Heard {
            from: frame.sender,
            base_view: frame.base_view,
            estimate: estimate_of(frame),
        });
        if !self.enough_to_propose() {
            return Ok(Outcome::Done(Sent::default()));
        }
        self.estimate = self.best.estimate;
        self.propose()
    }

    // Rules that several events share.

    /// "Mode is normal, base period becomes the period and base view the
    /// view; the coordinator counts itself as having acknowledged; Propose
    /// goes to all others."
    fn propose(&mut self) -> Result<Outcome, Refusal> {
        self.mode = Mode::Normal;
        self.estimate.base_period = self.period;
        self.base_view = self.view;
        self.empty_heard();
        if !planted(Fault::ProposerNotCounted) {
            self.enter(self.own);
        }
        self.send(self.frame_of_view(PROPOSE))
    }

    /// "View plus 1. If the box is now coordinator: view-change mode, its own
    /// estimate is the first heard. Otherwise: normal mode and its Estimate
    /// goes to the new coordinator." Refused by 12.
    fn raise_view(&mut self) -> Result<Outcome, Refusal> {
        self.check_view()?;
        self.view += 1;
        self.empty_heard();
        if self.is_coordinator() {
            self.mode = Mode::ViewChange;
            self.hear_own();
            return Ok(Outcome::Done(Sent::default()));
        }
        self.mode = Mode::Normal;
        self.send(self.estimate_frame())
    }

    /// Enters a higher view "in view-change mode with its own estimate heard".
    fn enter_view(&mut self, view: u32) {
        self.view = view;
        self.mode = Mode::ViewChange;
        let kept = self.heard;
        self.empty_heard();
        if planted(Fault::HeardKept) {
            self.heard = kept;
        }
        self.hear_own();
    }

    /// "View and estimate are adopted, base view is the view, mode is normal"
    fn adopt(&mut self, frame: &Frame) {
        let held = self.estimate;
        self.view = frame.view;
        self.base_view = frame.view;
        self.mode = Mode::Normal;
        self.estimate = estimate_of(frame);
        if planted(Fault::OwnReadings) {
            self.estimate.readings = held.readings;
        }
        if planted(Fault::BasePeriodKept) {
            self.estimate.base_period = held.base_period;
        }
        self.empty_heard();
    }

    /// "A box that decides issues the command of Update(estimate's state,
    /// estimate's readings)." What an earlier update or command was has no part
    /// in it.
    fn decide(&mut self) -> Result<Commanded, Refusal> {
        self.decided = true;
        let mut updated = self.updated()?;
        if planted(Fault::CommandBefore) {
            updated.state = self.estimate.state;
        }
        let command = law::command(&self.settings, &updated.state)?;
        Ok(Commanded {
            limited: is_limited(&updated, &command),
            ..command
        })
    }

    /// Update of the estimate's state and readings.
    fn updated(&self) -> Result<Updated, Refusal> {
        law::update(
            &self.settings,
            &self.estimate.state,
            &self.estimate.readings,
        )
    }

    fn is_coordinator(&self) -> bool {
        coordinator(self.boxes, self.view) == self.own
    }

    fn send(&self, frame: Frame) -> Result<Outcome, Refusal> {
        Ok(Outcome::Done(Sent {
            frame: Some(frame),
            command: None,
        }))
    }

    // The boxes heard.

    /// Empties "the boxes heard and the best estimate": every place, also
    /// those above N, since document 01 makes no exception for them.
    fn empty_heard(&mut self) {
        self.heard = [false; HEARD_PLACES];
        self.has_best = false;
        self.best = Heard::default();
    }

    /// Whether a box is among those heard. The number may be no box's: a
    /// planted fault asks before refusal 9 is looked at.
    fn has_heard(&self, number: u8) -> bool {
        self.is_box(number) && self.heard[usize::from(number)]
    }

    /// "boxes are numbered 1 to N"
    fn is_box(&self, number: u8) -> bool {
        (1..=self.boxes).contains(&number)
    }

    /// Enters a box from 1 to N.
    fn enter(&mut self, number: u8) {
        self.heard[usize::from(number)] = true;
    }

    /// Makes the count of boxes heard rise by one: the planted fault of the
    /// doubled Ack.
    fn enter_unheard(&mut self) {
        let counted = &mut self.heard[1..=self.boxes.into()];
        if let Some(place) = counted.iter_mut().find(|heard| !**heard) {
            *place = true;
        }
    }

    /// Enters the box of an estimate and weighs the estimate.
    fn hear(&mut self, heard: Heard) {
        self.enter(heard.from);
        if !self.has_best || heard.beats(&self.best) {
            self.has_best = true;
            self.best = heard;
        }
    }

    /// The own estimate is counted and weighed.
    fn hear_own(&mut self) {
        self.hear(Heard {
            from: self.own,
            base_view: self.base_view,
            estimate: self.estimate,
        });
    }

    /// Whether a boxes have acknowledged, the coordinator among them.
    fn enough_to_decide(&self) -> bool {
        let (a, _) = self.numbers_counted();
        self.count_heard(planted(Fault::CoordinatorNotCounted)) >= a
    }

    /// Whether b estimates were heard, the own one among them.
    fn enough_to_propose(&self) -> bool {
        let (_, b) = self.numbers_counted();
        self.count_heard(planted(Fault::OwnEstimateNotCounted)) >= b
    }

    /// a and b as boxes are counted for them.
    fn numbers_counted(&self) -> (usize, usize) {
        let a = usize::from(self.quorums.to_decide);
        let b = usize::from(self.quorums.to_propose);
        if planted(Fault::QuorumsExchanged) {
            return (b, a);
        }
        if planted(Fault::QuorumSmaller) {
            return (a - 1, b - 1);
        }
        (a, b)
    }

    /// "boxes above N aren't counted"; the own one is left out only with a
    /// fault planted.
    fn count_heard(&self, without_own: bool) -> usize {
        let mut last = self.boxes;
        if planted(Fault::BoxesAboveCounted) {
            last = MOST_BOXES;
        }
        let is_left_out = |number: u8| without_own && number == self.own;
        let is_counted = |&number: &u8| self.heard[usize::from(number)] && !is_left_out(number);
        (1..=last).filter(is_counted).count()
    }

    // Grounds for refusing an event and for ignoring a frame.

    /// A tick's refusals: "6 and 7 come before 12".
    fn check_tick(&self, readings: &Readings) -> Result<(), Refusal> {
        if planted(Fault::MarksBeforePeriod) {
            self.check_marks(readings)?;
        }
        self.check_period()?;
        if planted(Fault::ViewBeforeMarks) && self.mode == Mode::ViewChange {
            self.check_view()?;
        }
        self.check_marks(readings)
    }

    /// Refusal 6: "period already 4,294,967,295".
    fn check_period(&self) -> Result<(), Refusal> {
        if self.period == u32::MAX {
            return Err(Refusal::LastPeriod);
        }
        Ok(())
    }

    /// Refusal 7: "a present mark at or above m", of the converted row: what
    /// counts as missing there refuses nothing.
    fn check_marks(&self, readings: &Readings) -> Result<(), Refusal> {
        if readings.has_marks_beyond(self.settings.m) {
            return Err(Refusal::Marks);
        }
        Ok(())
    }

    /// Refusal 12: "view already 4,294,967,295".
    fn check_view(&self) -> Result<(), Refusal> {
        if self.view == u32::MAX {
            return Err(Refusal::LastView);
        }
        Ok(())
    }

    /// Refusals 9, 10 and 11, in this order.
    fn check_frame(&self, frame: &Frame) -> Result<(), Refusal> {
        if planted(Fault::CoordinatorBeforeSender) {
            self.check_coordinator(frame)?;
        }
        self.check_sender(frame)?;
        if planted(Fault::BasesBeforeCoordinator) {
            check_bases(frame)?;
        }
        self.check_coordinator(frame)?;
        check_bases(frame)
    }

    /// Refusal 9: "sender not 1 to N, or the own number".
    fn check_sender(&self, frame: &Frame) -> Result<(), Refusal> {
        if self.is_box(frame.sender) && frame.sender != self.own {
            Ok(())
        } else {
            Err(Refusal::Sender)
        }
    }

    /// Refusal 10: "Propose or Decide not from its view's coordinator; Ack or
    /// Estimate at a box that isn't", of the view in the frame.
    fn check_coordinator(&self, frame: &Frame) -> Result<(), Refusal> {
        let claimed = match frame.kind {
            PROPOSE | DECIDE => frame.sender,
            _ => self.own,
        };
        if claimed == coordinator(self.boxes, frame.view) {
            Ok(())
        } else {
            Err(Refusal::Coordinator)
        }
    }

    /// "Ignored: frames and give-ups in period 0 or in a decided period; a
    /// frame of another period; a frame of a lower view; an Ack of a higher
    /// view or in view-change mode; an Estimate at the own view in normal
    /// mode; a second Ack or Estimate of one box"
    fn ignores(&self, frame: &Frame) -> bool {
        self.period == 0
            || self.decided
            || frame.period != self.period
            || (frame.view < self.view && !planted(Fault::LowerView))
            || match frame.kind {
                ACK => self.ignores_ack(frame),
                ESTIMATE => self.ignores_estimate(frame),
                _ => false,
            }
    }

    fn ignores_ack(&self, frame: &Frame) -> bool {
        frame.view > self.view
            || self.mode == Mode::ViewChange
            || (self.has_heard(frame.sender) && !planted(Fault::DoubledAck))
    }

    /// An Estimate at a higher view empties the boxes heard first, so it is
    /// never a second one.
    fn ignores_estimate(&self, frame: &Frame) -> bool {
        (frame.view == self.view && self.mode == Mode::Normal)
            || (frame.view <= self.view && self.has_heard(frame.sender))
    }

    // The frames a replica sends.

    /// A Propose or Decide: base fields are "the view and the period".
    fn frame_of_view(&self, kind: u8) -> Frame {
        Frame {
            base_view: self.view,
            base_period: self.period,
            ..self.whole_frame(kind)
        }
    }

    /// An Estimate, with the bases as the replica holds them.
    fn estimate_frame(&self) -> Frame {
        self.whole_frame(ESTIMATE)
    }

    /// An Ack: base fields "both 0", no parts.
    fn ack_frame(&self) -> Frame {
        Frame {
            kind: ACK,
            sender: self.own,
            period: self.period,
            view: self.view,
            ..Frame::default()
        }
    }

    /// Written with marks below m alone and 0 where absent, so that a step
    /// never refuses its own frame.
    fn whole_frame(&self, kind: u8) -> Frame {
        Frame {
            kind,
            sender: self.own,
            period: self.period,
            view: self.view,
            base_view: self.base_view,
            base_period: self.estimate.base_period,
            state: self.estimate.state,
            readings: self.estimate.readings.as_read(self.settings.m),
        }
    }
}

impl Step {
    /// A step that writes nothing.
    pub(crate) fn silent(answer: Answer) -> Step {
        Step {
            answer,
            frame_length: 0,
            command_length: 0,
        }
    }
}

impl Areas<'_> {
    /// Refusal 5: "frame area under 69 bytes or command area under 24".
    pub(crate) fn check(&self) -> Result<(), Refusal> {
        if self.frame.len() < frame::FRAME_AREA || self.command.len() < frame::COMMAND_AREA {
            return Err(Refusal::Areas);
        }
        Ok(())
    }
}

/// Document 02: "if that occurred in the update or the command it comes from".
fn is_limited(updated: &Updated, command: &Commanded) -> bool {
    if planted(Fault::OnlyCommandsMarked) {
        return command.limited;
    }
    if planted(Fault::OnlyUpdatesMarked) {
        return updated.limited;
    }
    updated.limited || command.limited
}

fn estimate_of(frame: &Frame) -> Estimate {
    Estimate {
        state: frame.state,
        readings: frame.readings,
        base_period: frame.base_period,
    }
}

/// Refusal 11. "Base fields: Ack both 0; Propose and Decide the view and the
/// period; Estimate a base view below the view and a base period not above
/// the period."
fn check_bases(frame: &Frame) -> Result<(), Refusal> {
    let as_above = match frame.kind {
        ACK => frame.base_view == 0 && frame.base_period == 0,
        ESTIMATE => frame.base_view < frame.view && frame.base_period <= frame.period,
        _ => frame.base_view == frame.view && frame.base_period == frame.period,
    };
    if as_above {
        Ok(())
    } else {
        Err(Refusal::Bases)
    }
}

#[cfg(test)]
mod tests;
