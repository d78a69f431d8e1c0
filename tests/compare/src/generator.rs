//! The directed generator: periods of several kinds, one after the other,
//! until the script is full.

mod asks;
mod gathered;
mod power;
mod pressing;

use crate::counts::Counts;
use crate::group::{Group, UNFIT};
use crate::played::Host;
use crate::prng::Prng;
use crate::quorums;
use crate::stops::{Aim, Stops};
use crate::writer::{Asking, Writer};

/// "It reads at most 500 lines"
const MOST_LINES: i32 = 500;

/// One script of so many has power cycles.
const ONE_STORING: usize = 3;

/// One of so many has power cycles and asks.
pub const ONE_ASKING: usize = 6;

/// Of a hundred other scripts for the rig, so many have a first line that makes
/// no group.
const SPOILED: usize = 12;

pub struct Script {
    pub is_rig: bool,
    pub group: Group,
    pub host: Host,
    /// None if the first line makes no group.
    pub lines: Option<Vec<Vec<u8>>>,
    /// The whole input.
    pub input: Vec<u8>,
}

/// Script `number` of a seed.
pub fn script(seed: u64, number: usize, counts: &mut Counts) -> Script {
    let prng = &mut Prng::of_script(seed, number);
    if number.is_multiple_of(ONE_STORING) {
        return storing_script(prng, number.is_multiple_of(ONE_ASKING), counts);
    }
    let apart = prng.apart();
    let is_rig = !prng.chance(20);
    let mut group = match is_rig {
        true => Group::random(prng),
        false => Group::bench(),
    };
    let stops = match is_rig {
        true => Stops::of_rig(apart, &mut group),
        false => Stops::of_bench(apart),
    };
    if is_rig {
        let turn = number - number / ONE_STORING;
        quorums::name_in_turn(turn, &mut group);
    }
    if is_rig && prng.chance(SPOILED) {
        return spoiled_script(prng, group, counts);
    }
    match is_rig {
        true => counts.rig_scripts += 1,
        false => counts.bench_scripts += 1,
    }
    let lines = written_lines(prng, group, Host::Plain, stops, None, counts);
    let first_line = is_rig.then(|| group.first_line());
    Script {
        is_rig,
        group,
        host: Host::Plain,
        input: joined(prng, first_line, &lines),
        lines: Some(lines),
    }
}

/// A rig script with records that are stored and boxes that return, also with
/// events that are asked first.
fn storing_script(prng: &mut Prng, asks: bool, counts: &mut Counts) -> Script {
    counts.rig_scripts += 1;
    counts.storing_scripts += 1;
    counts.asking_scripts += usize::from(asks);
    let apart = prng.apart();
    let apart_for_quorums = &mut apart.apart();
    let mut group = Group::random(prng);
    let stops = Stops::of_rig(apart, &mut group);
    // Most groups are small, for the sake of more periods in a script.
    group.boxes = prng.pick(&[3, 3, 3, 4, 4, 5, 5, 6, 7, 8, 9]);
    quorums::name_any(apart_for_quorums, &mut group);
    let asking = asks.then(|| Asking::random(prng));
    let lines = written_lines(prng, group, Host::Storing, stops, asking, counts);
    Script {
        is_rig: true,
        group,
        host: Host::Storing,
        input: joined(prng, Some(group.first_line()), &lines),
        lines: Some(lines),
    }
}

/// Periods until the script is full; now and then some lines too many.
fn written_lines(
    prng: &mut Prng,
    group: Group,
    host: Host,
    stops: Stops,
    asking: Option<Asking>,
    counts: &mut Counts,
) -> Vec<Vec<u8>> {
    counts.pairs.count_script(&group);
    let too_many = prng.chance(5);
    let least = match host {
        Host::Plain if group.named.is_none() => 200,
        _ => 400,
    };
    let limit = match too_many {
        true => MOST_LINES,
        false => prng.between(least, MOST_LINES),
    };
    let mut course = Course::new(prng, counts, group, host, limit as usize);
    let is_pressed = stops.aim == Some(Aim::Pressed);
    course.writer.stops = Some(stops);
    course.writer.asking = asking;
    if is_pressed {
        course.press();
    }
    while !course.writer.is_full() {
        course.period();
    }
    course.writer.end();
    let mut lines = course.writer.lines;
    counts.lines += lines.len();
    if too_many {
        // What stands after line 500 must not be read.
        lines.extend(vec![b"G 2".to_vec(); 1 + prng.below(3)]);
    }
    lines
}

/// "A last line may lack its line feed"; an empty one may not, or it would be
/// no line.
fn joined(prng: &mut Prng, first_line: Option<String>, lines: &[Vec<u8>]) -> Vec<u8> {
    let mut input = Vec::new();
    if let Some(first_line) = first_line {
        input.extend(first_line.into_bytes());
        input.push(b'\n');
    }
    input.extend(lines.join(&b'\n'));
    if prng.chance(70) || lines.last().is_some_and(Vec::is_empty) {
        input.push(b'\n');
    }
    input
}

/// A rig script whose first line is refused or malformed; what follows is of
/// no account.
fn spoiled_script(prng: &mut Prng, group: Group, counts: &mut Counts) -> Script {
    counts.rig_scripts += 1;
    counts.spoiled_scripts += 1;
    let mut input = match prng.chance(60) {
        true => {
            let (unfit, _) = prng.pick(&UNFIT);
            counts.pairs.count_unfit(unfit);
            group.with_unfit_quorums(prng, unfit)
        }
        false => group.spoiled_first_line(prng),
    };
    input.extend(b"\nG 1\nT 1 1\n");
    Script {
        is_rig: true,
        group,
        host: Host::Plain,
        lines: None,
        input,
    }
}

/// A script's manner: shares of the kinds of periods and of what goes wrong.
struct Habits {
    orderly: usize,
    lossy: usize,
    view_change: usize,
    coordinator_stops: usize,
    second_lap: usize,
    chaos: usize,
    /// Lost frames of a hundred, in lossy periods.
    loss: usize,
    /// Of a hundred boxes, those that sit out a period.
    miss: usize,
    /// Of a hundred deliveries, those out of the order of sending.
    disorder: usize,
    /// Of a hundred periods, those in which a parting of the boxes begins.
    parting: usize,
    /// Of a hundred periods with power cycles, those in which a majority
    /// loses its power.
    blackout: usize,
}

impl Habits {
    fn random(prng: &mut Prng, host: Host) -> Habits {
        Habits {
            orderly: prng.pick(&[0, 1, 3, 10]),
            lossy: prng.pick(&[0, 1, 3]),
            view_change: prng.pick(&[0, 1, 3, 6]),
            coordinator_stops: prng.pick(&[0, 1, 2, 6]),
            second_lap: prng.pick(&[0, 0, 0, 1, 4]),
            chaos: prng.pick(&[0, 0, 1, 2]),
            loss: prng.pick(&[10, 25, 50]),
            miss: prng.pick(&[0, 0, 5, 15]),
            disorder: prng.pick(&[0, 10, 40, 100]),
            parting: prng.pick(&[0, 0, 10, 30]),
            blackout: match host {
                Host::Plain => 0,
                Host::Storing => prng.pick(&[0, 0, 5, 15]),
            },
        }
    }
}

/// The course of a script.
struct Course<'a> {
    writer: Writer<'a>,
    host: Host,
    habits: Habits,
    /// So many periods the box at each place still stays away.
    away: Vec<u32>,
    /// While the boxes are parted: the side of each, and for how long.
    sides: Vec<bool>,
    parted: u32,
}

impl<'a> Course<'a> {
    fn new(
        prng: &'a mut Prng,
        counts: &'a mut Counts,
        group: Group,
        host: Host,
        limit: usize,
    ) -> Self {
        let habits = Habits::random(prng, host);
        let boxes = usize::from(group.boxes);
        Course {
            writer: Writer::new(prng, counts, group, host, limit),
            host,
            habits,
            away: vec![0; boxes],
            sides: vec![false; boxes],
            parted: 0,
        }
    }

    fn period(&mut self) {
        self.pass_time();
        if self.chance(80) {
            self.writer.pending.clear();
        }
        let is_gathered = self.needs_most() && self.chance(60);
        match self.host {
            _ if is_gathered => self.gather(1),
            Host::Plain => self.tick_all(),
            Host::Storing => self.tick_and_restore(),
        }
        match self.kind_of_period() {
            _ if self.writer.asking.is_some() && self.chance(15) => self.asked_acks(),
            _ if self.host == Host::Storing && self.chance(15) => self.acks_survive(),
            0 => self.orderly(),
            1 => self.lossy(),
            2 => self.view_change(),
            3 => self.coordinator_stops(),
            4 => self.second_lap(),
            _ => self.chaos(),
        }
        if is_gathered {
            self.gather(0);
        }
        // Else few periods would be decided: half of the lines store records,
        // and many steps are undone; or most boxes are needed.
        if (self.host == Host::Storing || self.needs_most()) && self.chance(80) {
            self.converge(0);
        }
    }

    /// Drawn by the shares of the habits; each kind occurs now and then in
    /// every script.
    fn kind_of_period(&mut self) -> usize {
        let habits = &self.habits;
        let shares = [
            habits.orderly,
            habits.lossy,
            habits.view_change,
            habits.coordinator_stops,
            habits.second_lap,
            habits.chaos,
        ];
        let mut tickets = Vec::new();
        for (kind, share) in shares.into_iter().enumerate() {
            tickets.extend(vec![kind; share * 10 + 1]);
        }
        self.writer.prng.pick(&tickets)
    }

    /// Boxes come back, stay away or stop; partings begin and end.
    fn pass_time(&mut self) {
        for place in 0..self.away.len() {
            self.away[place] = self.away[place].saturating_sub(1);
        }
        self.parted = self.parted.saturating_sub(1);
        if self.parted == 0 && self.chance(self.habits.parting) {
            self.parted = 1 + self.writer.prng.below(4) as u32;
            for side in &mut self.sides {
                *side = self.writer.prng.chance(50);
            }
        }
        if self.chance(1) {
            let place = self.writer.prng.below(self.away.len());
            self.leave(place);
        }
    }

    /// A box stays away for some periods, or for good if the group can go on
    /// without it.
    fn leave(&mut self, place: usize) {
        let stopped = &self.writer.stopped;
        let remain = stopped.iter().filter(|&&stopped| !stopped).count();
        if remain > self.writer.to_go_on() && !self.writer.stopped[place] && self.chance(25) {
            self.writer.stopped[place] = true;
            self.writer.counts.stopped_boxes += 1;
        } else if self.host == Host::Storing && self.chance(60) {
            self.writer.cut_power(place);
        } else {
            self.away[place] = 1 + self.writer.prng.below(4) as u32;
        }
    }

    /// The boxes that are there tick; those after may make up for it.
    fn tick_all(&mut self) {
        let due = self.writer.newest_period() + 1;
        for place in self.writer.places() {
            if self.is_away(place) || self.chance(self.habits.miss) {
                continue;
            }
            self.writer.tick(place);
            let makes_up = self.chance(70);
            while makes_up && self.is_behind(place, due) && !self.writer.is_full() {
                self.writer.counts.made_up_ticks += 1;
                self.writer.tick(place);
            }
            if self.chance(5) {
                self.pump_some(2, 0);
            }
        }
    }

    /// Whether the box can make up for periods by ticks.
    fn is_behind(&self, place: usize, due: u32) -> bool {
        let period = self.writer.replicas[place].period;
        period < due && !self.is_away(place) && !self.writer.is_far(place)
    }

    /// Delivers what is on its way, and what that brings about, until
    /// nothing is left.
    fn pump(&mut self, loss: usize) {
        self.pump_some(usize::MAX, loss);
    }

    /// The same for at most so many frames.
    fn pump_some(&mut self, most: usize, loss: usize) {
        for _ in 0..most {
            if self.writer.is_full() || self.writer.pending.is_empty() {
                return;
            }
            let waiting = self.writer.pending.len();
            let next = match self.chance(self.habits.disorder) {
                true => self.writer.prng.below(waiting),
                false => 0,
            };
            let Some((sent, place)) = self.writer.pending.remove(next) else {
                return;
            };
            if !self.is_lost(sent, place, loss) {
                self.writer.deliver(sent, place);
            }
        }
    }

    fn is_lost(&mut self, sent: usize, place: usize, loss: usize) -> bool {
        let parted = self.parted > 0 && self.sides[self.writer.sender(sent)] != self.sides[place];
        // Acks after the decision are ignored; most are left out, for the
        // sake of more periods in a script.
        let needless = self.writer.is_ack(sent) && self.writer.replicas[place].decided;
        self.is_away(place) || parted || self.chance(loss) || needless && self.chance(70)
    }

    /// All frames arrive; boxes left undecided go on to a common view.
    fn orderly(&mut self) {
        self.pump(0);
        while self.chance(60) {
            self.converge(0);
        }
    }

    fn lossy(&mut self) {
        self.pump(self.habits.loss);
        if self.chance(60) {
            self.converge(self.habits.loss / 2);
        }
    }

    /// Some frames arrive, then the boxes give up.
    fn view_change(&mut self) {
        let some = self.writer.prng.below(2 * self.away.len());
        self.pump_some(some, 0);
        if self.chance(50) {
            self.writer.pending.clear();
        }
        self.give_up_somehow();
    }

    fn give_up_somehow(&mut self) {
        match self.chance(60) {
            true => self.converge(0),
            false => self.give_up_rounds(),
        }
    }

    /// The boxes of the newest period that are there and have not decided.
    fn undecided(&mut self) -> Vec<usize> {
        let newest = self.writer.newest_period();
        let mut places = self.writer.places();
        places.retain(|&place| {
            let replica = &self.writer.replicas[place];
            !self.is_away(place) && replica.period == newest && !replica.decided
        });
        places
    }

    /// Undecided boxes give up until they are in one view, the coordinator of
    /// which is among them; then its frames arrive.
    fn converge(&mut self, loss: usize) {
        let places = self.undecided();
        if places.len() >= self.writer.to_propose() {
            self.converge_among(&places);
            self.pump(loss);
        }
    }

    /// Ends with only the frames of the common view on their way.
    fn converge_among(&mut self, places: &[usize]) {
        let view_at = |place: &usize| self.writer.replicas[*place].view;
        let Some(top) = places.iter().map(view_at).max() else {
            return;
        };
        let leading = self.leading(places);
        let mut common = top + 1;
        while !leading.contains(&self.writer.coordinator_of(common)) {
            common += 1;
        }
        for &place in places {
            self.give_up_until(place, common);
        }
        let writer = &mut self.writer;
        let mut pending = std::mem::take(&mut writer.pending);
        pending.retain(|&(sent, _)| writer.view_of(sent) >= common);
        writer.pending = pending;
    }

    /// A normal coordinator's give-up is ignored, so it stays where it is.
    fn give_up_until(&mut self, place: usize, view: u32) {
        while self.writer.replicas[place].view < view && !self.writer.is_full() {
            let before = self.writer.replicas[place].view;
            self.writer.give_up(place);
            if self.writer.replicas[place].view == before {
                return;
            }
        }
    }

    fn give_up_rounds(&mut self) {
        let rounds = 1 + self.writer.prng.below(3);
        for _ in 0..rounds {
            let (willing, loss) = self
                .writer
                .prng
                .pick(&[(100, 0), (90, 5), (60, 0), (80, 25)]);
            self.crowd_gives_up(willing);
            match self.chance(25) {
                // A proposal that only some hear of.
                true => {
                    let some = self.writer.prng.below(2 * self.away.len());
                    self.pump_some(some, loss);
                    self.writer.pending.clear();
                }
                false => self.pump(loss),
            }
        }
    }

    /// Boxes give up that have not decided, and few others.
    fn crowd_gives_up(&mut self, willing: usize) {
        let one_side = self.parted > 0 && self.chance(50);
        for place in self.writer.places() {
            let replica = &self.writer.replicas[place];
            let idle = replica.decided || self.writer.coordinator_seen_by(place) == place;
            let share = if idle { willing / 10 } else { willing };
            let apart = one_side && self.sides[place];
            if !self.is_away(place) && !apart && self.chance(share) {
                self.writer.give_up(place);
                if self.chance(5) {
                    self.writer.give_up(place);
                }
            }
        }
    }

    /// The coordinator's proposal reaches some boxes, then it is gone; the
    /// others go on without it.
    fn coordinator_stops(&mut self) {
        let some = 1 + self.writer.prng.below(self.writer.to_decide());
        self.pump_some(some, 0);
        let seen_by = self.writer.prng.below(self.away.len());
        let gone = self.writer.coordinator_seen_by(seen_by);
        self.leave(gone);
        self.writer.pending.clear();
        self.give_up_somehow();
    }

    /// A coordinator is short of the Acks to decide; the boxes that did not
    /// hear of its proposal are enough to take over and decide on another in a
    /// later view, all but one; that one's Estimate then comes to the old
    /// coordinator, for the next view that it has. What it heard before must
    /// not count any more.
    fn second_lap(&mut self) {
        let places = self.undecided();
        let Some(&seen_by) = places.first() else {
            return;
        };
        let old = self.writer.coordinator_seen_by(seen_by);
        let mut others = places;
        others.retain(|&place| place != old);
        let few = self.few_hearing(others.len());
        if others.len() <= few {
            return;
        }
        let (hearing, unaware) = others.split_at(few);
        self.pump_to(&[hearing, &[old]].concat(), 0);
        self.converge_among(unaware);
        let apart = self.writer.prng.pick(unaware);
        others.retain(|&place| place != apart);
        self.pump_to(&others, 70);
        self.writer.pending.clear();
        self.start_lap(apart, old);
        self.pump(0);
        if self.chance(50) {
            self.converge(0);
        }
    }

    /// A box gives up until this coordinator's next view.
    fn start_lap(&mut self, place: usize, coordinator: usize) {
        let views = self.writer.replicas.iter().map(|replica| replica.view);
        let mut view = views.max().unwrap_or(0) + 1;
        while self.writer.coordinator_of(view) != coordinator {
            view += 1;
        }
        self.give_up_until(place, view);
    }

    /// Delivers frames on their way to these boxes; the others are lost, and
    /// so are some Decides, so that boxes stay undecided.
    fn pump_to(&mut self, places: &[usize], loss_of_decides: usize) {
        while let Some((sent, place)) = self.writer.pending.pop_front() {
            let lost = self.writer.is_decide(sent) && self.chance(loss_of_decides);
            if places.contains(&place) && !lost && !self.is_lost(sent, place, 0) {
                self.writer.deliver(sent, place);
            }
        }
    }

    /// Anything at any box that is there.
    fn chaos(&mut self) {
        let events = 5 + self.writer.prng.below(20);
        for _ in 0..events {
            let place = self.writer.prng.below(self.away.len());
            match self.writer.prng.below(10) {
                0 if !self.is_away(place) => self.writer.tick(place),
                1 | 2 if !self.is_away(place) => self.writer.give_up(place),
                3 | 4 => self.writer.random_delivery(),
                _ => self.pump_some(1, 10),
            }
        }
    }

    fn is_away(&self, place: usize) -> bool {
        self.away[place] > 0 || self.writer.is_out(place)
    }

    fn chance(&mut self, percent: usize) -> bool {
        self.writer.prng.chance(percent)
    }
}

#[cfg(test)]
mod tests;
