//! Events for a replica handed in: many go far into the rules.

use second::frame::{ACK, DECIDE, ESTIMATE, PROPOSE};
use second::replica::coordinator;

use crate::damage::{self, Damage};
use crate::draft::Draft;
use crate::handed_in::{near, Fit, HandedIn};
use crate::handed_readings::{self, Handed};
use crate::prng::Prng;
use crate::values::byte;

#[derive(Clone, Debug)]
pub enum Event {
    Make,
    Tick { readings: [Handed; 4] },
    GiveUp,
    Arrive { damage: Damage, bytes: Vec<u8> },
}

pub fn make(prng: &mut Prng, handed_in: &HandedIn) -> Event {
    match prng.below(20) {
        0 => Event::Make,
        1..=5 => tick(prng, handed_in.fit.m),
        6..=8 => Event::GiveUp,
        _ => arrival(prng, handed_in),
    }
}

/// At times with readings at or above m that are there; else with such as are
/// missing or count as missing.
fn tick(prng: &mut Prng, m: usize) -> Event {
    let below = match prng.chance(20) {
        true => 4,
        false => m,
    };
    let readings = handed_readings::below(prng, below);
    Event::Tick { readings }
}

pub fn arrival(prng: &mut Prng, handed_in: &HandedIn) -> Event {
    let Fit { n, m, .. } = handed_in.fit;
    let kind = kind(prng, handed_in);
    let mut draft = Draft::whole(prng, kind, n, m);
    let header = match prng.chance(70) {
        true => fitting(prng, kind, handed_in),
        false => close(prng, handed_in),
    };
    draft.set_header(header.sender, header.counters);
    let damage = match prng.chance(15) {
        true => damage::for_kind(prng, kind),
        false => Damage::None,
    };
    let bytes = damage::damaged(prng, damage, draft, n, m);
    Event::Arrive { damage, bytes }
}

/// Often one that a coordinator waits for.
fn kind(prng: &mut Prng, handed_in: &HandedIn) -> u8 {
    let Fit { boxes, own, .. } = handed_in.fit;
    let is_coordinator = coordinator(boxes, handed_in.held.counters[1]) == own;
    let normal = handed_in.held.marks[0] == 0;
    match (is_coordinator && prng.chance(60), normal) {
        (false, _) => prng.pick(&[PROPOSE, ACK, DECIDE, ESTIMATE]),
        (_, true) => ACK,
        _ => ESTIMATE,
    }
}

struct Header {
    sender: u8,
    /// Period, view, base view and base period.
    counters: [u32; 4],
}

/// A header that 9 to 11 mostly let pass, mostly of the own period and of a
/// view that is not below the own one.
fn fitting(prng: &mut Prng, kind: u8, handed_in: &HandedIn) -> Header {
    let Fit { boxes, own, .. } = handed_in.fit;
    let [own_period, own_view, ..] = handed_in.held.counters;
    let period = match prng.chance(92) {
        true => own_period,
        false => near(prng, own_period),
    };
    let view = match (prng.chance(60), prng.chance(90)) {
        (true, _) => own_view,
        (_, true) => own_view.saturating_add(prng.below(20) as u32),
        _ => near(prng, own_view),
    };
    let view = match kind {
        PROPOSE | DECIDE => coordinated(boxes, view, |box_number| box_number != own),
        ACK => view,
        _ => coordinated(boxes, view, |box_number| box_number == own),
    };
    let sender = match kind {
        PROPOSE | DECIDE => coordinator(boxes, view),
        _ => another_box(prng, handed_in),
    };
    let bases = bases(prng, kind, period, view, handed_in);
    Header {
        sender,
        counters: [period, view, bases[0], bases[1]],
    }
}

/// The next view from this one on with such a coordinator; this one if there
/// is none.
fn coordinated(boxes: u8, view: u32, wanted: impl Fn(u8) -> bool) -> u32 {
    let views = view..=view.saturating_add(boxes.into());
    let mut found = views.filter(|&view| wanted(coordinator(boxes, view)));
    found.next().unwrap_or(view)
}

/// Mostly one that is not heard yet, if there is one.
fn another_box(prng: &mut Prng, handed_in: &HandedIn) -> u8 {
    let Fit { boxes, own, .. } = handed_in.fit;
    let mut others: Vec<u8> = (1..=boxes).filter(|&other| other != own).collect();
    let unheard = |other: &u8| handed_in.held.heard[usize::from(*other)] == 0;
    if others.iter().any(unheard) && prng.chance(80) {
        others.retain(unheard);
    }
    prng.pick(&others)
}

/// Base fields as they must be, but for one in ten. An Estimate's are often
/// close to those of the best estimate and to the own ones.
fn bases(prng: &mut Prng, kind: u8, period: u32, view: u32, handed_in: &HandedIn) -> [u32; 2] {
    let [_, _, own_view, own_period, best_view, best_period] = handed_in.held.counters;
    let (base_view, base_period) = match prng.chance(50) {
        true => (own_view, own_period),
        false => (best_view, best_period),
    };
    let around = [near(prng, base_view), near(prng, base_period)];
    match (prng.chance(90), kind) {
        (false, _) => around,
        (_, ACK) => [0, 0],
        (_, PROPOSE | DECIDE) => [view, period],
        _ => [around[0].min(view.saturating_sub(1)), around[1].min(period)],
    }
}

/// A header with numbers close to those that fit, each by itself: more than
/// one refusal may meet it.
fn close(prng: &mut Prng, handed_in: &HandedIn) -> Header {
    let [period, view, base_view, base_period, ..] = handed_in.held.counters;
    let sender = match prng.chance(80) {
        true => prng.below(usize::from(handed_in.fit.boxes) + 2) as u8,
        false => byte(prng),
    };
    let view = near(prng, view);
    let period = near(prng, period);
    let bases = match prng.below(4) {
        0 => [0, 0],
        1 => [view, period],
        _ => [near(prng, base_view), near(prng, base_period)],
    };
    Header {
        sender,
        counters: [period, view, bases[0], bases[1]],
    }
}
