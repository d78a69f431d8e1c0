//! Replicas handed in with anything in them, in the areas of crate steps.

use second::law::Settings;
use second::replica::{coordinator, Quorums};
use steps::Held;

use crate::areas::Sizes;
use crate::law_call;
use crate::prng::Prng;
use crate::quorums;
use crate::values::{byte, counter, mark, value};

#[derive(Clone, Copy, Debug)]
pub struct HandedIn {
    /// As handed in, in their ranges or not.
    pub boxes: u8,
    pub own: u8,
    pub quorums: Quorums,
    pub sizes: Sizes,
    /// Tables, limits and start; its sizes are not looked at.
    pub settings: Settings,
    pub held: Held,
    /// For frames that fit: N, the own number, n and m, all in their ranges.
    pub fit: Fit,
}

#[derive(Clone, Copy, Debug)]
pub struct Fit {
    pub boxes: u8,
    pub own: u8,
    pub n: usize,
    pub m: usize,
}

pub fn make(prng: &mut Prng) -> HandedIn {
    let call = law_call::make(prng);
    let boxes = 3 + prng.below(7) as u8;
    let counters = counters(prng);
    let own = own_number(prng, boxes, counters[1]);
    let fit = Fit {
        boxes,
        own,
        n: call.sizes.n.clamp(1, 6),
        m: call.sizes.m.clamp(1, 4),
    };
    let quorums = quorums::perhaps_refused(&mut prng.apart(), boxes);
    let (boxes, own) = perhaps_no_group(prng, boxes, own);
    HandedIn {
        boxes,
        own,
        quorums,
        sizes: call.sizes,
        settings: Settings {
            start: [(); 6].map(|()| value(prng)),
            ..call.settings
        },
        held: Held {
            counters,
            marks: marks(prng, fit.boxes),
            heard: heard(prng),
            state: call.state,
            present: call.present,
            values: call.values,
            best_state: [(); 6].map(|()| value(prng)),
            best_present: [(); 4].map(|()| mark(prng)),
            best_values: [(); 4].map(|()| value(prng)),
        },
        fit,
    }
}

/// A counter at its ends, small, or anything.
fn any_counter(prng: &mut Prng) -> u32 {
    match prng.below(10) {
        0 => 0,
        1 => u32::MAX,
        2 => u32::MAX - 1,
        3 => 1,
        4..=7 => prng.below(20) as u32,
        _ => counter(prng),
    }
}

/// Within 1 of another counter, below it, or anything.
pub fn near(prng: &mut Prng, counter: u32) -> u32 {
    match prng.below(8) {
        0 | 1 => counter,
        2 | 3 => counter.saturating_sub(1),
        4 => counter.saturating_add(1),
        5 | 6 => (u64::from(counter) * prng.below(4) as u64 / 4) as u32,
        _ => any_counter(prng),
    }
}

/// Period, view, base view and base period, and the best estimate's bases,
/// which often are close to the own ones.
fn counters(prng: &mut Prng) -> [u32; 6] {
    let (period, view) = (any_counter(prng), any_counter(prng));
    let (base_view, base_period) = (near(prng, view), near(prng, period));
    let best = match prng.chance(50) {
        true => [near(prng, base_view), near(prng, base_period)],
        false => [near(prng, view), near(prng, period)],
    };
    [period, view, base_view, base_period, best[0], best[1]]
}

/// More often than not that of the view's coordinator.
fn own_number(prng: &mut Prng, boxes: u8, view: u32) -> u8 {
    match prng.chance(60) {
        true => coordinator(boxes, view),
        false => 1 + prng.below(boxes.into()) as u8,
    }
}

/// At times no group that refusal 1 lets pass.
fn perhaps_no_group(prng: &mut Prng, boxes: u8, own: u8) -> (u8, u8) {
    match prng.below(60) {
        0 => (prng.pick(&[0, 1, 2, 10, 255]), own),
        1 => (boxes, prng.pick(&[0, boxes + 1, 128 + own, 255])),
        _ => (boxes, own),
    }
}

/// View-change mode, decided, a best estimate, and the box of the latter.
fn marks(prng: &mut Prng, boxes: u8) -> [u8; 4] {
    let view_change = likely_mark(prng, 50);
    let decided = likely_mark(prng, 15);
    let best = likely_mark(prng, 60);
    let origin = match prng.chance(70) {
        true => 1 + prng.below(boxes.into()) as u8,
        false => byte(prng),
    };
    [view_change, decided, best, origin]
}

/// Few boxes or many, those above N and place 0 among them.
fn heard(prng: &mut Prng) -> [u8; 10] {
    let percent = prng.pick(&[0, 20, 50, 90]);
    [(); 10].map(|()| likely_mark(prng, percent))
}

/// A mark that is not 0 in so many of a hundred cases.
fn likely_mark(prng: &mut Prng, percent: usize) -> u8 {
    match prng.chance(percent) {
        true => prng.pick(&[1, 2, 128, 255]),
        false => 0,
    }
}
