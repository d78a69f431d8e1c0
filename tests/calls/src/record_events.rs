//! Calls for a record: of what its box may meet, and of what it may not.

use crate::events::{self, Event};
use crate::handed_in;
use crate::handed_readings;
use crate::prng::Prng;
use crate::record_calls::{Asked, Lent, Making, ENOUGH, LONGEST};
use crate::record_group::Group;
use crate::record_layout::*;
use crate::step_areas::handed_in_of;
use crate::traffic::Traffic;
use crate::values::{byte, counter, other_byte};

/// What is called with a whole record of the group, which may be damaged after
/// that.
pub fn make(prng: &mut Prng, record: &[u8], group: &Group) -> Asked {
    match prng.below(100) {
        0..=6 => making(prng),
        7..=26 => Asked::Tick {
            readings: readings(prng, sizes(record).m),
        },
        27..=36 => Asked::GiveUp,
        37..=77 => Asked::Arrive {
            bytes: arriving(prng, record, &group.traffic),
        },
        78..=83 => Asked::Record,
        _ => Asked::Return {
            missed: missed(prng),
        },
    }
}

/// Good settings and bad ones.
fn making(prng: &mut Prng) -> Asked {
    let handed_in = handed_in::make(prng);
    Asked::Make(Box::new(Making {
        boxes: handed_in.boxes,
        own: handed_in.own,
        quorums: handed_in.quorums,
        sizes: handed_in.sizes,
        settings: handed_in.settings,
    }))
}

/// At times with readings at or above m that are there.
pub fn readings(prng: &mut Prng, m: usize) -> [handed_readings::Handed; 4] {
    match prng.chance(20) {
        true => handed_readings::below(prng, 4),
        false => handed_readings::below(prng, m),
    }
}

/// A frame that fits the replica, one of the group's, for this box or not, or
/// one of these with a byte changed, cut off or added.
pub fn arriving(prng: &mut Prng, record: &[u8], traffic: &Traffic) -> Vec<u8> {
    let of_group = match prng.chance(50) {
        true => traffic.frame_for(prng, record[OWN]),
        false => None,
    };
    match of_group {
        Some(frame) => perhaps_damaged(prng, frame),
        None => fitting(prng, record),
    }
}

fn perhaps_damaged(prng: &mut Prng, mut frame: Vec<u8>) -> Vec<u8> {
    match prng.below(16) {
        0 => {
            let at = prng.below(frame.len());
            frame[at] = other_byte(prng, frame[at]);
        }
        1 => frame.truncate(prng.below(frame.len())),
        2 => frame.push(byte(prng)),
        _ => {}
    }
    frame
}

fn fitting(prng: &mut Prng, record: &[u8]) -> Vec<u8> {
    let replica = second::record::read(record).expect("a whole record");
    match events::arrival(prng, &handed_in_of(&replica)) {
        Event::Arrive { bytes, .. } => bytes,
        event => unreachable!("{event:?} is no arrival"),
    }
}

/// None, few, and what is around the most. So many take time, and are rare.
fn missed(prng: &mut Prng) -> u32 {
    match prng.below(200) {
        0 => 10_000,
        1..=20 => 10_001,
        21..=30 => u32::MAX,
        31..=34 => counter(prng),
        35..=44 => prng.below(300) as u32,
        45..=84 => 0,
        85..=134 => 1,
        _ => 2 + prng.below(10) as u32,
    }
}

/// Lengths of areas: mostly enough; at times just not, or none at all.
pub fn lent(prng: &mut Prng) -> Lent {
    Lent {
        frame: length(prng, ENOUGH.frame, LONGEST.frame),
        command: length(prng, ENOUGH.command, LONGEST.command),
        area: length(prng, ENOUGH.area, LONGEST.area),
    }
}

pub fn length(prng: &mut Prng, enough: usize, longest: usize) -> usize {
    match prng.below(40) {
        0 => enough - 1,
        1 => 0,
        2 => prng.below(enough),
        3..=20 => enough,
        _ => enough + prng.below(longest + 1 - enough),
    }
}

/// Period, view or both come near their largest values, at times in
/// view-change mode and with bases near to them: the record stays whole.
pub fn push_counters(prng: &mut Prng, record: &mut Record) {
    let which = prng.below(3);
    if which != 0 {
        push(prng, record, VIEW, BASE_VIEW);
        record[MODE] |= u8::from(prng.chance(50));
    }
    if which != 1 {
        push(prng, record, PERIOD, BASE_PERIOD);
    }
}

fn push(prng: &mut Prng, record: &mut Record, at: usize, base: usize) {
    let away = match prng.below(8) {
        0..=2 => 0,
        3 => 1,
        4 => prng.between(9_999, 10_001) as u32,
        _ => prng.below(14) as u32,
    };
    put_number(record, at, u32::MAX - away);
    if prng.chance(50) {
        put_number(record, base, u32::MAX - away - prng.below(2) as u32);
    }
}
