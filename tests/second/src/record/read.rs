//! Reading a record, and all that refusal 15 looks at.
//!
//! What stands in 616 bytes is taken first, whatever it is; then each
//! condition looks at the bytes or at the replica they stand for. All are
//! refused by the one number, so their order does not matter.

use super::layout::*;
use crate::fault::{planted, Fault};
use crate::law::{Readings, Settings};
use crate::refusal::Refusal;
use crate::replica::{Estimate, Heard, Mode, Quorums, Replica};

/// Reads the replica that a record stands for; refuses by 15 "record not of
/// the layout, or with settings refused at making, a mode or mark of no
/// meaning, a box heard above N, a base above its counter, or an absent value
/// not 0".
pub fn read(bytes: &[u8]) -> Result<Replica, Refusal> {
    let record = bytes.try_into().map_err(|_| Refusal::Record)?;
    let replica = replica_of(record);
    let bytes_fit = OF_BYTES.iter().all(|holds| holds(record));
    let replica_fits = OF_REPLICA.iter().all(|holds| holds(&replica));
    if bytes_fit && replica_fits {
        Ok(replica)
    } else {
        Err(Refusal::Record)
    }
}

type Record = [u8; LENGTH];

/// What the bytes themselves must fulfil.
const OF_BYTES: [fn(&Record) -> bool; 6] = [
    has_letter,
    has_version,
    mode_has_meaning,
    decided_has_meaning,
    heard_have_meaning,
    best_has_meaning,
];

/// What the replica must fulfil that they stand for.
const OF_REPLICA: [fn(&Replica) -> bool; 12] = [
    settings_are_taken,
    place_0_is_not_heard,
    none_is_heard_above,
    base_view_is_not_above,
    base_period_is_not_above,
    bases_of_best_are_not_above,
    unused_states_are_0,
    unused_readings_are_0,
    marks_are_below_m,
    absent_values_are_0,
    absent_best_is_0,
    box_of_best_is_in_the_group,
];

// The bytes.

fn has_letter(record: &Record) -> bool {
    record[LETTER_AT] == LETTER
}

fn has_version(record: &Record) -> bool {
    record[VERSION_AT] == VERSION || is_first_taken(record) || planted(Fault::VersionUnread)
}

/// Version 1: only with a fault planted.
fn is_first_taken(record: &Record) -> bool {
    record[VERSION_AT] == 1 && planted(Fault::FirstVersionTaken)
}

/// "mode: 0 normal, 1 view change"
fn mode_has_meaning(record: &Record) -> bool {
    is_mark(record[MODE_AT]) || record[MODE_AT] == 2 && planted(Fault::SecondModeTaken)
}

fn decided_has_meaning(record: &Record) -> bool {
    is_mark(record[DECIDED_AT])
}

/// Of all ten places, also of those that are no box's.
fn heard_have_meaning(record: &Record) -> bool {
    record[HEARD_AT..ESTIMATE_AT].iter().copied().all(is_mark)
}

fn best_has_meaning(record: &Record) -> bool {
    is_mark(record[HAS_BEST_AT])
}

/// Changes: "a mode or mark byte other than 0 and 1" is refused.
fn is_mark(byte: u8) -> bool {
    byte <= 1
}

// The replica.

/// Changes: "settings that 1 to 4 refuse", and "18 .. on a record (there 15)".
fn settings_are_taken(replica: &Replica) -> bool {
    replica.check_settings().is_ok() || planted(Fault::RecordSettingsUnread)
}

/// Changes: "a box heard above N (or at place 0)".
fn place_0_is_not_heard(replica: &Replica) -> bool {
    !replica.heard[0] || planted(Fault::HeardZeroTaken)
}

/// "a box heard above N"
fn none_is_heard_above(replica: &Replica) -> bool {
    let mut above = replica.heard.iter().skip(usize::from(replica.boxes) + 1);
    above.all(|heard| !heard) || planted(Fault::HeardAboveTaken)
}

/// Changes: "base view above view".
fn base_view_is_not_above(replica: &Replica) -> bool {
    replica.base_view <= replica.view || planted(Fault::BaseViewAboveTaken)
}

/// Changes: "base period above period".
fn base_period_is_not_above(replica: &Replica) -> bool {
    replica.estimate.base_period <= replica.period || planted(Fault::BasePeriodAboveTaken)
}

/// Changes: "of the estimate and of the best one held", against the replica's
/// own view and period. One that is not there has bases of 0 or is refused
/// for these.
fn bases_of_best_are_not_above(replica: &Replica) -> bool {
    let best = &replica.best;
    let not_above = best.base_view <= replica.view && best.estimate.base_period <= replica.period;
    not_above || !replica.has_best || planted(Fault::BestBaseAboveTaken)
}

/// Layout: "places that are not in use are 0: states from n on".
fn unused_states_are_0(replica: &Replica) -> bool {
    let n = usize::from(replica.settings.n);
    let mut unused = estimates(replica).flat_map(|estimate| estimate.state.iter().skip(n));
    unused.all(|&value| value == 0) || planted(Fault::UnusedStateTaken)
}

/// Layout: "readings from m on".
fn unused_readings_are_0(replica: &Replica) -> bool {
    let m = usize::from(replica.settings.m);
    let mut unused =
        estimates(replica).flat_map(|estimate| estimate.readings.values.iter().skip(m));
    unused.all(|&value| value == 0) || planted(Fault::UnusedReadingTaken)
}

/// "Marks at or above m are 0."
fn marks_are_below_m(replica: &Replica) -> bool {
    let m = replica.settings.m;
    estimates(replica).all(|estimate| !estimate.readings.has_marks_beyond(m))
        || planted(Fault::MarksBeyondTaken)
}

/// "an absent value not 0", of the readings below m.
fn absent_values_are_0(replica: &Replica) -> bool {
    let m = usize::from(replica.settings.m);
    estimates(replica).all(|estimate| absent_are_0(m, &estimate.readings))
        || planted(Fault::AbsentValueTaken)
}

fn absent_are_0(m: usize, readings: &Readings) -> bool {
    let mut used = readings.values.iter().take(m).enumerate();
    used.all(|(j, &value)| value == 0 || readings.is_present(j))
}

/// Changes: "a best estimate that is absent and not all 0".
fn absent_best_is_0(replica: &Replica) -> bool {
    replica.has_best || replica.best == Heard::default() || planted(Fault::AbsentBestTaken)
}

/// Changes: "or there and of a box outside 1 to N".
fn box_of_best_is_in_the_group(replica: &Replica) -> bool {
    let in_the_group = (1..=replica.boxes).contains(&replica.best.from);
    in_the_group || !replica.has_best || planted(Fault::BestBoxTaken)
}

/// The estimate held and, where there is one, the best one heard.
fn estimates(replica: &Replica) -> impl Iterator<Item = &Estimate> {
    let best = replica.has_best.then_some(&replica.best.estimate);
    [&replica.estimate].into_iter().chain(best)
}

// What the bytes stand for.

/// Whatever the bytes are; those of no meaning are refused all the same.
fn replica_of(record: &Record) -> Replica {
    Replica {
        boxes: record[BOXES_AT],
        own: record[OWN_AT],
        quorums: quorums_of(record),
        settings: settings_of(record),
        period: number(&record[PERIOD_AT..]),
        view: number(&record[VIEW_AT..]),
        base_view: number(&record[BASE_VIEW_AT..]),
        mode: mode_of(record[MODE_AT]),
        decided: record[DECIDED_AT] != 0,
        estimate: Estimate {
            base_period: number(&record[BASE_PERIOD_AT..]),
            ..estimate_of(&record[ESTIMATE_AT..])
        },
        heard: std::array::from_fn(|place| record[HEARD_AT + place] != 0),
        has_best: record[HAS_BEST_AT] != 0,
        best: best_of(record),
    }
}

fn mode_of(byte: u8) -> Mode {
    match byte {
        0 => Mode::Normal,
        _ => Mode::ViewChange,
    }
}

/// Layout: "a in its four low bits, b in its four high bits". A record of
/// version 1 has 0 there, which stands for the majorities where a fault takes
/// it.
fn quorums_of(record: &Record) -> Quorums {
    let byte = record[QUORUMS_AT];
    if byte == 0 && is_first_taken(record) {
        return Quorums::majorities(record[BOXES_AT]);
    }
    let (mut a, mut b) = (byte & 15, byte >> 4);
    if planted(Fault::RecordQuorumsExchanged) {
        (a, b) = (b, a);
    }
    Quorums {
        to_decide: a,
        to_propose: b,
    }
}

fn settings_of(record: &Record) -> Settings {
    let mut settings = Settings {
        n: record[N_AT],
        m: record[M_AT],
        p: record[P_AT],
        ..Settings::default()
    };
    take_values(&record[A_AT..], settings.a.as_flattened_mut());
    take_values(&record[L_AT..], settings.l.as_flattened_mut());
    take_values(&record[C_AT..], settings.c.as_flattened_mut());
    take_values(&record[K_AT..], settings.k.as_flattened_mut());
    take_values(&record[LOWER_AT..], &mut settings.lower);
    take_values(&record[UPPER_AT..], &mut settings.upper);
    take_values(&record[START_AT..], &mut settings.start);
    settings
}

fn best_of(record: &Record) -> Heard {
    Heard {
        from: record[BEST_BOX_AT],
        base_view: number(&record[BEST_BASE_VIEW_AT..]),
        estimate: Estimate {
            base_period: number(&record[BEST_BASE_PERIOD_AT..]),
            ..estimate_of(&record[BEST_ESTIMATE_AT..])
        },
    }
}

/// State and readings; the base period stands elsewhere.
fn estimate_of(place: &[u8]) -> Estimate {
    let mut estimate = Estimate::default();
    take_values(&place[STATE_IN..], &mut estimate.state);
    estimate.readings.marks = place[MARKS_IN];
    take_values(&place[READINGS_IN..], &mut estimate.readings.values);
    estimate
}

fn number(place: &[u8]) -> u32 {
    u32::from_le_bytes([place[0], place[1], place[2], place[3]])
}

/// As many values as there are places for.
fn take_values(bytes: &[u8], values: &mut [i32]) {
    for (place, value) in bytes.chunks_exact(4).zip(values) {
        *value = i32::from_le_bytes([place[0], place[1], place[2], place[3]]);
    }
}
