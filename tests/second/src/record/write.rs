//! Writing a replica's record into an area lent for it.

use super::layout::*;
use crate::fault::{planted, Fault};
use crate::law::{Settings, State};
use crate::refusal::Refusal;
use crate::replica::{Estimate, Heard, Mode, Quorums, Replica};

/// Writes the record of a replica; refuses settings by 1 to 4, then by 18,
/// then by 5 an area that is too short. Bytes behind the record keep what they
/// held, and all do where it is refused.
///
/// Of a replica that a caller made up, what it holds is written "as frames
/// write it (marks below m, 0 where absent)"; a best estimate that is not
/// there is all 0. Everything else is written as it stands, also where 15
/// would refuse the record.
pub fn write(replica: &Replica, area: &mut [u8]) -> Result<(), Refusal> {
    replica.check_settings()?;
    check_area(area)?;
    area[..LENGTH].copy_from_slice(&record_of(replica));
    Ok(())
}

/// Refusal 5: "also for a record area too short".
pub fn check_area(area: &[u8]) -> Result<(), Refusal> {
    if area.len() < LENGTH {
        return Err(Refusal::Areas);
    }
    Ok(())
}

/// The record of a replica with settings that 1 to 4 and 18 took; whatever is
/// not in use is 0.
fn record_of(replica: &Replica) -> [u8; LENGTH] {
    let mut record = [0; LENGTH];
    record[LETTER_AT] = LETTER;
    record[VERSION_AT] = VERSION;
    record[BOXES_AT] = replica.boxes;
    record[OWN_AT] = replica.own;
    record[QUORUMS_AT] = quorums_byte(replica.quorums);
    put_settings(&mut record, &replica.settings);
    put_counters(&mut record, replica);
    record[MODE_AT] = u8::from(replica.mode == Mode::ViewChange);
    record[DECIDED_AT] = u8::from(replica.decided);
    for (place, &heard) in record[HEARD_AT..].iter_mut().zip(&replica.heard) {
        *place = u8::from(heard);
    }
    let settings = &replica.settings;
    put_estimate(&mut record[ESTIMATE_AT..], settings, &replica.estimate);
    record[HAS_BEST_AT] = u8::from(replica.has_best);
    if replica.has_best {
        put_best(&mut record, settings, &replica.best);
    }
    record
}

/// Layout: "a + 16 × b"; neither is above 9.
fn quorums_byte(quorums: Quorums) -> u8 {
    let (mut a, mut b) = (quorums.to_decide, quorums.to_propose);
    if planted(Fault::RecordQuorumsExchanged) {
        (a, b) = (b, a);
    }
    a & 15 | b << 4
}

/// Layout: the tables and lists "stand whole, as they were given, also in
/// places that are not in use".
fn put_settings(record: &mut [u8], settings: &Settings) {
    record[N_AT] = settings.n;
    record[M_AT] = settings.m;
    record[P_AT] = settings.p;
    put_values(&mut record[A_AT..], settings.a.as_flattened());
    put_values(&mut record[L_AT..], settings.l.as_flattened());
    put_values(&mut record[C_AT..], settings.c.as_flattened());
    put_values(&mut record[K_AT..], settings.k.as_flattened());
    put_values(&mut record[LOWER_AT..], &settings.lower);
    put_values(&mut record[UPPER_AT..], &settings.upper);
    put_values(&mut record[START_AT..], &settings.start);
}

fn put_counters(record: &mut [u8], replica: &Replica) {
    put_number(&mut record[PERIOD_AT..], replica.period);
    put_number(&mut record[VIEW_AT..], replica.view);
    put_number(&mut record[BASE_VIEW_AT..], replica.base_view);
    put_number(&mut record[BASE_PERIOD_AT..], replica.estimate.base_period);
}

/// State and readings; the base period stands elsewhere.
fn put_estimate(place: &mut [u8], settings: &Settings, estimate: &Estimate) {
    let readings = estimate.readings.as_read(settings.m);
    let state = in_use(settings.n, &estimate.state);
    put_values(&mut place[STATE_IN..], &state);
    place[MARKS_IN] = readings.marks;
    put_values(&mut place[READINGS_IN..], &readings.values);
}

/// Layout: "places that are not in use are 0: states from n on".
fn in_use(n: u8, state: &State) -> State {
    let mut used = *state;
    used[n.into()..].fill(0);
    used
}

fn put_best(record: &mut [u8], settings: &Settings, best: &Heard) {
    record[BEST_BOX_AT] = best.from;
    put_number(&mut record[BEST_BASE_VIEW_AT..], best.base_view);
    put_number(
        &mut record[BEST_BASE_PERIOD_AT..],
        best.estimate.base_period,
    );
    put_estimate(&mut record[BEST_ESTIMATE_AT..], settings, &best.estimate);
}

fn put_number(place: &mut [u8], number: u32) {
    place[..4].copy_from_slice(&number.to_le_bytes());
}

fn put_values(places: &mut [u8], values: &[i32]) {
    for (place, value) in places.chunks_exact_mut(4).zip(values) {
        place.copy_from_slice(&value.to_le_bytes());
    }
}
