//! The areas that calls on replicas with tickets are lent, by their lengths.

use winder::{RECORD, TICKETED};

use crate::prng::Prng;
use crate::record_calls::{Lent, ENOUGH, LONGEST};
use crate::record_events::length;
use crate::ticket_calls::{Call, Name};

/// The longest area lent for a replica with tickets.
const LONGEST_REPLICA: usize = 800;

/// The areas in the order of the calls.
pub const AREA: usize = 0;
pub const FRAME: usize = 1;
pub const COMMAND: usize = 2;

/// Mostly enough; at times just not, or none at all.
pub fn make(prng: &mut Prng, name: &Name) -> Lent {
    let longest = match name {
        Name::Tickets => LONGEST_REPLICA,
        _ => LONGEST.area,
    };
    Lent {
        frame: length(prng, ENOUGH.frame, LONGEST.frame),
        command: length(prng, ENOUGH.command, LONGEST.command),
        area: length(prng, enough(name)[AREA], longest),
    }
}

/// Areas from these lengths on are not refused.
fn enough(name: &Name) -> [usize; 3] {
    let area = match name {
        Name::Tickets => TICKETED,
        _ => RECORD,
    };
    [area, ENOUGH.frame, ENOUGH.command]
}

/// The lengths of the areas, where the call is lent one.
fn lent(call: &Call) -> [Option<usize>; 3] {
    let Lent {
        area,
        frame,
        command,
    } = call.lent;
    match call.name {
        Name::Tickets => [Some(area), None, None],
        Name::Ask(_) => [area, frame, command].map(Some),
        Name::Commit { .. } => [None; 3],
        Name::Step(_) => [None, Some(frame), Some(command)],
    }
}

/// The lengths of the areas lent, each with what is enough.
pub fn in_pairs(call: &Call) -> impl Iterator<Item = (usize, usize)> {
    let areas = lent(call).into_iter().zip(enough(&call.name));
    areas.filter_map(|(length, enough)| Some((length?, enough)))
}

pub fn is_short(call: &Call) -> bool {
    in_pairs(call).any(|(length, enough)| length < enough)
}

/// Whether this area alone is too short, by one byte.
pub fn is_short_by_one(call: &Call, area: usize) -> bool {
    let short = in_pairs(call).filter(|(length, enough)| length < enough);
    short.count() == 1 && lent(call)[area] == Some(enough(&call.name)[area] - 1)
}
