//! Malformed lines that resemble asks, commits and stores of what was asked. On
//! the bench any such line is malformed.

use super::Place;
use crate::prng::Prng;

/// Words that are no ticket.
const NO_TICKETS: [&str; 14] = [
    "",
    "-",
    "-1",
    "-0",
    "+1",
    "01",
    "00",
    "x",
    "1.0",
    "1 ",
    "1\r",
    "f00000001",
    "18446744073709551616",
    "99999999999999999999",
];

pub fn line(prng: &mut Prng, place: &Place) -> Vec<u8> {
    let number = prng.between(1, place.boxes.into()).to_string();
    let text = match prng.below(4) {
        0 | 1 => no_ask(prng, place, &number),
        2 => no_commit(prng, place, &number),
        _ => no_store(prng, place, &number),
    };
    text.into_bytes()
}

fn no_ask(prng: &mut Prng, place: &Place, number: &str) -> String {
    let readings = vec!["7"; place.readings.into()].join(" ");
    let above = place.boxes + 1;
    match prng.below(14) {
        0 => format!("AT {above} {readings}"),
        1 => format!("AT {number}"),
        2 => format!("AT {number} {readings} 7"),
        3 => format!("AT {number} {readings} "),
        4 => format!("A T {number} {readings}"),
        5 => format!("aT {number} {readings}"),
        6 => format!(
            "AG {}",
            prng.pick(&["0", "", "-", "01", "1 1", "1\r", "+1"])
        ),
        7 => format!("AAG {number}"),
        8 => format!(
            "AD {number} {}",
            prng.pick(&["0", "-1", "-", "?", "01", ""])
        ),
        9 => format!("AD {number} {}", place.line),
        10 if !place.unsent.is_empty() => format!("AD {number} {}", prng.pick(place.unsent)),
        11 => format!(
            "{} {number}",
            prng.pick(&["A", "AS", "AC", "ASA", "GA", "Ag"])
        ),
        12 => format!("AR {number} 0"),
        _ if !place.takes_singles => match prng.below(2) {
            0 => format!("AG {number}"),
            _ => format!("AT {number} {readings}"),
        },
        _ => format!("AC {number} 1"),
    }
}

fn no_commit(prng: &mut Prng, place: &Place, number: &str) -> String {
    let above = place.boxes + 1;
    match prng.below(6) {
        0 => format!("C {above} 1"),
        1 => format!("C {number}"),
        2 => format!("C {number} 1 1"),
        3 => format!("{} {number} 1", prng.pick(&["c", "CA", " C", "C ", "CC"])),
        4 if !place.takes_singles => format!("C {number} {}", prng.pick(&["0", "1"])),
        _ => format!("C {number} {}", prng.pick(&NO_TICKETS)),
    }
}

/// Also malformed where no ask gave a record.
fn no_store(prng: &mut Prng, place: &Place, number: &str) -> String {
    match prng.below(4) {
        0 => format!(
            "SA {}",
            prng.pick(&["", "0", "-", "01", "+1", "1 1", "1\r", "10"])
        ),
        1 => format!(
            "{} {number}",
            prng.pick(&["sA", "Sa", "SAA", "SA ", " SA", "S A", "SC"])
        ),
        _ if !place.without_ask.is_empty() => format!("SA {}", prng.pick(place.without_ask)),
        _ => "SA".to_string(),
    }
}
