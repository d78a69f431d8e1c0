//! The first implementation, with the second's settings and with sizes apart
//! from them.

use second::law::Settings;
use second::replica::Quorums;

use crate::areas::{Fields, Sizes};
use crate::handed_readings::numbers_of;
use crate::page_areas::{words_of, PAGE_WORDS};
use crate::page_calls::Writing;
use crate::record_calls::{Areas, Asked};
use crate::ticket_calls::{self, Event, Name};

/// The sizes in the settings are not looked at.
pub fn sized(sizes: Sizes, settings: &Settings) -> winder::Settings {
    winder::Settings {
        n: sizes.n,
        m: sizes.m,
        p: sizes.p,
        a: flat(&settings.a),
        l: flat(&settings.l),
        c: flat(&settings.c),
        k: flat(&settings.k),
        low: settings.lower,
        high: settings.upper,
    }
}

/// Row after row.
fn flat<const PLACES: usize, const WIDTH: usize>(rows: &[[i32; WIDTH]]) -> [i32; PLACES] {
    let places = rows.as_flattened().try_into();
    places.expect("as many places as the rows have")
}

pub fn update(
    sizes: Sizes,
    settings: &Settings,
    present: &[u8; 4],
    values: &[i32; 4],
    state: &mut [i32; 6],
    limited: &mut u8,
) -> u32 {
    winder::update(&sized(sizes, settings), present, values, state, limited)
}

pub fn command(
    sizes: Sizes,
    settings: &Settings,
    state: &[i32; 6],
    commands: &mut [i32; 4],
    limited: &mut u8,
) -> u32 {
    winder::command(&sized(sizes, settings), state, commands, limited)
}

pub fn convert_single(bits: u32, value: &mut i32) -> u8 {
    winder::convert_single(bits, value)
}

pub fn read(sizes: Sizes, bytes: &[u8], fields: &mut Fields) -> u32 {
    winder::read_frame(sizes.n, sizes.m, bytes, fields)
}

pub fn write(sizes: Sizes, fields: &Fields, area: &mut [u8], length: &mut usize) -> u32 {
    winder::write_frame(sizes.n, sizes.m, fields, area, length)
}

pub fn write_page(call: &Writing, area: &mut [u8], length: &mut usize) -> u32 {
    let Writing { p, entries, .. } = call;
    match &call.left_over {
        None => winder::write_page(*p, entries, area, length),
        Some(left_over) => {
            let mut words: Vec<u32> = entries.iter().flat_map(words_of).collect();
            words.extend(left_over);
            winder::write_page_words(*p, &words, area, length)
        }
    }
}

pub fn read_page(p: usize, bytes: &[u8], count: &mut usize, words: &mut [u32; PAGE_WORDS]) -> u32 {
    steps::read_page(p, bytes, count, words)
}

pub fn on_record(asked: &Asked, areas: Areas) -> u32 {
    let Areas { record, area, .. } = areas;
    let lent = winder::Lent {
        frame: areas.frame,
        command: areas.command,
        lengths: areas.lengths,
    };
    match asked {
        Asked::Make(making) => {
            let settings = sized(making.sizes, &making.settings);
            let start = &making.settings.start;
            let Quorums {
                to_decide: a,
                to_propose: b,
            } = making.quorums;
            winder::make(&settings, start, making.boxes, making.own, a, b, area)
        }
        Asked::Tick { readings } => {
            let (kinds, bits) = numbers_of(readings);
            winder::tick(record, &kinds, &bits, lent)
        }
        Asked::GiveUp => winder::give_up(record, lent),
        Asked::Arrive { bytes } => winder::arrive(record, bytes, lent),
        Asked::Record => winder::record(record, area),
        Asked::Return { missed } => winder::return_from(record, *missed, area),
    }
}

pub fn on_tickets(name: &Name, areas: ticket_calls::Areas) -> u32 {
    let ticket_calls::Areas { replica, area, .. } = areas;
    match name {
        Name::Tickets => winder::tickets(replica, area),
        Name::Ask(event) => {
            let lent = winder::LentToAsk {
                area,
                frame: areas.frame,
                command: areas.command,
                lengths: areas.lengths,
                ticket: areas.ticket,
            };
            ask(event, replica, lent)
        }
        Name::Commit { ticket, .. } => winder::commit(replica, *ticket),
        Name::Step(event) => {
            let lent = winder::Lent {
                frame: areas.frame,
                command: areas.command,
                lengths: areas.lengths,
            };
            step(event, replica, lent)
        }
    }
}

fn ask(event: &Event, replica: &mut [u8], lent: winder::LentToAsk) -> u32 {
    match event {
        Event::Tick { readings } => {
            let (kinds, bits) = numbers_of(readings);
            winder::ask_tick(replica, &kinds, &bits, lent)
        }
        Event::GiveUp => winder::ask_give_up(replica, lent),
        Event::Arrive { bytes } => winder::ask_arrive(replica, bytes, lent),
    }
}

fn step(event: &Event, replica: &mut [u8], lent: winder::Lent) -> u32 {
    match event {
        Event::Tick { readings } => {
            let (kinds, bits) = numbers_of(readings);
            winder::ticketed_tick(replica, &kinds, &bits, lent)
        }
        Event::GiveUp => winder::ticketed_give_up(replica, lent),
        Event::Arrive { bytes } => winder::ticketed_arrive(replica, bytes, lent),
    }
}

#[cfg(test)]
mod tests {
    #[test]
    fn the_archive_has_the_version_of_the_declarations() {
        assert_eq!(winder::version(), winder::VERSION);
    }
}
