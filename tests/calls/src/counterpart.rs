//! The second implementation, under the signatures of `first`.

use second::calls;
use second::frame;
use second::law::{self, Settings};
use second::page;
use second::reading;
use second::refusal::Refusal;
use second::replica;
use second::ticket_calls as tickets;

use crate::areas::{of_frame, row, to_frame, Fields, Sizes};
use crate::handed_readings::numbers_of;
use crate::page_areas::{of_second, to_second, words_of, ENTRY_WORDS, PAGE_WORDS};
use crate::page_calls::Writing;
use crate::record_calls::{Areas, Asked};
use crate::ticket_calls::{self, Event, Name};

/// The answer's number; what is given goes to its area where nothing is
/// refused.
fn answer<T>(result: Result<T, Refusal>, area: &mut T) -> u32 {
    match result {
        Ok(given) => {
            *area = given;
            0
        }
        Err(refusal) => refusal.number().into(),
    }
}

pub fn sized(sizes: Sizes, settings: &Settings) -> Settings {
    let [n, m, p] = sizes.narrow();
    Settings {
        n,
        m,
        p,
        ..*settings
    }
}

pub fn update(
    sizes: Sizes,
    settings: &Settings,
    present: &[u8; 4],
    values: &[i32; 4],
    state: &mut [i32; 6],
    limited: &mut u8,
) -> u32 {
    let readings = row(present, values);
    let mut given = (*state, *limited);
    let updated = law::update(&sized(sizes, settings), state, &readings);
    let updated = updated.map(|updated| (updated.state, updated.limited.into()));
    let number = answer(updated, &mut given);
    (*state, *limited) = given;
    number
}

pub fn command(
    sizes: Sizes,
    settings: &Settings,
    state: &[i32; 6],
    commands: &mut [i32; 4],
    limited: &mut u8,
) -> u32 {
    let mut given = (*commands, *limited);
    let commanded = law::command(&sized(sizes, settings), state);
    let commanded = commanded.map(|command| (command.values, command.limited.into()));
    let number = answer(commanded, &mut given);
    (*commands, *limited) = given;
    number
}

/// What is missing has the value 0.
pub fn convert_single(bits: u32, value: &mut i32) -> u8 {
    let converted = reading::convert_single(bits);
    *value = converted.unwrap_or(0);
    converted.is_some().into()
}

pub fn read(sizes: Sizes, bytes: &[u8], fields: &mut Fields) -> u32 {
    let [n, m, _] = sizes.narrow();
    let frame = frame::read(n, m, bytes);
    answer(frame.map(|frame| of_frame(&frame)), fields)
}

pub fn write(sizes: Sizes, fields: &Fields, area: &mut [u8], length: &mut usize) -> u32 {
    let [n, m, _] = sizes.narrow();
    answer(frame::write(n, m, &to_frame(fields), area), length)
}

/// Words that are left over are not handed to it.
pub fn write_page(call: &Writing, area: &mut [u8], length: &mut usize) -> u32 {
    let entries: Vec<page::Entry> = call.entries.iter().map(to_second).collect();
    answer(page::write(call.p, &entries, area), length)
}

pub fn read_page(p: usize, bytes: &[u8], count: &mut usize, words: &mut [u32; PAGE_WORDS]) -> u32 {
    let mut given = (*count, *words);
    let entries = page::read(p, bytes);
    let number = answer(entries.map(|entries| lines_of(&entries)), &mut given);
    (*count, *words) = given;
    number
}

/// How many, and seven words for each. Only with a fault planted there may be
/// more than find room.
fn lines_of(entries: &[page::Entry]) -> (usize, [u32; PAGE_WORDS]) {
    let mut words = [0; PAGE_WORDS];
    let (places, _) = words.as_chunks_mut::<ENTRY_WORDS>();
    for (place, entry) in places.iter_mut().zip(entries) {
        *place = words_of(&of_second(entry));
    }
    (entries.len(), words)
}

pub fn on_record(asked: &Asked, areas: Areas) -> u32 {
    let Areas {
        record,
        area,
        frame,
        command,
        lengths,
    } = areas;
    let lent = replica::Areas { frame, command };
    match asked {
        Asked::Make(making) => {
            let settings = sized(making.sizes, &making.settings);
            calls::make(making.boxes, making.own, making.quorums, settings, area)
        }
        Asked::Tick { readings } => {
            let (kinds, bits) = numbers_of(readings);
            calls::tick(record, &kinds, &bits, lent, lengths)
        }
        Asked::GiveUp => calls::give_up(record, lent, lengths),
        Asked::Arrive { bytes } => calls::arrive(record, bytes, lent, lengths),
        Asked::Record => calls::copy(record, area),
        Asked::Return { missed } => calls::return_to(record, *missed, area),
    }
}

pub fn on_tickets(name: &Name, areas: ticket_calls::Areas) -> u32 {
    match name {
        Name::Tickets => tickets::tickets(areas.replica, areas.area),
        Name::Ask(event) => ask(event, areas),
        Name::Commit { ticket, .. } => tickets::commit(areas.replica, *ticket),
        Name::Step(event) => step(event, areas),
    }
}

fn ask(event: &Event, areas: ticket_calls::Areas) -> u32 {
    let ticket_calls::Areas {
        replica,
        area,
        frame,
        command,
        lengths,
        ticket: [ticket],
    } = areas;
    let lent = replica::Areas { frame, command };
    match event {
        Event::Tick { readings } => {
            let (kinds, bits) = numbers_of(readings);
            tickets::ask_tick(replica, &kinds, &bits, area, lent, lengths, ticket)
        }
        Event::GiveUp => tickets::ask_give_up(replica, area, lent, lengths, ticket),
        Event::Arrive { bytes } => tickets::ask_arrive(replica, bytes, area, lent, lengths, ticket),
    }
}

fn step(event: &Event, areas: ticket_calls::Areas) -> u32 {
    let ticket_calls::Areas {
        replica,
        frame,
        command,
        lengths,
        ..
    } = areas;
    let lent = replica::Areas { frame, command };
    match event {
        Event::Tick { readings } => {
            let (kinds, bits) = numbers_of(readings);
            tickets::ticketed_tick(replica, &kinds, &bits, lent, lengths)
        }
        Event::GiveUp => tickets::ticketed_give_up(replica, lent, lengths),
        Event::Arrive { bytes } => tickets::ticketed_arrive(replica, bytes, lent, lengths),
    }
}
