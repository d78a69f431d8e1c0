//! A replica with its tickets in an area of 752 bytes: the replica's record,
//! and the tickets behind it.

use std::ops::Range;

use super::{Open, Ticketed};
use crate::fault::{planted, Fault};
use crate::record::{self, HELD_AT};
use crate::refusal::Refusal;
use crate::replica::Replica;

/// Layout: "84, the letter T".
const LETTER: u8 = b'T';

/// Layout: "1, the version of the tickets' layout".
const VERSION: u8 = 1;

/// The tickets stand behind the record.
const LETTER_AT: usize = record::LENGTH;
const VERSION_AT: usize = 617;
/// "1 where the latest ticket can be committed, else 0"
const OPEN_AT: usize = 618;
const ZEROS: Range<usize> = 619..624;
/// "the latest ticket, u64 little-endian, 0 before the first"
const LATEST: Range<usize> = 624..632;
/// "what the step leaves of the latest ask with the answer ok: bytes 496 to
/// 615 of its record"
const LEFT: Range<usize> = 632..LENGTH;

/// "end"
pub const LENGTH: usize = 752;

type Area = [u8; LENGTH];

/// What the bytes of the tickets must fulfil by themselves.
const OF_BYTES: [fn(&Area) -> bool; 5] = [
    has_letter,
    has_version,
    has_zeros,
    open_has_meaning,
    open_is_of_a_ticket,
];

/// Lays down a replica with no ticket given; refuses by 5 an area under 752
/// bytes. Bytes behind it keep what they held.
pub fn make(ticketed: &Ticketed, area: &mut [u8]) -> Result<(), Refusal> {
    let place = area.get_mut(..LENGTH).ok_or(Refusal::Areas)?;
    place[LETTER_AT..].fill(0);
    place[LETTER_AT] = LETTER;
    place[VERSION_AT] = VERSION;
    write(ticketed, place)
}

/// Reads a replica with its tickets; refuses by 15 what is not of the layout.
pub fn read(bytes: &[u8]) -> Result<Ticketed, Refusal> {
    let area: &Area = bytes.try_into().map_err(|_| Refusal::Record)?;
    let mut ticketed = Ticketed::new(record::read(&area[..record::LENGTH])?);
    if !OF_BYTES.iter().all(|holds| holds(area)) {
        return Err(Refusal::Record);
    }
    ticketed.tickets.latest = latest_of(area);
    if area[OPEN_AT] == 1 {
        ticketed.tickets.open = Some(Open {
            ticket: latest_of(area),
            left: left_of(area, &ticketed.replica)?,
        });
    }
    Ok(ticketed)
}

/// Writes back what was read of an area and may have changed. What a ticket's
/// step leaves stays where none can be committed.
pub fn write(ticketed: &Ticketed, area: &mut [u8]) -> Result<(), Refusal> {
    record::write(&ticketed.replica, area)?;
    let tickets = &ticketed.tickets;
    area[OPEN_AT] = u8::from(tickets.open.is_some());
    area[LATEST].copy_from_slice(&tickets.latest.to_le_bytes());
    if let Some(open) = &tickets.open {
        let mut record = [0; record::LENGTH];
        record::write(&open.left, &mut record)?;
        area[LEFT].copy_from_slice(&record[HELD_AT..]);
    }
    Ok(())
}

fn has_letter(area: &Area) -> bool {
    area[LETTER_AT] == LETTER
}

fn has_version(area: &Area) -> bool {
    area[VERSION_AT] == VERSION
}

fn has_zeros(area: &Area) -> bool {
    area[ZEROS].iter().all(|&byte| byte == 0) || planted(Fault::TicketLayoutUnread)
}

fn open_has_meaning(area: &Area) -> bool {
    area[OPEN_AT] <= 1
}

/// Ticket 0 is given to no ask that can be committed.
fn open_is_of_a_ticket(area: &Area) -> bool {
    area[OPEN_AT] == 0 || latest_of(area) != 0 || planted(Fault::OpenZeroTaken)
}

fn latest_of(area: &Area) -> u64 {
    let mut bytes = [0; 8];
    bytes.copy_from_slice(&area[LATEST]);
    u64::from_le_bytes(bytes)
}

/// What the step of an open ticket leaves: no step changes the settings, so
/// they are those of the replica. With the planted fault of the pending unread
/// what is no record stands for the replica as it is.
fn left_of(area: &Area, present: &Replica) -> Result<Replica, Refusal> {
    let record = [&area[..HELD_AT], &area[LEFT]].concat();
    match record::read(&record) {
        Err(_) if planted(Fault::PendingUnread) => Ok(*present),
        left => left,
    }
}
