//! Replicas with tickets, whole and damaged in one field: of the tickets, of
//! the record before them, or of what a ticket's step leaves.

use winder::RECORD;

use crate::prng::Prng;
use crate::record_damage::{self, damage_one, OF_FIELDS, OF_STEPPED};
use crate::ticket_calls::Name;
use crate::ticket_layout::*;
use crate::values::{byte, other_byte};

/// The longest bytes that are handed in as a replica with tickets.
const LONGEST_REPLICA: usize = 800;

/// What was done to a replica; the places are those of the two tables of
/// damages.
#[derive(Clone, Copy, Debug, PartialEq, Eq)]
pub enum Damage {
    Whole,
    OfTickets(usize),
    OfRecord(usize),
    OfLeft(usize),
}

type OfTickets = fn(&mut Prng, &mut Replica);

/// For the call that takes a record: one with tickets is none.
const WITH_TICKETS: usize = 0;

/// Every damage of the tickets.
pub const DAMAGES: [(&str, OfTickets); 23] = [
    ("with tickets, for a record", |_, _| {}),
    ("a length of 751", |_, replica| replica.truncate(751)),
    ("a length of 753", |prng, replica| replica.push(byte(prng))),
    ("the record alone", |_, replica| replica.truncate(RECORD)),
    ("no byte", |_, replica| replica.clear()),
    ("another length", other_length),
    ("letter", |prng, replica| {
        replica[TICKET_LETTER] = prng.pick(b"\0tRSU\xff");
    }),
    ("version", |prng, replica| {
        replica[TICKET_VERSION] = prng.pick(&[0, 2, 255]);
    }),
    ("byte 618: 0", |_, replica| replica[OPEN] = 0),
    ("byte 618: 1", |_, replica| replica[OPEN] = 1),
    ("byte 618: 2", |_, replica| replica[OPEN] = 2),
    ("byte 618: 255", |_, replica| replica[OPEN] = 255),
    ("byte 619", |prng, replica| not_zero(prng, replica, 0)),
    ("byte 620", |prng, replica| not_zero(prng, replica, 1)),
    ("byte 621", |prng, replica| not_zero(prng, replica, 2)),
    ("byte 622", |prng, replica| not_zero(prng, replica, 3)),
    ("byte 623", |prng, replica| not_zero(prng, replica, 4)),
    ("latest ticket: 0", |_, replica| put_latest(replica, 0)),
    ("latest ticket: 1", |_, replica| put_latest(replica, 1)),
    ("latest ticket: the largest", |_, replica| {
        put_latest(replica, u64::MAX);
    }),
    ("latest ticket: the largest - 1", |_, replica| {
        put_latest(replica, u64::MAX - 1);
    }),
    ("latest ticket: at random", |prng, replica| {
        put_latest(replica, prng.next());
    }),
    ("a byte at random", |prng, replica| {
        let at = RECORD + prng.below(replica.len() - RECORD);
        replica[at] = byte(prng);
    }),
];

/// Any length but that of a replica with tickets.
fn other_length(prng: &mut Prng, replica: &mut Replica) {
    let length = prng.below(LONGEST_REPLICA);
    let length = length + usize::from(length >= replica.len());
    replica.resize_with(length, || byte(prng));
}

/// One of the bytes that are always 0.
fn not_zero(prng: &mut Prng, replica: &mut Replica, place: usize) {
    replica[ZEROS.start + place] = match prng.chance(50) {
        true => 1,
        false => other_byte(prng, 0),
    };
}

/// What is done to a replica, which is whole. Half of them stay so, and so do
/// those without the field that was drawn.
fn damage(prng: &mut Prng, replica: &mut Replica) -> Damage {
    match prng.below(100) {
        0..=49 => Damage::Whole,
        50..=69 => of_tickets(prng, replica),
        70..=81 => of_record(prng, replica),
        _ => of_left(prng, replica),
    }
}

/// What is handed to a call, and what was done to it. Where tickets are put
/// beside a replica, that is its record.
pub fn handed_in(prng: &mut Prng, name: &Name, mut replica: Replica) -> (Replica, Damage) {
    let is_of_record = matches!(name, Name::Tickets);
    let damage = match is_of_record {
        true if prng.chance(8) => Damage::OfTickets(WITH_TICKETS),
        true => {
            replica.truncate(RECORD);
            let place = record_damage::damage(prng, &mut replica);
            of_place(place, Damage::OfRecord)
        }
        false => damage(prng, &mut replica),
    };
    (replica, damage)
}

fn of_tickets(prng: &mut Prng, replica: &mut Replica) -> Damage {
    let place = 1 + prng.below(DAMAGES.len() - 1);
    let (_, damage) = DAMAGES[place];
    damage(prng, replica);
    Damage::OfTickets(place)
}

fn of_record(prng: &mut Prng, replica: &mut Replica) -> Damage {
    let mut record = replica[..RECORD].to_vec();
    let place = damage_one(prng, &mut record, OF_FIELDS);
    replica[..RECORD].copy_from_slice(&record);
    of_place(place, Damage::OfRecord)
}

fn of_left(prng: &mut Prng, replica: &mut Replica) -> Damage {
    let mut record = left_record(replica);
    let place = damage_one(prng, &mut record, OF_STEPPED);
    put_left(replica, &record);
    of_place(place, Damage::OfLeft)
}

/// Place 0 is that of whole records.
fn of_place(place: usize, damage: fn(usize) -> Damage) -> Damage {
    match place {
        0 => Damage::Whole,
        place => damage(place),
    }
}

#[cfg(test)]
mod tests {
    use super::*;
    use crate::ticket_events::open_one;
    use crate::ticket_group::Group;

    /// Those that leave a replica with tickets, and those that may.
    const HARMLESS: [&str; 6] = [
        "with tickets, for a record",
        "byte 618: 0",
        "latest ticket: 1",
        "latest ticket: the largest",
        "latest ticket: the largest - 1",
        "latest ticket: at random",
    ];
    const PERHAPS: [&str; 3] = ["byte 618: 1", "latest ticket: 0", "a byte at random"];

    /// Whether the second implementation takes it, by a commit that cannot be
    /// refused by 15 otherwise.
    fn is_taken(replica: &[u8]) -> bool {
        second::ticket_calls::commit(&mut replica.to_vec(), 0) != 15
    }

    #[test]
    fn every_other_damage_is_refused() {
        let mut of_tickets = [[0; 2]; DAMAGES.len()];
        let mut of_left = [[[0; 2]; 2]; record_damage::DAMAGES.len()];
        for number in 1..=20_000 {
            let prng = &mut Prng::of_script(2, number);
            let (mut one, traffic) = Group::live(prng, None).unwrap().into_one(prng);
            open_one(prng, &mut one, &traffic).unwrap();
            let mut replica = one.replica;
            assert!(is_taken(&replica));
            let was_open = is_open(&replica);
            let damage = damage(prng, &mut replica);
            let taken = usize::from(is_taken(&replica));
            match damage {
                Damage::Whole => assert_eq!(taken, 1),
                Damage::OfTickets(place) => of_tickets[place][taken] += 1,
                Damage::OfLeft(place) => of_left[place][usize::from(was_open)][taken] += 1,
                Damage::OfRecord(_) => {}
            }
        }
        for ((name, _), [refused, taken]) in DAMAGES.iter().zip(of_tickets).skip(1) {
            let may_be_taken = HARMLESS.contains(name) || PERHAPS.contains(name);
            assert_eq!(refused > 0, !HARMLESS.contains(name), "{name}");
            assert_eq!(taken > 0, may_be_taken, "{name}");
        }
        for place in OF_STEPPED {
            let name = record_damage::DAMAGES[place].name;
            let [[refused, taken], [open_refused, _]] = of_left[place];
            assert!(refused == 0 && taken > 0, "{name}");
            assert_eq!(open_refused > 0, name != "a state below n", "{name}");
        }
    }
}
