//! One call on a record for each kind of call.

use second::frame::{COMMAND_AREA, FRAME_AREA};
use second::replica::Areas;
use winder::{IGNORED, MISSED_MAX, RECORD};

use crate::boxes::Boxes;
use crate::group::Law;
use crate::periods::normal;
use crate::records::{Calls, Given, Record, Recorded, Second};

/// A kind of call: its name, the answer that it has, how many calls a figure is the mean of, and what is called.
pub struct Kind {
    pub name: &'static str,
    pub answer: u32,
    pub calls: usize,
    call: fn(&mut Group) -> Call,
}

/// The group that calls are prepared in, by the second implementation for both.
type Group = Boxes<Recorded<Second>>;

const fn kind(name: &'static str, answer: u32, call: fn(&mut Group) -> Call) -> Kind {
    Kind {
        name,
        answer,
        calls: 1_000,
        call,
    }
}

pub const KINDS: [Kind; 16] = [
    kind("make", 0, |group| Call::new(group, 0, Asked::Make)),
    kind("tick of a coordinator", 0, coordinator_tick),
    kind("tick of another box", 0, other_tick),
    kind("Propose arrives", 0, propose),
    kind("the Ack that decides arrives", 0, deciding_ack),
    kind("Decide arrives", 0, decide),
    kind("ignored frame", IGNORED, ignored),
    kind("Estimate of a higher view arrives", 0, estimate),
    kind("give up the view", 0, give_up),
    kind("record", 0, record),
    kind("return, none missed", 0, |group| returning(group, 0)),
    kind("return, 1 missed", 0, |group| returning(group, 1)),
    Kind {
        calls: 10,
        ..kind("return, 10,000 missed", 0, |group| {
            returning(group, MISSED_MAX)
        })
    },
    kind("tick refused by 15, byte 0", 15, first_byte),
    kind("tick refused by 15, byte 615", 15, last_byte),
    kind("tick refused by 5", 5, short_command),
];

pub enum Asked {
    Make,
    Tick,
    GiveUp,
    Arrive(Vec<u8>),
    Record,
    Return(u32),
}

impl Asked {
    /// The C call without the prefix that all have, and the function of [`crate::counted`].
    pub fn function(&self) -> &'static str {
        match self {
            Asked::Make => "make",
            Asked::Tick => "tick",
            Asked::GiveUp => "give_up",
            Asked::Arrive(_) => "arrive",
            Asked::Record => "record",
            Asked::Return(_) => "return",
        }
    }
}

/// A record, what is called with it, and the length of the command area.
pub struct Call {
    record: Record,
    pub asked: Asked,
    command_area: usize,
}

impl Call {
    /// With the record of the box at this place.
    fn new(group: &Group, place: usize, asked: Asked) -> Call {
        Call {
            record: group.members[place].record,
            asked,
            command_area: COMMAND_AREA,
        }
    }
}

/// What a call leaves.
#[derive(Debug, PartialEq, Eq)]
pub struct Left {
    pub answer: u32,
    pub lengths: [usize; 2],
    pub record: Record,
    pub area: Record,
    pub frame: [u8; FRAME_AREA],
    pub command: [u8; COMMAND_AREA],
}

/// A group of boxes 1 to N, whose calls are measured.
pub struct Measured {
    given: Given,
    boxes: u8,
}

impl Measured {
    pub fn new(boxes: u8, n: usize, m: usize, p: usize) -> Measured {
        let given = Given::new(Law::new(n, m, p));
        Measured { given, boxes }
    }

    /// The call of a kind: of the boxes that it needs in the period after a decided one.
    pub fn call(&self, kind: &Kind) -> Call {
        let mut group = Boxes::new(self.boxes, |own| {
            Recorded::new(&self.given, self.boxes, own)
        });
        normal(&mut group, 1);
        (kind.call)(&mut group)
    }

    /// Calls once, with the record as it was prepared.
    pub fn called<C: Calls>(&self, call: &Call) -> Left {
        let mut left = Left {
            answer: 0,
            lengths: [usize::MAX; 2],
            record: call.record,
            area: [0; RECORD],
            frame: [0; FRAME_AREA],
            command: [0; COMMAND_AREA],
        };
        let record = &mut left.record;
        let areas = Areas {
            frame: &mut left.frame,
            command: &mut left.command[..call.command_area],
        };
        let lengths = &mut left.lengths;
        left.answer = match &call.asked {
            Asked::Make => C::make(&self.given, self.boxes, 1, &mut left.area),
            Asked::Tick => C::tick(record, &self.given.readings(), areas, lengths),
            Asked::GiveUp => C::give_up(record, areas, lengths),
            Asked::Arrive(bytes) => C::arrive(record, bytes, areas, lengths),
            Asked::Record => C::record(record, &mut left.area),
            Asked::Return(missed) => C::return_from(record, *missed, &mut left.area),
        };
        left
    }
}

fn coordinator_tick(group: &mut Group) -> Call {
    Call::new(group, 0, Asked::Tick)
}

fn other_tick(group: &mut Group) -> Call {
    Call::new(group, 1, Asked::Tick)
}

fn propose(group: &mut Group) -> Call {
    let proposal = group.tick(0);
    group.tick(1);
    Call::new(group, 1, Asked::Arrive(proposal))
}

fn deciding_ack(group: &mut Group) -> Call {
    let ack = up_to_last_ack(group);
    Call::new(group, 0, Asked::Arrive(ack))
}

fn decide(group: &mut Group) -> Call {
    let ack = up_to_last_ack(group);
    let decision = group.arrive(0, &ack);
    Call::new(group, 1, Asked::Arrive(decision))
}

/// A Propose of the period before.
fn ignored(group: &mut Group) -> Call {
    let proposal = group.tick(0);
    group.tick(1);
    group.tick(1);
    Call::new(group, 1, Asked::Arrive(proposal))
}

/// In a group of three this is a majority: box 2 proposes.
fn estimate(group: &mut Group) -> Call {
    group.tick(1);
    group.tick(2);
    let estimate = group.give_up(2);
    Call::new(group, 1, Asked::Arrive(estimate))
}

/// Box 3 sends an Estimate.
fn give_up(group: &mut Group) -> Call {
    group.tick(2);
    Call::new(group, 2, Asked::GiveUp)
}

fn record(group: &mut Group) -> Call {
    Call::new(group, 0, Asked::Record)
}

/// A coordinator, which makes a Propose in every period that it missed: the dearest return.
fn returning(group: &mut Group, missed: u32) -> Call {
    Call::new(group, 0, Asked::Return(missed))
}

/// Not the letter.
fn first_byte(group: &mut Group) -> Call {
    let mut call = coordinator_tick(group);
    call.record[0] += 1;
    call
}

/// There is no best estimate, and yet the last byte of its last reading is not 0: both look at that last.
fn last_byte(group: &mut Group) -> Call {
    let mut call = coordinator_tick(group);
    call.record[RECORD - 1] = 1;
    call
}

/// Both look at the command area last.
fn short_command(group: &mut Group) -> Call {
    let mut call = coordinator_tick(group);
    call.command_area -= 1;
    call
}

/// A period up to the Ack with which box 1 has heard a majority; that Ack is given.
fn up_to_last_ack(group: &mut Group) -> Vec<u8> {
    let proposal = group.tick(0);
    for other in 1..group.majority() {
        group.tick(other);
    }
    let mut acks: Vec<Vec<u8>> = (1..group.majority())
        .map(|other| group.arrive(other, &proposal))
        .collect();
    let last = acks.pop().unwrap_or_default();
    for ack in acks {
        group.arrive(0, &ack);
    }
    last
}
