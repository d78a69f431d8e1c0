//! One frame for each kind of reading, and its reading by both implementations.

use second::frame::{self, Frame, ACK, FRAME_AREA, PROPOSE};
use second::law::Readings;

use crate::areas::{of_frame, pattern, Fields};
use crate::counted;
use crate::group::{Law, VALUES};

/// How many calls a figure is the mean of.
pub const CALLS: usize = 1_000;

/// A kind of reading: its name, the answer that it has, and the frame.
pub struct Kind {
    pub name: &'static str,
    pub answer: u32,
    frame: fn(Sizes) -> Vec<u8>,
}

const fn kind(name: &'static str, answer: u32, frame: fn(Sizes) -> Vec<u8>) -> Kind {
    Kind {
        name,
        answer,
        frame,
    }
}

pub const KINDS: [Kind; 7] = [
    kind("whole", 0, whole),
    kind("whole, the last reading absent", 0, last_absent),
    kind("whole, all readings absent", 0, |sizes| sizes.propose(0)),
    kind("an Ack", 0, |sizes| sizes.bytes(ACK, 0)),
    kind("damaged at the first byte", 8, first_byte),
    kind("damaged at the last byte", 8, last_byte),
    kind("damaged at the byte of marks", 8, byte_of_marks),
];

impl Kind {
    /// The bytes that every call of this kind is handed.
    pub fn bytes(&self, sizes: Sizes) -> Vec<u8> {
        (self.frame)(sizes)
    }
}

/// Those of the frames; they are in their ranges.
#[derive(Clone, Copy)]
pub struct Sizes {
    pub n: u8,
    pub m: u8,
}

impl Sizes {
    fn propose(self, present: usize) -> Vec<u8> {
        self.bytes(PROPOSE, present)
    }

    /// A frame of this kind with so many readings, the first ones, present. The second implementation writes it for both.
    fn bytes(self, kind: u8, present: usize) -> Vec<u8> {
        let mut readings = Readings {
            marks: (1 << present) - 1,
            values: VALUES,
        };
        readings.values[present..].fill(0);
        let frame = Frame {
            kind,
            sender: 1,
            period: 2,
            view: 0,
            base_view: 0,
            base_period: 1,
            state: Law::new(self.n.into(), self.m.into(), 1).start,
            readings,
        };
        let mut area = [0; FRAME_AREA];
        let length = frame::write(self.n, self.m, &frame, &mut area).expect("a frame");
        area[..length].to_vec()
    }
}

fn whole(sizes: Sizes) -> Vec<u8> {
    sizes.propose(sizes.m.into())
}

fn last_absent(sizes: Sizes) -> Vec<u8> {
    sizes.propose(usize::from(sizes.m) - 1)
}

/// No frame has the kind 0.
fn first_byte(sizes: Sizes) -> Vec<u8> {
    let mut bytes = whole(sizes);
    bytes[0] = 0;
    bytes
}

/// A value under an absent mark.
fn last_byte(sizes: Sizes) -> Vec<u8> {
    let mut bytes = last_absent(sizes);
    if let Some(last) = bytes.last_mut() {
        *last = 1;
    }
    bytes
}

/// A mark at or above m. The marks stand ahead of the m values, at the end.
fn byte_of_marks(sizes: Sizes) -> Vec<u8> {
    let mut bytes = whole(sizes);
    let marks = bytes.len() - 4 * usize::from(sizes.m) - 1;
    bytes[marks] |= 1 << 7;
    bytes
}

/// What a call leaves. The fields hold a pattern before it.
#[derive(Debug, PartialEq, Eq)]
pub struct Left {
    pub answer: u32,
    pub fields: Fields,
}

/// Reads by the archive's call.
pub fn read_by_first(sizes: Sizes, bytes: &[u8]) -> Left {
    let mut fields = pattern();
    let answer = winder::read_frame(sizes.n.into(), sizes.m.into(), bytes, &mut fields);
    Left { answer, fields }
}

/// Reads by the second implementation's.
pub fn read_by_second(sizes: Sizes, bytes: &[u8]) -> Left {
    match counted::read_frame(sizes.n, sizes.m, bytes) {
        Ok(frame) => Left {
            answer: 0,
            fields: of_frame(&frame),
        },
        Err(refusal) => Left {
            answer: refusal.number().into(),
            fields: pattern(),
        },
    }
}
