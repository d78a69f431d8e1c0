//! Calls on records, each by both implementations.

use std::fmt;

use second::law::Settings;
use second::replica::Quorums;
use winder::RECORD;

use crate::areas::{Sizes, PATTERN};
use crate::digest::Digest;
use crate::handed_readings::Handed;
use crate::record_layout::Record;
use crate::report::alike;
use crate::{counterpart, first};

/// The longest areas lent.
pub const LONGEST: Lent = Lent {
    frame: 80,
    command: 30,
    area: 700,
};

/// Areas from these lengths on are not refused.
pub const ENOUGH: Lent = Lent {
    frame: 69,
    command: 24,
    area: RECORD,
};

/// Longer than any area lent, so that a byte written after one shows.
const STEP_BUFFER: usize = 96;
const RECORD_BUFFER: usize = 800;

/// What is called, with all that is handed in beside the record.
#[derive(Clone, Debug)]
pub enum Asked {
    Make(Box<Making>),
    Tick { readings: [Handed; 4] },
    GiveUp,
    Arrive { bytes: Vec<u8> },
    Record,
    Return { missed: u32 },
}

#[derive(Clone, Debug)]
pub struct Making {
    pub boxes: u8,
    pub own: u8,
    pub quorums: Quorums,
    pub sizes: Sizes,
    /// Tables, limits and start; its sizes are not looked at.
    pub settings: Settings,
}

/// The lengths of the areas lent: to a step one for the frame and one for the
/// command, to the other calls one for a record.
#[derive(Clone, Copy, Debug)]
pub struct Lent {
    pub frame: usize,
    pub command: usize,
    pub area: usize,
}

#[derive(Debug)]
pub struct Call {
    /// Nothing where a replica is made.
    pub record: Record,
    pub asked: Asked,
    pub lent: Lent,
}

/// All that a call may write to.
pub struct Areas<'a> {
    pub record: &'a mut [u8],
    pub area: &'a mut [u8],
    pub frame: &'a mut [u8],
    pub command: &'a mut [u8],
    pub lengths: &'a mut [usize; 2],
}

/// What a call leaves behind.
#[derive(PartialEq, Eq)]
pub struct Left {
    pub answer: u32,
    pub lengths: [usize; 2],
    pub record: [u8; RECORD_BUFFER],
    pub area: [u8; RECORD_BUFFER],
    pub frame: [u8; STEP_BUFFER],
    pub command: [u8; STEP_BUFFER],
}

/// What both leave. The error says what differs, or what was written where
/// nothing was done.
pub fn called_by_both(call: &Call) -> Result<Left, String> {
    let left = alike(
        Left::by(call, first::on_record),
        Left::by(call, counterpart::on_record),
        call,
    )?;
    match left.answer == 0 || left.is_untouched(call) {
        true => Ok(left),
        false => Err(format!(
            "{call:?}: nothing was done, and yet there is {left:?}"
        )),
    }
}

impl Asked {
    /// A tick, a view given up or bytes that arrive.
    pub fn is_step(&self) -> bool {
        match self {
            Asked::Tick { .. } | Asked::GiveUp | Asked::Arrive { .. } => true,
            Asked::Make(_) | Asked::Record | Asked::Return { .. } => false,
        }
    }
}

impl Left {
    fn by(call: &Call, on_record: fn(&Asked, Areas) -> u32) -> Left {
        let mut left = Left::before(call);
        let areas = Areas {
            record: &mut left.record[..call.record.len()],
            area: &mut left.area[..call.lent.area],
            frame: &mut left.frame[..call.lent.frame],
            command: &mut left.command[..call.lent.command],
            lengths: &mut left.lengths,
        };
        left.answer = on_record(&call.asked, areas);
        left
    }

    /// Before a call; no step gives these lengths.
    fn before(call: &Call) -> Left {
        let mut record = [PATTERN; RECORD_BUFFER];
        record[..call.record.len()].copy_from_slice(&call.record);
        Left {
            answer: 0,
            lengths: [usize::MAX; 2],
            record,
            area: [PATTERN; RECORD_BUFFER],
            frame: [PATTERN; STEP_BUFFER],
            command: [PATTERN; STEP_BUFFER],
        }
    }

    /// Whether everything is what it was, but for a step's lengths: these are
    /// 0.
    fn is_untouched(&self, call: &Call) -> bool {
        let mut before = Left::before(call);
        before.answer = self.answer;
        if call.asked.is_step() {
            before.lengths = [0, 0];
        }
        *self == before
    }

    /// The record after a call that was done: a step's stands where the old
    /// one was.
    pub fn given(&self, asked: &Asked) -> &[u8] {
        match asked.is_step() {
            true => &self.record[..RECORD],
            false => &self.area[..RECORD],
        }
    }

    /// Every byte, also those that the call left alone.
    pub fn add_to(&self, digest: &mut Digest) {
        digest.add(&self.answer.to_le_bytes());
        self.lengths
            .iter()
            .for_each(|&length| digest.add_number(length));
        let buffers: [&[u8]; 4] = [&self.record, &self.area, &self.frame, &self.command];
        buffers.iter().for_each(|buffer| digest.add(buffer));
    }

    /// The frame that a step sent.
    pub fn sent(&self) -> &[u8] {
        &self.frame[..self.lengths[0]]
    }
}

/// Of each buffer the bytes from the first that is not the pattern to the last.
impl fmt::Debug for Left {
    fn fmt(&self, out: &mut fmt::Formatter<'_>) -> fmt::Result {
        write!(out, "answer {}, lengths {:?}", self.answer, self.lengths)?;
        let buffers: [(&str, &[u8]); 4] = [
            ("record", &self.record),
            ("area", &self.area),
            ("frame", &self.frame),
            ("command", &self.command),
        ];
        for (name, buffer) in buffers {
            write!(out, "\n    {name} ")?;
            let end = buffer.iter().rposition(|&byte| byte != PATTERN);
            for byte in &buffer[..end.map_or(0, |last| last + 1)] {
                write!(out, "{byte:02x}")?;
            }
        }
        Ok(())
    }
}
