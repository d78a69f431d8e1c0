//! Calls on replicas with tickets, each by both implementations.

use std::fmt;

use crate::areas::PATTERN;
use crate::digest::Digest;
use crate::handed_readings::Handed;
use crate::record_calls::Lent;
use crate::report::alike;
use crate::ticket_layout::Replica;
use crate::ticket_writes::check_written;
use crate::{counterpart, first};

/// What a ticket's place holds before a call.
const PATTERN_64: u64 = u64::from_ne_bytes([PATTERN; 8]);

/// Longer than any area lent, so that a byte written after one shows.
const STEP_BUFFER: usize = 96;
const REPLICA_BUFFER: usize = 832;

/// What a step is made for, or asked for.
#[derive(Clone, Debug)]
pub enum Event {
    Tick { readings: [Handed; 4] },
    GiveUp,
    Arrive { bytes: Vec<u8> },
}

/// Which of the eight calls.
#[derive(Clone, Debug)]
pub enum Name {
    /// Puts tickets beside the replica of a record.
    Tickets,
    Ask(Event),
    Commit {
        ticket: u64,
        sort: Ticket,
    },
    /// Without an ask.
    Step(Event),
}

/// What a ticket is that is committed: the latest, which may be open, or one
/// that is not to be taken.
#[derive(Clone, Copy, Debug, PartialEq, Eq)]
pub enum Ticket {
    Latest,
    Zero,
    BelowLatest,
    AboveLatest,
    Committed,
    /// A newer ask or a step made it so.
    Void,
    /// Its ask was ignored or refused.
    TurnedDown,
    /// Of before a return.
    BeforeReturn,
    AtRandom,
}

#[derive(Clone, Debug)]
pub struct Call {
    /// A replica with tickets; a record where tickets are put beside it.
    pub replica: Replica,
    pub name: Name,
    pub lent: Lent,
}

/// All that a call may write to.
pub struct Areas<'a> {
    pub replica: &'a mut [u8],
    pub area: &'a mut [u8],
    pub frame: &'a mut [u8],
    pub command: &'a mut [u8],
    pub lengths: &'a mut [usize; 2],
    pub ticket: &'a mut [u64; 1],
}

/// What a call leaves behind.
#[derive(PartialEq, Eq)]
pub struct Left {
    pub answer: u32,
    pub lengths: [usize; 2],
    pub ticket: [u64; 1],
    pub replica: [u8; REPLICA_BUFFER],
    pub area: [u8; REPLICA_BUFFER],
    pub frame: [u8; STEP_BUFFER],
    pub command: [u8; STEP_BUFFER],
}

/// What both leave. The error says what differs, or what was written that is
/// not to be.
pub fn called_by_both(call: &Call) -> Result<Left, String> {
    let left = alike(
        Left::by(call, first::on_tickets),
        Left::by(call, counterpart::on_tickets),
        call,
    )?;
    check_written(call, &left)?;
    Ok(left)
}

impl Left {
    fn by(call: &Call, on_tickets: fn(&Name, Areas) -> u32) -> Left {
        let mut left = Left::before(call);
        let areas = Areas {
            replica: &mut left.replica[..call.replica.len()],
            area: &mut left.area[..call.lent.area],
            frame: &mut left.frame[..call.lent.frame],
            command: &mut left.command[..call.lent.command],
            lengths: &mut left.lengths,
            ticket: &mut left.ticket,
        };
        left.answer = on_tickets(&call.name, areas);
        left
    }

    /// Before a call; no step gives these lengths.
    pub fn before(call: &Call) -> Left {
        let mut replica = [PATTERN; REPLICA_BUFFER];
        replica[..call.replica.len()].copy_from_slice(&call.replica);
        Left {
            answer: 0,
            lengths: [usize::MAX; 2],
            ticket: [PATTERN_64],
            replica,
            area: [PATTERN; REPLICA_BUFFER],
            frame: [PATTERN; STEP_BUFFER],
            command: [PATTERN; STEP_BUFFER],
        }
    }

    /// Every byte, also those that the call left alone.
    pub fn add_to(&self, digest: &mut Digest) {
        digest.add(&self.answer.to_le_bytes());
        self.lengths
            .iter()
            .for_each(|&length| digest.add_number(length));
        digest.add(&self.ticket[0].to_le_bytes());
        let buffers: [&[u8]; 4] = [&self.replica, &self.area, &self.frame, &self.command];
        buffers.iter().for_each(|buffer| digest.add(buffer));
    }

    /// The frame that a step sends.
    pub fn sent(&self) -> &[u8] {
        &self.frame[..self.lengths[0]]
    }
}

/// Of each buffer the bytes to the last that is not the pattern.
impl fmt::Debug for Left {
    fn fmt(&self, out: &mut fmt::Formatter<'_>) -> fmt::Result {
        let Left {
            answer,
            lengths,
            ticket,
            ..
        } = self;
        write!(
            out,
            "answer {answer}, lengths {lengths:?}, ticket {ticket:?}"
        )?;
        let buffers: [(&str, &[u8]); 4] = [
            ("replica", &self.replica),
            ("area", &self.area),
            ("frame", &self.frame),
            ("command", &self.command),
        ];
        for (name, buffer) in buffers {
            write!(out, "\n    {name} ")?;
            let end = buffer.iter().rposition(|&byte| byte != PATTERN);
            for byte in &buffer[..end.map_or(0, |last| last + 1)] {
                write!(out, "{byte:02x}")?;
            }
        }
        Ok(())
    }
}
