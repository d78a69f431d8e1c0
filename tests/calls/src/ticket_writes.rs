//! What calls on replicas with tickets write, and where, by docs/RECORD.md.
//! What an event gives is taken from the call itself.

use winder::{RECORD, TICKETED};

use crate::record_layout::PERIOD;
use crate::ticket_calls::{Call, Left, Name};
use crate::ticket_layout::*;

/// An error if anything else was written, or not all of it.
pub fn check_written(call: &Call, left: &Left) -> Result<(), String> {
    let written = written(call, left);
    match *left == written {
        true => Ok(()),
        false => Err(format!(
            "{call:?} writes\n  {left:?}\n  and not {written:?}"
        )),
    }
}

fn written(call: &Call, left: &Left) -> Left {
    let mut written = Left::before(call);
    written.answer = left.answer;
    match call.name {
        Name::Tickets if left.answer == 0 => written.puts_tickets(call),
        Name::Ask(_) => {
            written.ticket = [0];
            written.lengths = [0, 0];
            if left.answer != 15 {
                written.asks(call, left);
            }
        }
        Name::Commit { .. } if left.answer == 0 => written.commits(),
        Name::Step(_) => {
            written.lengths = [0, 0];
            if left.answer == 0 {
                written.steps(left);
            }
        }
        Name::Tickets | Name::Commit { .. } => {}
    }
    written
}

impl Left {
    /// The record, and no ticket behind it.
    fn puts_tickets(&mut self, call: &Call) {
        self.area[..RECORD].copy_from_slice(&call.replica);
        self.area[RECORD..TICKETED].fill(0);
        self.area[TICKET_LETTER] = b'T';
        self.area[TICKET_VERSION] = 1;
    }

    /// A ticket, unless the largest was given before; and where the answer is
    /// ok what the event gives. The record in the replica stays.
    fn asks(&mut self, call: &Call, left: &Left) {
        self.replica[OPEN] = 0;
        if let Some(next) = latest(&call.replica).checked_add(1) {
            self.ticket = [next];
            put_latest(&mut self.replica, next);
        }
        if left.answer != 0 {
            return;
        }
        self.replica[OPEN] = 1;
        self.replica[LEFT].copy_from_slice(&left.area[STEPPED]);
        self.area[..PERIOD].copy_from_slice(&call.replica[..PERIOD]);
        self.area[STEPPED].copy_from_slice(&left.area[STEPPED]);
        self.sends(left);
    }

    /// What the step leaves; nothing is written beside it.
    fn commits(&mut self) {
        self.replica[OPEN] = 0;
        self.replica.copy_within(LEFT, PERIOD);
    }

    fn steps(&mut self, left: &Left) {
        self.replica[OPEN] = 0;
        self.replica[STEPPED].copy_from_slice(&left.replica[STEPPED]);
        self.sends(left);
    }

    /// A frame and a command, each of its length.
    fn sends(&mut self, left: &Left) {
        self.lengths = left.lengths;
        let [frame, command] = left.lengths;
        self.frame[..frame].copy_from_slice(&left.frame[..frame]);
        self.command[..command].copy_from_slice(&left.command[..command]);
    }
}
