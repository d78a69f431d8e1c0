//! What two of the planted faults need to know of the earlier steps of a box.
//! A replica has no place for it, so a script holds it beside one; without
//! these faults nothing is remembered and no command is touched.

use crate::fault::{planted, Fault};
use crate::frame::LIMITED_AT;
use crate::law::{self, Updated};
use crate::replica::Replica;

/// Nothing of a box that was made or has returned.
#[derive(Clone, Copy, Debug, Default, PartialEq, Eq)]
pub struct Remembered {
    /// Whether the last command issued was marked.
    command: bool,
    /// Whether the update of the last tick was limited.
    update: bool,
}

impl Remembered {
    /// What is remembered after a step from one replica to another, whose
    /// command, where there is one, gets the mark of the fault.
    pub fn after(mut self, before: &Replica, after: &Replica, command: &mut [u8]) -> Remembered {
        let mark = command.get_mut(LIMITED_AT);
        if planted(Fault::LastMarkKept) {
            self.keep_mark(mark);
        } else if planted(Fault::EstimatesUpdateMarked) {
            self.mark_update(before, after, mark);
        }
        self
    }

    fn keep_mark(&mut self, mark: Option<&mut u8>) {
        if let Some(mark) = mark {
            *mark |= u8::from(self.command);
            self.command = *mark == 1;
        }
    }

    /// The mark of the command's own limits stays.
    fn mark_update(&mut self, before: &Replica, after: &Replica, mark: Option<&mut u8>) {
        if after.period != before.period {
            self.update = before.period != 0 && updated(before).limited;
        }
        if let Some(mark) = mark {
            *mark = u8::from(self.update || is_command_limited(after));
        }
    }
}

/// Update of the estimate's state and readings. A box of a script has settings
/// that the law takes.
fn updated(replica: &Replica) -> Updated {
    let estimate = &replica.estimate;
    law::update(&replica.settings, &estimate.state, &estimate.readings).unwrap_or_default()
}

/// Of the command that a decision on the estimate issues.
fn is_command_limited(replica: &Replica) -> bool {
    let command = law::command(&replica.settings, &updated(replica).state);
    command.is_ok_and(|command| command.limited)
}
