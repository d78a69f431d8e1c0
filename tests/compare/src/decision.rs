//! A decision of a box: its command's mark, and what it comes from.

use second::frame::command_limited;
use second::replica::Replica;

use crate::clamps::Clamps;

#[derive(Clone, Copy, Debug, PartialEq, Eq)]
pub struct Decision {
    pub period: u32,
    /// Whether byte 2 of its command is 1.
    pub is_marked: bool,
    pub clamps: Clamps,
}

impl Decision {
    /// Of the replica that a step gave back and the command that it wrote, if
    /// it wrote one: "Its decided state is Update of the estimate's state and
    /// readings in the replica that this step gives back."
    pub fn of(replica: &Replica, command: &[u8]) -> Option<Decision> {
        let is_marked = command_limited(command)?;
        let estimate = &replica.estimate;
        Some(Decision {
            period: replica.period,
            is_marked,
            clamps: Clamps::of(&replica.settings, &estimate.state, &estimate.readings),
        })
    }
}
