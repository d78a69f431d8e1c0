//! The comparison of steps: replicas handed in with anything in them.

use second::law::Settings;
use second::replica::{Answer, Areas, Quorums, Replica};
use steps::{Held, Lent, IGNORED};

use crate::areas::PATTERN;
use crate::events::{self, Event};
use crate::handed_in::{self, HandedIn};
use crate::handed_readings::{numbers_of, row};
use crate::prng::Prng;
use crate::quorums;
use crate::report::alike;
use crate::step_areas::{held_of, replica_of, settings_of};
pub use crate::step_counts::Counts;

/// The longest areas lent.
const LONGEST: [usize; 2] = [80, 30];

/// Areas from these lengths on are not refused.
pub const ENOUGH: [usize; 2] = [69, 24];

/// Longer than any area lent, so that a byte written after one shows.
const BUFFER: usize = 96;

#[derive(Debug)]
pub struct Call {
    pub handed_in: HandedIn,
    pub event: Event,
    /// Of the frame area and the command area.
    pub lent: [usize; 2],
}

/// What a step leaves.
#[derive(Debug, PartialEq, Eq)]
pub struct Left {
    pub answer: u32,
    pub held: Held,
    /// Written to the frame area and to the command area.
    pub lengths: [usize; 2],
    pub frame: [u8; BUFFER],
    pub command: [u8; BUFFER],
}

/// The step of one number. The error says what differs.
pub fn compare(seed: u64, number: usize, counts: &mut Counts) -> Result<(), String> {
    let call = make(&mut Prng::of_script(seed, number));
    let left = alike(first(&call), second(&call)?, &call)?;
    if left.answer != 0 && !left.is_untouched(&call) {
        return Err(format!(
            "{call:?}: nothing was done, and yet there is {left:?}"
        ));
    }
    quorums::check_answer(call.handed_in.boxes, call.handed_in.quorums, left.answer)?;
    counts.count(&call, &left);
    Ok(())
}

fn make(prng: &mut Prng) -> Call {
    let handed_in = handed_in::make(prng);
    let event = events::make(prng, &handed_in);
    let lent = [0, 1].map(|area| lent_length(prng, ENOUGH[area], LONGEST[area]));
    Call {
        handed_in,
        event,
        lent,
    }
}

/// Mostly long enough; at times just not.
fn lent_length(prng: &mut Prng, enough: usize, longest: usize) -> usize {
    match prng.below(40) {
        0 => enough - 1,
        1 => prng.below(longest + 1),
        2..=20 => enough,
        _ => enough + prng.below(longest + 1 - enough),
    }
}

impl Left {
    /// Before a step; no step gives these lengths.
    fn before(call: &Call) -> Left {
        Left {
            answer: 0,
            held: call.handed_in.held,
            lengths: [usize::MAX; 2],
            frame: [PATTERN; BUFFER],
            command: [PATTERN; BUFFER],
        }
    }

    /// Whether the replica and both areas are what they were.
    fn is_untouched(&self, call: &Call) -> bool {
        let handed_in = held_of(&replica_of(&call.handed_in));
        let areas_kept = self.frame == [PATTERN; BUFFER] && self.command == [PATTERN; BUFFER];
        self.held == handed_in && self.lengths == [0, 0] && areas_kept
    }
}

fn first(call: &Call) -> Left {
    let mut left = Left::before(call);
    let settings = settings_of(&call.handed_in);
    let [frame_length, command_length] = call.lent;
    let lent = Lent {
        frame: &mut left.frame[..frame_length],
        command: &mut left.command[..command_length],
        lengths: &mut left.lengths,
    };
    let held = &mut left.held;
    left.answer = match &call.event {
        Event::Make => steps::make(&settings, held),
        Event::Tick { readings } => {
            let (kinds, bits) = numbers_of(readings);
            steps::tick(&settings, held, &kinds, &bits, lent)
        }
        Event::GiveUp => steps::give_up(&settings, held, lent),
        Event::Arrive { bytes, .. } => steps::arrive(&settings, held, bytes, lent),
    };
    if let Event::Make = call.event {
        left.lengths = [0, 0];
        // "Making settings refuses without a replica": the blank one that is
        // given then has no counterpart.
        if left.answer != 0 {
            left.held = held_of(&replica_of(&call.handed_in));
        }
    }
    left
}

/// An error if the second implementation's settings have changed; the first's
/// are lent to be read alone.
fn second(call: &Call) -> Result<Left, String> {
    let mut left = Left::before(call);
    let handed_in = replica_of(&call.handed_in);
    let [frame_length, command_length] = call.lent;
    let areas = Areas {
        frame: &mut left.frame[..frame_length],
        command: &mut left.command[..command_length],
    };
    let (replica, step) = match &call.event {
        Event::Make => made(handed_in),
        Event::Tick { readings } => handed_in.tick(&row(readings), areas),
        Event::GiveUp => handed_in.give_up(areas),
        Event::Arrive { bytes, .. } => handed_in.arrive(bytes, areas),
    };
    if kept(&replica) != kept(&handed_in) {
        return Err(format!("{call:?}: other settings: {replica:?}"));
    }
    left.answer = match step.answer {
        Answer::Ok => 0,
        Answer::Ignored => IGNORED,
        Answer::Refused(refusal) => refusal.number().into(),
    };
    left.held = held_of(&replica);
    left.lengths = [step.frame_length, step.command_length];
    Ok(left)
}

/// What no step changes.
fn kept(replica: &Replica) -> (u8, u8, Quorums, Settings) {
    let Replica {
        boxes,
        own,
        quorums,
        settings,
        ..
    } = *replica;
    (boxes, own, quorums, settings)
}

/// Making, as a step that gives the fresh replica; the one handed in where
/// the settings are refused.
fn made(handed_in: Replica) -> (Replica, second::replica::Step) {
    let (boxes, own, quorums, settings) = kept(&handed_in);
    let fresh = Replica::new(boxes, own, quorums, settings);
    let (replica, answer) = match fresh {
        Ok(replica) => (replica, Answer::Ok),
        Err(refusal) => (handed_in, Answer::Refused(refusal)),
    };
    let step = second::replica::Step {
        answer,
        frame_length: 0,
        command_length: 0,
    };
    (replica, step)
}

#[cfg(test)]
mod tests {
    use super::*;

    #[test]
    fn every_answer_is_met_and_every_rule_reached() {
        let mut counts = Counts::default();
        for number in 1..=20_000 {
            compare(1, number, &mut counts).unwrap();
        }
        assert!(counts.are_everywhere(), "{counts}");
    }
}
