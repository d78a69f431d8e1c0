//! The comparison of law calls: update and command.

use std::fmt;

use crate::areas::{PATTERN, PATTERN_32};
use crate::law_call::{self, LawCall};
use crate::law_marks::Marks;
use crate::prng::Prng;
use crate::reach::Reach;
use crate::report::{alike, write_answers, Answers};
use crate::{counterpart, first};

#[derive(Debug, Default)]
pub struct Counts {
    updates: Answers,
    commands: Answers,
    reach: Reach,
    marks: Marks,
}

/// The law calls of one number. The error says what differs.
pub fn compare(seed: u64, number: usize, counts: &mut Counts) -> Result<(), String> {
    let call = law_call::make(&mut Prng::of_script(seed, number));
    let (updated, update_limited) = update_by_both(&call)?;
    let (commanded, command_limited) = command_by_both(&call)?;
    counts.updates[updated as usize] += 1;
    counts.commands[commanded as usize] += 1;
    if updated == 0 {
        counts.reach.count_update(&call);
        counts.marks.count_update(&call, update_limited);
    }
    if commanded == 0 {
        counts.reach.count_command(&call);
        counts.marks.count_command(&call, command_limited);
    }
    Ok(())
}

/// The answer and the mark; refused, both must have left the mark's byte, as
/// the state, as it was.
fn update_by_both(call: &LawCall) -> Result<(u32, u8), String> {
    let LawCall {
        sizes,
        settings,
        present,
        values,
        state,
    } = call;
    let given = |update: fn(_, &_, &_, &_, &mut _, &mut _) -> u32| {
        let (mut state, mut limited) = (*state, PATTERN);
        let answer = update(*sizes, settings, present, values, &mut state, &mut limited);
        (answer, limited, state)
    };
    let (first, second) = (given(first::update), given(counterpart::update));
    let (answer, limited, _) = alike(first, second, &("update", call))?;
    Ok((answer, limited))
}

fn command_by_both(call: &LawCall) -> Result<(u32, u8), String> {
    let LawCall {
        sizes,
        settings,
        state,
        ..
    } = call;
    let given = |command: fn(_, &_, &_, &mut _, &mut _) -> u32| {
        let (mut commands, mut limited) = ([PATTERN_32 as i32; 4], PATTERN);
        let answer = command(*sizes, settings, state, &mut commands, &mut limited);
        (answer, limited, commands)
    };
    let (first, second) = (given(first::command), given(counterpart::command));
    let (answer, limited, _) = alike(first, second, &("command", call))?;
    Ok((answer, limited))
}

impl fmt::Display for Counts {
    fn fmt(&self, out: &mut fmt::Formatter<'_>) -> fmt::Result {
        write_answers(out, "updates", &self.updates)?;
        write_answers(out, "commands", &self.commands)?;
        write!(out, "{}{}", self.reach, self.marks)
    }
}

#[cfg(test)]
mod tests {
    use super::*;

    #[test]
    fn every_answer_is_met_and_every_end_reached() {
        let mut counts = Counts::default();
        for number in 1..=2_000 {
            compare(1, number, &mut counts).unwrap();
        }
        for answers in [counts.updates, counts.commands] {
            let met = answers.map(|count| count > 0);
            assert_eq!(met[..5], [true, false, true, true, true]);
        }
        assert!(counts.reach.is_everywhere(), "{counts}");
        assert!(counts.marks.are_everywhere(10), "{counts}");
    }
}
