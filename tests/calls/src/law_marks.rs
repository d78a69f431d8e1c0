//! What the marks of taken law calls tell of. This only counts: nothing is
//! compared with it.

use std::fmt;

use crate::law_call::LawCall;
use crate::law_sums::{clamp, command_sum, error, is_present, nearest, state_sum};
use crate::report::write_row;

/// An update: its mark, and its values before clamping.
struct Update {
    marked: bool,
    /// e(j) of present readings.
    errors: Vec<i64>,
    /// e(j) of absent readings, if they were present.
    absent: Vec<i64>,
    /// The same with 0 for the value in their places.
    absent_zero: Vec<i64>,
    /// x'(i).
    states: Vec<i64>,
}

impl Update {
    fn of(call: &LawCall, limited: u8) -> Update {
        let with_zero = LawCall {
            values: [0; 4],
            ..*call
        };
        let errors = |call: &LawCall, present: bool| {
            let readings = (0..call.sizes.m).filter(|&j| is_present(call, j) == present);
            readings.map(|j| error(call, j)).collect()
        };
        let states = (0..call.sizes.n).map(|i| nearest(state_sum(call, i)));
        Update {
            marked: limited != 0,
            errors: errors(call, true),
            absent: errors(call, false),
            absent_zero: errors(&with_zero, false),
            states: states.collect(),
        }
    }
}

const LOWER_END: i64 = i32::MIN as i64;
const UPPER_END: i64 = i32::MAX as i64;

type UpdateTest = fn(&Update) -> bool;

/// Values at an end are there without being changed.
const UPDATES: [(&str, UpdateTest); 11] = [
    ("updates not marked", |update| !update.marked),
    ("  an e(j) at its lower end", |update| {
        !update.marked && update.errors.contains(&LOWER_END)
    }),
    ("  an e(j) at its upper end", |update| {
        !update.marked && update.errors.contains(&UPPER_END)
    }),
    ("  an x'(i) at its lower end", |update| {
        !update.marked && update.states.contains(&LOWER_END)
    }),
    ("  an x'(i) at its upper end", |update| {
        !update.marked && update.states.contains(&UPPER_END)
    }),
    ("  an absent e(j) would be clamped", |update| {
        !update.marked && is_changed(&update.absent)
    }),
    ("  the same with 0 for its value", |update| {
        !update.marked && is_changed(&update.absent_zero)
    }),
    ("updates marked", |update| update.marked),
    ("  by an e(j) alone", |update| {
        is_changed(&update.errors) && !is_changed(&update.states)
    }),
    ("  by an x'(i) alone", |update| {
        !is_changed(&update.errors) && is_changed(&update.states)
    }),
    ("  by both", |update| {
        is_changed(&update.errors) && is_changed(&update.states)
    }),
];

/// Whether clamping changes one of these.
fn is_changed(values: &[i64]) -> bool {
    values.iter().any(|&value| clamp(value) != value)
}

/// A command: its mark, and its values.
struct Command {
    marked: bool,
    values: Vec<Value>,
}

/// A value before it is limited, and its own limits.
struct Value {
    wanted: i64,
    lower: i64,
    upper: i64,
}

type CommandTest = fn(&Command) -> bool;

/// Values at a limit are there without being changed.
const COMMANDS: [(&str, CommandTest); 7] = [
    ("commands not marked", |command| !command.marked),
    ("  a value at its lower limit", |command| {
        !command.marked && command.any(|value| value.wanted == value.lower)
    }),
    ("  a value at its upper limit", |command| {
        !command.marked && command.any(|value| value.wanted == value.upper)
    }),
    ("commands marked", |command| command.marked),
    ("  by lower limits alone", |command| {
        command.is_below() && !command.is_above()
    }),
    ("  by upper limits alone", |command| {
        !command.is_below() && command.is_above()
    }),
    ("  by both", |command| {
        command.is_below() && command.is_above()
    }),
];

impl Command {
    fn of(call: &LawCall, limited: u8) -> Command {
        let value = |j: usize| Value {
            wanted: nearest(command_sum(call, j)),
            lower: call.settings.lower[j].into(),
            upper: call.settings.upper[j].into(),
        };
        Command {
            marked: limited != 0,
            values: (0..call.sizes.p).map(value).collect(),
        }
    }

    fn any(&self, test: fn(&Value) -> bool) -> bool {
        self.values.iter().any(test)
    }

    fn is_below(&self) -> bool {
        self.any(|value| value.wanted < value.lower)
    }

    fn is_above(&self) -> bool {
        self.any(|value| value.wanted > value.upper)
    }
}

#[derive(Debug, Default)]
pub struct Marks {
    updates: [usize; UPDATES.len()],
    commands: [usize; COMMANDS.len()],
}

impl Marks {
    pub fn count_update(&mut self, call: &LawCall, limited: u8) {
        let update = Update::of(call, limited);
        for (count, (_, test)) in self.updates.iter_mut().zip(UPDATES) {
            *count += usize::from(test(&update));
        }
    }

    pub fn count_command(&mut self, call: &LawCall, limited: u8) {
        let command = Command::of(call, limited);
        for (count, (_, test)) in self.commands.iter_mut().zip(COMMANDS) {
            *count += usize::from(test(&command));
        }
    }

    /// Whether each row was met so many times, and there are as many marks as
    /// calls with a ground for one.
    #[cfg(test)]
    pub fn are_everywhere(&self, least: usize) -> bool {
        let [.., marked, by_error, by_state, by_both] = self.updates;
        let [.., commands, below, above, both] = self.commands;
        let rows = self.updates.iter().chain(&self.commands);
        rows.min() >= Some(&least)
            && marked == by_error + by_state + by_both
            && commands == below + above + both
    }
}

impl fmt::Display for Marks {
    fn fmt(&self, out: &mut fmt::Formatter<'_>) -> fmt::Result {
        for ((name, _), &count) in UPDATES.iter().zip(&self.updates) {
            write_row(out, name, count)?;
        }
        for ((name, _), &count) in COMMANDS.iter().zip(&self.commands) {
            write_row(out, name, count)?;
        }
        Ok(())
    }
}
