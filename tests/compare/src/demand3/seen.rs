//! What a check of demand 3 takes from a history, and the search for one choice
//! of rows that gives it.

use std::collections::{BTreeMap, HashMap};
use std::fmt;

use second::law::{self, Settings, State};

use super::Checked;
use crate::command::Command;
use crate::past::{Past, Row};

/// With more states than this the search forgets them all and goes on from
/// the next decided state that shows.
const MOST_STATES: usize = 20_000;

/// The same with more updates than this from one decided period to the next:
/// a group may miss thousands of periods.
const MOST_UPDATES: usize = 1_000_000;

/// All that the check takes from a history, by period.
#[derive(Default)]
pub struct Seen {
    /// A row is a missed one where no box was handed it.
    rows: BTreeMap<u32, Vec<Row>>,
    commands: BTreeMap<u32, Command>,
    states: BTreeMap<u32, Vec<i32>>,
}

/// A state of the single controller, and whether the update that led to it was
/// limited. "Byte 2 is no function of the state alone: two updates may give one
/// state, one of them clamped." So in a decided period a state counts once for
/// each; before and after it no mark shows, and all are taken for not limited.
type Arrival = (State, bool);

/// Those reached, each with whether that takes no row of a missed period since
/// the last decided one.
type Reached = HashMap<Arrival, bool>;

impl Seen {
    pub fn take_command(&mut self, period: u32, command: Command) -> Result<(), String> {
        note(&mut self.commands, period, command, "commands")
    }

    pub fn take_state(&mut self, period: u32, state: Vec<i32>) -> Result<(), String> {
        note(&mut self.states, period, state, "decided states")
    }

    /// Takes the rows behind a box at the end, once all commands are taken.
    pub fn take_rows(&mut self, past: &Past) {
        let periods = 1..=self.last_decided();
        for (period, row) in periods.zip(past.rows()) {
            let rows = self.rows.entry(period).or_default();
            match rows.iter_mut().find(|known| known.readings == row.readings) {
                Some(known) => known.is_missed &= row.is_missed,
                None => rows.push(*row),
            }
        }
    }

    fn last_decided(&self) -> u32 {
        self.commands.keys().next_back().copied().unwrap_or(0)
    }

    /// Follows the single controller over all choices of rows at once.
    pub fn search(&self, settings: &Settings) -> Result<Checked, String> {
        let mut checked = Checked {
            decided_periods: self.commands.len(),
            missed_somewhere: self.missed_somewhere(),
            ..Checked::default()
        };
        let mut reached = Some(Reached::from([((start(settings), false), true)]));
        let mut updates = 0;
        for period in 1..=self.last_decided() {
            let stepped = reached.and_then(|at| self.step(settings, period, &at, &mut updates));
            reached = match (stepped, self.commands.get(&period)) {
                (stepped, None) => stepped,
                (Some(stepped), Some(command)) => {
                    updates = 0;
                    Some(self.decided(settings, period, command, stepped, &mut checked)?)
                }
                (None, Some(_)) => {
                    updates = 0;
                    let state = self.shown_state(period);
                    state.map(|state| Reached::from([((state, false), true)]))
                }
            };
        }
        Ok(checked)
    }

    /// What of the arrivals in a decided period fits it.
    fn decided(
        &self,
        settings: &Settings,
        period: u32,
        command: &Command,
        arrivals: Reached,
        checked: &mut Checked,
    ) -> Result<Reached, String> {
        let n = usize::from(settings.n);
        let shown = self.states.get(&period);
        let is_other = |state: &State| shown.is_some_and(|shown| *shown != state[..n]);
        let mut reached = Reached::new();
        let mut otherwise_marked = Vec::new();
        for ((state, is_limited), without) in arrivals {
            if is_other(&state) {
                continue;
            }
            match fit(settings, &state, is_limited, command) {
                Fit::Whole => *reached.entry((state, false)).or_default() |= without,
                Fit::ButForTheMark => otherwise_marked.push((state, false)),
                Fit::Not => {}
            }
        }
        if reached.is_empty() {
            let but = match otherwise_marked.is_empty() {
                true => "",
                false => " with its mark",
            };
            return Err(format!("period {period}: no choice of rows gives it{but}"));
        }
        checked.searched_periods += 1;
        let without = reached.values().any(|&without| without);
        checked.missed_needed += usize::from(!without);
        let is_told_apart = otherwise_marked.iter().any(|at| reached.contains_key(at));
        checked.marks_told_apart += usize::from(is_told_apart);
        reached.values_mut().for_each(|without| *without = true);
        Ok(reached)
    }

    fn missed_somewhere(&self) -> usize {
        let is_missed = |period| {
            let rows = self.rows.get(period);
            rows.is_some_and(|rows| rows.iter().any(|row| row.is_missed))
        };
        self.commands
            .keys()
            .filter(|period| is_missed(period))
            .count()
    }

    /// What is reached after one more period; none if it is too much.
    fn step(
        &self,
        settings: &Settings,
        period: u32,
        reached: &Reached,
        updates: &mut usize,
    ) -> Option<Reached> {
        let rows = self.rows.get(&period).map_or(&[][..], Vec::as_slice);
        let is_decided = self.commands.contains_key(&period);
        let mut next = Reached::new();
        for ((state, _), without) in reached {
            for row in rows {
                let updated = law::update(settings, state, &row.readings).expect("good settings");
                let arrival = (updated.state, is_decided && updated.limited);
                *next.entry(arrival).or_default() |= without & !row.is_missed;
            }
            *updates += rows.len();
            if next.len() > MOST_STATES || *updates > MOST_UPDATES {
                return None;
            }
        }
        Some(next)
    }

    fn shown_state(&self, period: u32) -> Option<State> {
        let mut state = State::default();
        let shown = self.states.get(&period)?;
        state.get_mut(..shown.len())?.copy_from_slice(shown);
        Some(state)
    }
}

/// How far an arrival gives a command.
enum Fit {
    Whole,
    /// Its values, but not its mark.
    ButForTheMark,
    Not,
}

/// Step k and command k together make the mark: "if that occurred in the update
/// or the command it comes from".
fn fit(settings: &Settings, state: &State, is_limited: bool, command: &Command) -> Fit {
    let given = law::command(settings, state).expect("good settings");
    if command.values != given.values[..settings.p.into()] {
        return Fit::Not;
    }
    match (is_limited || given.limited) == command.is_marked {
        true => Fit::Whole,
        false => Fit::ButForTheMark,
    }
}

/// Enters a period's value, which must be the one entered before, if any.
fn note<T: Clone + PartialEq + fmt::Debug>(
    known: &mut BTreeMap<u32, T>,
    period: u32,
    value: T,
    what: &str,
) -> Result<(), String> {
    let first = known.entry(period).or_insert_with(|| value.clone());
    if *first == value {
        return Ok(());
    }
    Err(format!(
        "period {period}: two {what}, {first:?} and {value:?}"
    ))
}

fn start(settings: &Settings) -> State {
    let mut state = State::default();
    let n = usize::from(settings.n);
    state[..n].copy_from_slice(&settings.start[..n]);
    state
}
