//! What the files with histories share: what leaves the boxes, and whether one
//! run of the single controller gives the commands that left, as demand 3 asks.

use std::collections::{BTreeMap, BTreeSet};

use second::frame::{self, COMMAND_AREA, FRAME_AREA};
use second::law::{self, Readings, Settings, State, Updated};
use second::reading::{Reading, Row};
use second::replica::{Answer, Areas, Quorums, Step};
use second::script::bench_settings;

use crate::random::Random;

impl Random {
    /// Now and then so far out that an e(j) is clamped.
    pub fn row(&mut self) -> Row {
        let mut row = [Reading::Missing; 4];
        match self.below(12) {
            0 | 1 => {}
            2 => row[0] = Reading::Count([i32::MIN, i32::MAX][self.below(2)]),
            _ => row[0] = Reading::Count(self.below(1000) as i32 - 500),
        }
        row
    }
}

#[derive(Clone)]
pub struct Sent {
    frame: Vec<u8>,
    command: Vec<u8>,
}

/// What an event with lent areas leaves, and what it sends; none where it is
/// not ok.
pub fn lend<T>(event: impl FnOnce(Areas) -> (T, Step)) -> (T, Option<Sent>) {
    let (mut frame, mut command) = ([0; FRAME_AREA], [0; COMMAND_AREA]);
    let areas = Areas {
        frame: &mut frame,
        command: &mut command,
    };
    let (after, step) = event(areas);
    let sent = (step.answer == Answer::Ok).then(|| Sent {
        frame: frame[..step.frame_length].to_vec(),
        command: command[..step.command_length].to_vec(),
    });
    (after, sent)
}

/// What left the boxes of a group.
#[derive(Default)]
pub struct Left {
    frames: Vec<Vec<u8>>,
    /// By period.
    commands: BTreeMap<u32, Vec<Vec<u8>>>,
}

impl Left {
    pub fn add(&mut self, sent: Sent) {
        if !sent.frame.is_empty() {
            self.frames.push(sent.frame);
        }
        if !sent.command.is_empty() {
            let period = u32::from_le_bytes(sent.command[4..8].try_into().unwrap());
            self.commands.entry(period).or_default().push(sent.command);
        }
    }

    /// Where the last so many frames begin.
    pub fn recent(&self, count: usize) -> usize {
        self.frames.len().saturating_sub(count)
    }

    /// Any frame, mostly a recent one.
    pub fn frame(&self, recent: usize, random: &mut Random) -> Option<Vec<u8>> {
        let from = if random.below(6) == 0 { 0 } else { recent };
        let left = self.frames.len().checked_sub(from + 1)?;
        Some(self.frames[from + random.below(left + 1)].clone())
    }

    /// Whether one run of the single controller gives all commands that left:
    /// all the states that it can hold, step by step, of which a decided
    /// period leaves those with its command. Byte 2 is one of the update that
    /// gave the state: so one state may stay by one row and not by another.
    fn is_one_run(&self, settings: &Settings, boxes: &[Vec<Readings>]) -> bool {
        let mut start = State::default();
        start[0] = settings.start[0];
        let mut states = BTreeSet::from([start]);
        let last = self.commands.keys().last().copied().unwrap_or(0);
        for period in 1..=last {
            let rows = rows_of(period, boxes);
            let steps = states
                .iter()
                .flat_map(|x| rows.iter().map(move |row| (x, row)));
            let commands = self.commands.get(&period).map_or(&[][..], Vec::as_slice);
            let next = steps.filter_map(|(x, row)| {
                let updated = law::update(settings, x, row).unwrap();
                let own = command_k(settings, period, &updated);
                let fits = commands.iter().all(|command| *command == own);
                fits.then_some(updated.state)
            });
            states = next.collect();
        }
        !states.is_empty()
    }

    fn commands(&self) -> impl Iterator<Item = &Vec<u8>> {
        self.commands.values().flatten()
    }
}

/// "Row k is one that some box was handed for period k".
fn rows_of(period: u32, boxes: &[Vec<Readings>]) -> Vec<Readings> {
    let nth = period as usize - 1;
    let row = |rows: &Vec<Readings>| rows.get(nth).copied();
    boxes.iter().filter_map(row).collect()
}

/// The bytes of command k, of step k's update.
fn command_k(settings: &Settings, k: u32, updated: &Updated) -> Vec<u8> {
    let command = law::command(settings, &updated.state).unwrap();
    let limited = updated.limited || command.limited;
    let mut area = [0; COMMAND_AREA];
    let length = frame::write_command(1, k, &command.values, limited, &mut area).unwrap();
    area[..length].to_vec()
}

/// How many of the histories no single controller's run gives, with how many
/// commands left in all, by byte 2. A history is run for each of these groups,
/// of so many boxes with these quorums, and gives what left the boxes and the
/// rows behind each.
pub fn violations(
    groups: &[(u8, Quorums)],
    mut run: impl FnMut(u8, Quorums, Settings, &mut Random) -> (Left, Vec<Vec<Readings>>),
) -> (usize, [usize; 2]) {
    let mut random = Random::new();
    let mut settings = bench_settings();
    settings.a[0][0] = 60_000;
    settings.start[0] = 700;
    (settings.lower[0], settings.upper[0]) = (-1_000_000_000, 500);
    let mut violations = 0;
    let mut commands = [0; 2];
    for &(boxes, quorums) in groups {
        let (left, rows) = run(boxes, quorums, settings, &mut random);
        violations += usize::from(!left.is_one_run(&settings, &rows));
        for command in left.commands() {
            commands[usize::from(command[2])] += 1;
        }
    }
    (violations, commands)
}
