//! Commands, whole and damaged, as this file writes and judges them: the second
//! implementation has no call that reads one.

use second::frame::write_command;

use crate::areas::{PATTERN, PATTERN_32};
use crate::prng::Prng;
use crate::values::{byte, counter, other_byte, sizes, value};

/// Where a command has its mark.
const LIMITED: usize = 2;

/// What a call answers and leaves in its areas: period, values and mark.
type Read = (u32, u32, [i32; 4], u8);

#[derive(Clone, Debug)]
struct Command {
    period: u32,
    values: Vec<i32>,
    limited: bool,
}

impl Command {
    /// A command at random.
    fn any(prng: &mut Prng) -> Command {
        Command {
            period: counter(prng),
            values: (0..sizes(prng).p).map(|_| value(prng)).collect(),
            limited: prng.chance(50),
        }
    }

    fn p(&self) -> usize {
        self.values.len()
    }

    /// Byte 0 is 5, byte 1 is p, byte 2 the mark, byte 3 zero, period at 4, p
    /// values from 8.
    fn bytes(&self) -> Vec<u8> {
        let mut bytes = vec![5, self.p() as u8, self.limited.into(), 0];
        bytes.extend(self.period.to_le_bytes());
        bytes.extend(self.values.iter().flat_map(|value| value.to_le_bytes()));
        bytes
    }

    /// The values, and 0 behind them.
    fn places(&self) -> [i32; 4] {
        let mut places = [0; 4];
        places[..self.p()].copy_from_slice(&self.values);
        places
    }

    fn given(&self) -> Read {
        (0, self.period, self.places(), self.limited.into())
    }

    /// The same with either mark.
    fn with_marks(&self) -> [Command; 2] {
        [false, true].map(|limited| Command {
            limited,
            ..self.clone()
        })
    }
}

fn read(p: usize, bytes: &[u8]) -> Read {
    let (mut period, mut commands) = (PATTERN_32, [PATTERN_32 as i32; 4]);
    let mut limited = PATTERN;
    let answer = winder::read_command(p, bytes, &mut period, &mut commands, &mut limited);
    (answer, period, commands, limited)
}

/// A refused call leaves its areas as they were.
fn refused(number: u32) -> Read {
    (number, PATTERN_32, [PATTERN_32 as i32; 4], PATTERN)
}

/// Commands at random, each with the numbers that damage it.
fn commands() -> impl Iterator<Item = (Prng, Command)> {
    (1..=500).map(|number| {
        let mut prng = Prng::of_script(1, number);
        let command = Command::any(&mut prng);
        (prng, command)
    })
}

#[test]
fn a_whole_command_gives_what_was_written() {
    for (_, command) in commands() {
        for command in command.with_marks() {
            assert_eq!(read(command.p(), &command.bytes()), command.given());
        }
    }
}

#[test]
fn what_the_second_implementation_writes_is_read() {
    for (_, command) in commands() {
        for command in command.with_marks() {
            let (p, places) = (command.p(), command.places());
            let mut area = [0; 24];
            let length =
                write_command(p as u8, command.period, &places, command.limited, &mut area);
            let written = &area[..length.expect("p within its range")];
            assert_eq!(read(p, written), command.given());
        }
    }
}

#[test]
fn another_byte_2_is_refused() {
    for (_, command) in commands() {
        let mut bytes = command.bytes();
        for other in 2..=255 {
            bytes[LIMITED] = other;
            assert_eq!(read(command.p(), &bytes), refused(8), "{other}");
        }
    }
}

#[test]
fn the_sizes_are_looked_at_first() {
    for (_, command) in commands() {
        let (p, bytes) = (command.p(), command.bytes());
        for outside in [0, 5, 256 + p, (1 << 32) + p, usize::MAX] {
            assert_eq!(read(outside, &bytes), refused(2));
            assert_eq!(read(outside, &[]), refused(2));
        }
    }
}

#[test]
fn another_count_is_refused() {
    for (_, command) in commands() {
        let (p, mut bytes) = (command.p(), command.bytes());
        for other in (1..=4).filter(|&other| other != p) {
            assert_eq!(read(other, &bytes), refused(8));
        }
        for other in (0..=255).filter(|&other| usize::from(other) != p) {
            bytes[1] = other;
            assert_eq!(read(p, &bytes), refused(8));
        }
    }
}

#[test]
fn another_length_is_refused() {
    for (mut prng, command) in commands() {
        let whole = command.bytes();
        for length in (0..=40).filter(|&length| length != whole.len()) {
            let mut bytes = whole.clone();
            bytes.resize_with(length, || byte(&mut prng));
            assert_eq!(read(command.p(), &bytes), refused(8));
        }
    }
}

/// Bytes 0, 1 and 3 may not be others, and byte 2 only the other mark.
#[test]
fn a_changed_byte_is_refused_or_read() {
    for (mut prng, command) in commands() {
        let (p, whole) = (command.p(), command.bytes());
        for at in 0..whole.len() {
            let mut bytes = whole.clone();
            bytes[at] = other_byte(&mut prng, bytes[at]);
            let found = read(p, &bytes);
            if at < 4 && (at != LIMITED || bytes[at] > 1) {
                assert_eq!(found, refused(8), "byte {at}");
                continue;
            }
            let (answer, period, commands, limited) = found;
            assert_eq!(answer, 0, "byte {at}");
            let read = Command {
                period,
                values: commands[..p].to_vec(),
                limited: limited == 1,
            };
            assert_eq!(read.bytes(), bytes);
            assert_eq!(read.given(), found);
        }
    }
}
