//! A script's lines beside what was printed for them, as far as a check of
//! histories looks at them.

use second::law::Readings;

use crate::command::Command;
use crate::words::{number, row, values};

/// What leaves, and when.
#[derive(Clone, Copy, Debug, PartialEq, Eq)]
pub enum Host {
    /// No record is stored and no box returns: all that a step makes leaves.
    Plain,
    /// "each frame or command left after its step's record was stored": what
    /// is not stored while the replica is still that step's never leaves, but
    /// for what was asked first, whose record can be stored later.
    Storing,
}

/// A line that was answered by anything but `bad`.
pub struct Played {
    /// The place of the box, counted from 0.
    pub place: usize,
    pub is_ok: bool,
    pub what: What,
    pub period: u32,
    pub state: Vec<i32>,
    pub command: Option<Command>,
}

pub enum What {
    Event(Event),
    /// The event is asked, and gets this ticket.
    Ask(Event, u64),
    /// The ticket is committed.
    Commit(u64),
    Store,
    /// What the latest ask gave is stored.
    StoreAsked,
    Return {
        missed: usize,
    },
}

#[derive(Clone, Copy)]
pub enum Event {
    Tick(Readings),
    GiveUp,
    /// The frame that this line sent, counted from 0.
    Deliver(usize),
}

impl Played {
    /// The frame that arrives, or is asked for, if one is.
    pub fn arriving(&self) -> Option<usize> {
        match self.what {
            What::Event(Event::Deliver(frame)) | What::Ask(Event::Deliver(frame), _) => Some(frame),
            _ => None,
        }
    }
}

/// The lines that were read, each with its row; none for a `bad` one.
pub fn played(lines: &[Vec<u8>], output: &[u8]) -> Result<Vec<Option<Played>>, String> {
    let output = std::str::from_utf8(output).map_err(|error| error.to_string())?;
    let rows = lines.iter().zip(output.lines().skip(1));
    rows.map(|(line, row)| read(line, row)).collect()
}

fn read(line: &[u8], row: &str) -> Result<Option<Played>, String> {
    let fields: Vec<&str> = row.split(' ').collect();
    if let [_, "bad"] = fields[..] {
        return Ok(None);
    }
    let (fields, ticket) = match fields.split_last() {
        Some((ticket, ten)) if ten.len() == 10 => (ten, Some(*ticket)),
        _ => (&fields[..], None),
    };
    let &[_, who, answer, period, _, _, _, state, _, command] = fields else {
        return Err(row.to_string());
    };
    let read = || {
        let command = match command {
            "-" => None,
            field => Some(Command::printed(field)?),
        };
        Some(Played {
            place: number::<usize>(who)?.checked_sub(1)?,
            is_ok: answer == "ok",
            what: what(line, ticket)?,
            period: number(period)?,
            state: values(state)?,
            command,
        })
    };
    let shown = || format!("{:?} with {row:?}", String::from_utf8_lossy(line));
    read().map(Some).ok_or_else(shown)
}

/// What a line tells a box to do; a ticket is printed for an ask alone.
fn what(line: &[u8], ticket: Option<&str>) -> Option<What> {
    let mut words = std::str::from_utf8(line).ok()?.split(' ');
    let letter = words.next()?;
    words.next()?;
    let what = match (letter, ticket) {
        ("C", None) => What::Commit(number(words.next()?)?),
        ("S", None) => What::Store,
        ("SA", None) => What::StoreAsked,
        ("R", None) => What::Return {
            missed: number(words.next()?)?,
        },
        (letter, None) => What::Event(event(letter, &mut words)?),
        (letter, Some(ticket)) => {
            let asked = event(letter.strip_prefix('A')?, &mut words)?;
            What::Ask(asked, number(ticket)?)
        }
    };
    words.next().is_none().then_some(what)
}

fn event<'a>(letter: &str, words: &mut impl Iterator<Item = &'a str>) -> Option<Event> {
    match letter {
        "T" => row(words).map(Event::Tick),
        "G" => Some(Event::GiveUp),
        "D" => Some(Event::Deliver(
            number::<usize>(words.next()?)?.checked_sub(1)?,
        )),
        _ => None,
    }
}

#[cfg(test)]
mod tests {
    use super::*;

    #[test]
    fn what_no_program_prints_is_told() {
        let lines = [b"G 1".to_vec()];
        for row in [
            "1 1 ok",
            "1 0 ok 1 0 0 1 0 - -",
            "1 1 ok 1 0 0 1 x - -",
            "1 1 ok 1 0 0 1 0 - x",
            "1 1 ok 1 0 0 1 0 - -*",
            "1 1 ok 1 0 0 1 0 - 1*,2",
            "1 1 ok 1 0 0 1 0* - 1",
            "1 1 ok 1 0 0 1 0 - 1 *",
            "1 1 ok 1 0 0 1 0 - - 1",
        ] {
            let output = format!("header\n{row}\n");
            assert!(played(&lines, output.as_bytes()).is_err(), "{row}");
        }
    }

    /// An ask's row has a ticket, and no other.
    #[test]
    fn asks_and_commits_are_read() {
        let rows = |row: &str| format!("header\n{row}\n").into_bytes();
        let read = |line: &str, row: &str| played(&[line.into()], &rows(row));
        let ask = read("AT 1 5", "1 1 ok 1 0 0 1 0 ? - 7").unwrap();
        let ask = ask[0].as_ref().unwrap();
        assert!(matches!(ask.what, What::Ask(Event::Tick(row), 7) if row.values[0] == 5));
        let ask = read("AD 1 9", "1 1 r9 1 0 0 1 0 - - 8").unwrap();
        assert_eq!(ask[0].as_ref().unwrap().arriving(), Some(8));
        let commit = read("C 1 18446744073709551615", "1 1 r17 1 0 0 1 0 - -").unwrap();
        let commit = commit[0].as_ref().unwrap();
        assert!(matches!(commit.what, What::Commit(u64::MAX)) && !commit.is_ok);
        for (line, row) in [
            ("AG 1", "1 1 ok 1 0 0 1 0 ? -"),
            ("C 1 1", "1 1 ok 1 0 0 1 0 1 - 1"),
            ("SA 1", "1 1 ok 1 0 0 1 0 - - 1"),
            ("AC 1 1", "1 1 ok 1 0 0 1 0 - - 1"),
        ] {
            assert!(read(line, row).is_err(), "{line}");
        }
    }
}
