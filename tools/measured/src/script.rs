//! A script whose measured lines can be replaced by malformed ones.

use crate::group::Group;

/// "It reads at most 500 lines"
pub const MOST_LINES: usize = 500;

/// Lines are measured after this one, where every line number has three digits.
const LAST_UNMEASURED: usize = 100;

pub struct Script<'a> {
    group: &'a Group,
    lines: Vec<String>,
    measured: Vec<usize>,
}

impl<'a> Script<'a> {
    pub fn new(group: &'a Group) -> Script<'a> {
        Script {
            group,
            lines: Vec::new(),
            measured: Vec::new(),
        }
    }

    /// How many more lines there may be.
    pub fn room(&self) -> usize {
        MOST_LINES - self.lines.len()
    }

    /// Adds a line and gives its number.
    pub fn play(&mut self, line: String) -> usize {
        self.lines.push(line);
        self.lines.len()
    }

    /// Adds a line of the kind that is measured.
    pub fn measure(&mut self, line: String) -> usize {
        let number = self.play(line);
        self.measured.push(number);
        number
    }

    /// Malformed lines up to where lines are measured.
    pub fn pad(&mut self) {
        while self.lines.len() < LAST_UNMEASURED {
            self.play(self.group.malformed());
        }
    }

    pub fn tick(&mut self, box_number: usize, turn: usize) -> usize {
        self.play(self.group.tick(box_number, turn))
    }

    pub fn deliver(&mut self, box_number: usize, sent: usize) -> usize {
        self.play(delivery(box_number, sent))
    }

    /// The numbers of the measured lines, one to a line.
    pub fn measured(&self) -> String {
        let numbers = self.measured.iter().map(|number| format!("{number}\n"));
        numbers.collect()
    }

    /// The script with its measured lines.
    pub fn with(&self) -> String {
        self.text(|line, _| line.to_string())
    }

    /// The script with malformed lines in place of the measured ones.
    pub fn without(&self) -> String {
        self.text(|line, measured| match measured {
            true => self.group.malformed(),
            false => line.to_string(),
        })
    }

    fn text(&self, shown: impl Fn(&str, bool) -> String) -> String {
        let mut text = String::new();
        if let Some(line) = self.group.first_line() {
            text += &format!("{line}\n");
        }
        for (line, number) in self.lines.iter().zip(1..) {
            let measured = self.measured.binary_search(&number).is_ok();
            text += &format!("{}\n", shown(line, measured));
        }
        text
    }
}

/// The line that delivers to a box the frame that an earlier line sent.
pub fn delivery(box_number: usize, sent: usize) -> String {
    format!("D {box_number} {sent}")
}
