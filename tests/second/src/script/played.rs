//! What a line came to, and how it is printed.

use crate::frame::{command_limited, command_values};
use crate::replica::{Answer, Replica};

pub struct Played {
    pub answer: Answer,
    /// The replica whose fields are printed.
    pub replica: Replica,
    /// Empty where there is none.
    pub frame: Vec<u8>,
    /// Empty where there is none.
    pub command: Vec<u8>,
    /// That of an ask.
    pub ticket: Option<u64>,
}

impl Played {
    /// The frame that this line sent. Changes: "`D` names the commit's line,
    /// never the ask's."
    pub fn sent(&self) -> Option<Vec<u8>> {
        let is_sent = !self.frame.is_empty() && self.ticket.is_none();
        is_sent.then(|| self.frame.clone())
    }

    /// "Fields printed: line, box, answer, period, view, base view, base
    /// period, state, line number if a frame was sent, command; `-` stands
    /// where there is no frame or command." Changes, of an ask: "then a space
    /// and the ticket".
    pub fn row(&self, line_number: usize) -> String {
        let replica = &self.replica;
        let ticket = self.ticket.map(|ticket| format!(" {ticket}"));
        format!(
            "{line_number} {} {} {} {} {} {} {} {} {}{}",
            replica.own,
            self.answer_field(),
            replica.period,
            replica.view,
            replica.base_view,
            replica.estimate.base_period,
            commas(&replica.estimate.state[..replica.settings.n.into()]),
            self.frame_field(line_number),
            self.command_field(),
            ticket.unwrap_or_default(),
        )
    }

    fn answer_field(&self) -> String {
        match self.answer {
            Answer::Ok => "ok".to_string(),
            Answer::Ignored => "ignored".to_string(),
            Answer::Refused(refusal) => refusal.to_string(),
        }
    }

    /// Changes: "for the frame `?` where one would be sent".
    fn frame_field(&self, line_number: usize) -> String {
        match self.ticket {
            _ if self.frame.is_empty() => "-".to_string(),
            Some(_) => "?".to_string(),
            None => line_number.to_string(),
        }
    }

    fn command_field(&self) -> String {
        match &self.command[..] {
            [] => "-".to_string(),
            bytes => format!("{}{}", commas(&command_values(bytes)), star(bytes)),
        }
    }
}

/// Document 02: "The bench prints `*` directly behind such a command." Changes:
/// "once, behind its last value".
fn star(command: &[u8]) -> &'static str {
    match command_limited(command) {
        Some(true) => "*",
        _ => "",
    }
}

fn commas(values: &[i32]) -> String {
    let words: Vec<String> = values.iter().map(i32::to_string).collect();
    words.join(",")
}
