//! A run: each line of a script beside what the program printed for it.

use std::str::FromStr;

/// What a line of a script calls for.
#[derive(Debug, PartialEq, Eq)]
pub enum Event {
    /// the readings as written, `-` for an absent one
    Tick(Vec<String>),
    GiveUp,
    /// the line whose frame arrives
    Deliver(usize),
}

/// One event at one box, and what was printed: the box as it was afterwards.
#[derive(Debug)]
pub struct Step {
    pub line: usize,
    pub text: String,
    pub event: Event,
    pub who: usize,
    pub answer: String,
    pub period: u32,
    pub view: u32,
    pub base_view: u32,
    pub base_period: u32,
    pub state: String,
    pub sent: bool,
    pub command: Option<String>,
}

/// The steps of a group of so many boxes. Lines answered with `bad` do
/// nothing, and are left out.
#[derive(Debug)]
pub struct Run {
    pub boxes: usize,
    pub steps: Vec<Step>,
}

impl Run {
    /// "The coordinator of view v is box (v mod N) + 1."
    pub fn coordinator(&self, view: u32) -> usize {
        view as usize % self.boxes + 1
    }

    pub fn leads(&self, step: &Step) -> bool {
        self.coordinator(step.view) == step.who
    }

    /// Whether the box is in view-change mode after a step. Proposing sets the
    /// base view to the view, so a coordinator below it has yet to propose.
    pub fn hears_estimates(&self, step: &Step) -> bool {
        self.leads(step) && step.base_view < step.view
    }
}

const BENCH_BOXES: usize = 3;
const HEADER: &str = "no who answer k v vb kb x frame command";

pub fn read(script: &str, printed: &str) -> Result<Run, String> {
    let mut lines: Vec<&str> = script.lines().collect();
    let mut boxes = BENCH_BOXES;
    if lines.first().is_some_and(|line| line.starts_with("rig ")) {
        boxes = field(lines.remove(0), 1)?;
    }
    let mut answers = printed.lines();
    if answers.next() != Some(HEADER) {
        return Err(format!("the first printed line is not '{HEADER}'"));
    }
    let answers: Vec<&str> = answers.collect();
    if answers.len() != lines.len() {
        return Err(format!("{} lines, {} answers", lines.len(), answers.len()));
    }
    let played = lines.iter().zip(&answers).filter(|(_, a)| !is_bad(a));
    let steps: Result<_, String> = played.map(|(line, answer)| step(line, answer)).collect();
    Ok(Run {
        boxes,
        steps: steps?,
    })
}

fn is_bad(answer: &str) -> bool {
    answer.ends_with(" bad")
}

fn step(text: &str, answer: &str) -> Result<Step, String> {
    Ok(Step {
        line: field(answer, 0)?,
        text: text.to_string(),
        event: event(text)?,
        who: field(answer, 1)?,
        answer: field(answer, 2)?,
        period: field(answer, 3)?,
        view: field(answer, 4)?,
        base_view: field(answer, 5)?,
        base_period: field(answer, 6)?,
        state: field(answer, 7)?,
        sent: field::<String>(answer, 8)? != "-",
        command: Some(field(answer, 9)?).filter(|command| command != "-"),
    })
}

fn event(text: &str) -> Result<Event, String> {
    match text.split(' ').next() {
        Some("T") => Ok(Event::Tick(
            text.split(' ').skip(2).map(String::from).collect(),
        )),
        Some("G") => Ok(Event::GiveUp),
        Some("D") => Ok(Event::Deliver(field(text, 2)?)),
        _ => Err(format!("'{text}' is no line of a script")),
    }
}

fn field<T: FromStr>(line: &str, place: usize) -> Result<T, String> {
    let word = line.split(' ').nth(place).unwrap_or_default();
    word.parse()
        .map_err(|_| format!("field {place} of '{line}'"))
}

#[cfg(test)]
mod tests {
    use super::*;

    #[test]
    fn a_tick_and_a_bad_line() {
        let printed = format!("{HEADER}\n1 bad\n2 1 ok 1 0 0 1 0 2 -\n");
        let run = read("T 4 1\nT 1 -\n", &printed).unwrap();
        assert_eq!(run.boxes, 3);
        assert_eq!(run.steps.len(), 1);
        assert_eq!(run.steps[0].line, 2);
        assert_eq!(run.steps[0].event, Event::Tick(vec!["-".to_string()]));
        assert!(run.leads(&run.steps[0]));
        assert!(!run.hears_estimates(&run.steps[0]));
    }

    #[test]
    fn the_first_line_of_a_rig_has_the_number_of_boxes() {
        let printed = format!("{HEADER}\n1 5 ok 1 0 0 0 7,8 - -\n");
        let run = read("rig 5 2 1 1 0\nT 5 3\n", &printed).unwrap();
        assert_eq!(run.boxes, 5);
        assert_eq!(run.steps[0].state, "7,8");
    }

    #[test]
    fn what_does_not_fit_is_an_error() {
        assert!(read("T 1 1\n", HEADER).is_err());
        assert!(read("", "r1\n").is_err());
        let printed = format!("{HEADER}\n1 1 ok 1 0\n");
        assert!(read("T 1 1\n", &printed).is_err());
    }
}
