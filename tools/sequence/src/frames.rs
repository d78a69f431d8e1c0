//! The frames of a run. The programs print that a line sent a frame, not which
//! kind it is: document 01's "Events" say that.

use crate::run::{Event, Run, Step};

#[derive(Debug, Clone, Copy, PartialEq, Eq)]
pub enum Kind {
    Propose,
    Ack,
    Decide,
    Estimate,
}

impl Kind {
    pub fn name(self) -> &'static str {
        match self {
            Kind::Propose => "Propose",
            Kind::Ack => "Ack",
            Kind::Decide => "Decide",
            Kind::Estimate => "Estimate",
        }
    }
}

/// A frame: its kind, and the places in the run of the step that sent it and
/// of the steps at which it arrived.
#[derive(Debug)]
pub struct Frame {
    pub kind: Kind,
    pub sent: usize,
    pub arrivals: Vec<usize>,
}

impl Frame {
    /// The boxes that it was sent to and never reached: Propose and Decide go
    /// to all others, Ack and Estimate to the view's coordinator.
    pub fn lost(&self, run: &Run) -> Vec<usize> {
        let step = &run.steps[self.sent];
        let coordinator = run.coordinator(step.view);
        let to_all = matches!(self.kind, Kind::Propose | Kind::Decide);
        let meant = (1..=run.boxes).filter(|&to| to != step.who && (to_all || to == coordinator));
        let reached = |to: usize| {
            self.arrivals
                .iter()
                .any(|&place| run.steps[place].who == to)
        };
        meant.filter(|&to| !reached(to)).collect()
    }
}

/// The frames of a run, in the order in which they were sent.
pub fn sent(run: &Run) -> Result<Vec<Frame>, String> {
    let mut frames: Vec<Frame> = Vec::new();
    for (place, step) in run.steps.iter().enumerate() {
        let arrived = arriving(run, &frames, step)?;
        let kind = arrived.map(|arrived| frames[arrived].kind);
        if let Some(arrived) = arrived {
            frames[arrived].arrivals.push(place);
        }
        if step.sent {
            let kind = kind_sent(run, step, kind)?;
            frames.push(Frame {
                kind,
                sent: place,
                arrivals: Vec::new(),
            });
        }
    }
    Ok(frames)
}

/// The frame that a step delivers.
fn arriving(run: &Run, frames: &[Frame], step: &Step) -> Result<Option<usize>, String> {
    let Event::Deliver(line) = step.event else {
        return Ok(None);
    };
    let found = frames.iter().position(|f| run.steps[f.sent].line == line);
    found
        .map(Some)
        .ok_or(format!("'{}': line {line} sent no frame", step.text))
}

/// The kind of the frame that a step sent, by the kind of the one that arrived.
fn kind_sent(run: &Run, step: &Step, arrived: Option<Kind>) -> Result<Kind, String> {
    match (&step.event, arrived) {
        (Event::Tick(_), _) if run.leads(step) => Ok(Kind::Propose),
        (Event::Tick(_) | Event::GiveUp, _) => Ok(Kind::Estimate),
        (_, Some(Kind::Propose)) => Ok(Kind::Ack),
        (_, Some(Kind::Ack)) => Ok(Kind::Decide),
        (_, Some(Kind::Estimate)) => Ok(Kind::Propose),
        _ => Err(format!("line {}: a Decide sends nothing", step.line)),
    }
}

#[cfg(test)]
mod tests {
    use super::*;
    use crate::run;

    const HEADER: &str = "no who answer k v vb kb x frame command\n";

    /// The kind of each frame, and the boxes that it never reached.
    fn kinds_and_losses(script: &str, printed: &str) -> Vec<(Kind, Vec<usize>)> {
        let run = run::read(script, &format!("{HEADER}{printed}")).unwrap();
        let frames = sent(&run).unwrap();
        frames
            .iter()
            .map(|frame| (frame.kind, frame.lost(&run)))
            .collect()
    }

    #[test]
    fn a_period_of_document_01() {
        let found = kinds_and_losses(
            "T 1 100\nT 2 102\nD 2 1\nD 1 3\nD 2 4\nT 2 -\n",
            "1 1 ok 1 0 0 1 0 1 -\n2 2 ok 1 0 0 0 0 - -\n3 2 ok 1 0 0 1 0 3 -\n\
             4 1 ok 1 0 0 1 0 4 50\n5 2 ok 1 0 0 1 0 - 50\n6 2 ok 2 0 0 1 50 - -\n",
        );
        let none = Vec::new();
        let expected = [
            (Kind::Propose, vec![3]),
            (Kind::Ack, none),
            (Kind::Decide, vec![3]),
        ];
        assert_eq!(found, expected);
    }

    #[test]
    fn a_take_over() {
        let found = kinds_and_losses(
            "T 2 1\nT 3 2\nG 2\nG 3\nD 2 4\n",
            "1 2 ok 1 0 0 0 0 - -\n2 3 ok 1 0 0 0 0 - -\n3 2 ok 1 1 0 0 0 - -\n\
             4 3 ok 1 1 0 0 0 4 -\n5 2 ok 1 1 1 1 0 5 -\n",
        );
        let none = Vec::new();
        assert_eq!(found, [(Kind::Estimate, none), (Kind::Propose, vec![1, 3])]);
    }

    #[test]
    fn a_tick_in_view_change_mode_sends_an_estimate() {
        let found = kinds_and_losses(
            "T 2 1\nG 2\nT 2 1\n",
            "1 2 ok 1 0 0 0 0 - -\n2 2 ok 1 1 0 0 0 - -\n3 2 ok 2 2 0 0 0 3 -\n",
        );
        assert_eq!(found, [(Kind::Estimate, vec![3])]);
    }
}
