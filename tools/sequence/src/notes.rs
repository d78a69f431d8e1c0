//! What stands beside the events and the frames.

use crate::frames::{Frame, Kind};
use crate::run::{Event, Run, Step};

/// One or two lines of text: what happened, and what the box holds then.
pub struct Note {
    pub first: String,
    pub second: String,
}

/// The note of a step; `arrived` is the kind of the frame that it delivers.
pub fn of_step(run: &Run, step: &Step, arrived: Option<Kind>) -> Note {
    if step.answer != "ok" {
        return note(answer(&step.answer), String::new());
    }
    match (&step.event, arrived) {
        (Event::Tick(row), _) => note(reading(row), held(run, step)),
        (Event::GiveUp, _) => note(
            format!("gives up view {}", step.view - 1),
            raised(run, step),
        ),
        (_, Some(Kind::Propose)) => note(format!("adopts state {}", step.state), String::new()),
        (_, Some(Kind::Estimate)) if step.sent => note(
            "takes the best".into(),
            format!("estimate, state {}", step.state),
        ),
        _ => note("heard".into(), String::new()),
    }
}

fn note(first: String, second: String) -> Note {
    Note { first, second }
}

fn answer(word: &str) -> String {
    match word.strip_prefix('r') {
        Some(number) => format!("refused by {number}"),
        None => word.to_string(),
    }
}

fn reading(row: &[String]) -> String {
    match row {
        [one] if one == "-" => "tick, no reading".into(),
        [one] => format!("tick, reading {one}"),
        _ => format!("tick, readings {}", row.join(" ")),
    }
}

/// What a tick leaves; in view-change mode it also raised the view.
fn held(run: &Run, step: &Step) -> String {
    let (period, view, state) = (step.period, step.view, &step.state);
    let raised = run.hears_estimates(step) || (step.sent && !run.leads(step));
    match raised {
        true => format!("period {period}, view {view}, state {state}"),
        false => format!("period {period}, state {state}"),
    }
}

fn raised(run: &Run, step: &Step) -> String {
    match run.leads(step) {
        true => format!("own estimate: {}", estimate(step)),
        false => format!("view {}", step.view),
    }
}

/// What estimates are weighed by, and the state that comes with it.
fn estimate(step: &Step) -> String {
    let (view, period) = (step.base_view, step.base_period);
    format!("base {view}, {period}; state {}", step.state)
}

/// The label of a frame: kind, view and period. Of an Estimate also what the
/// new coordinator weighs.
pub fn of_frame(run: &Run, frame: &Frame) -> Note {
    let step = &run.steps[frame.sent];
    let (name, view, period) = (frame.kind.name(), step.view, step.period);
    let first = format!("{name}, view {view}, period {period}");
    match frame.kind {
        Kind::Estimate => note(first, estimate(step)),
        _ => note(first, String::new()),
    }
}
