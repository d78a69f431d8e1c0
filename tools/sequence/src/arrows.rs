//! The frames of a chart: their arrows and labels.

use crate::chart::{moved, Chart, BETWEEN};
use crate::frames::{Frame, Kind};
use crate::notes;
use crate::run::Run;
use crate::svg::{self, Point, Side};

impl Chart<'_> {
    pub fn arrows(&self) -> String {
        self.frames.iter().map(|frame| self.paths(frame)).collect()
    }

    pub fn labels(&self) -> String {
        self.frames
            .iter()
            .map(|frame| self.labels_of(frame))
            .collect()
    }

    /// The arrows of a frame, also those that end on the way.
    fn paths(&self, frame: &Frame) -> String {
        let arrows = frame.arrivals.iter().map(|&place| self.arrow(frame, place));
        let lost = frame.lost(self.run).into_iter();
        let losses = lost.map(|to| self.loss(frame, to));
        arrows.chain(losses).collect()
    }

    fn arrow(&self, frame: &Frame, place: usize) -> String {
        let (from, to) = (self.place_of(frame.sent), self.place_of(place));
        let (from, to) = (beside(from, to.0), beside(to, from.0));
        let class = self.class_of(frame, place);
        let shaft = svg::line(from, to, &format!("arrow {class}"));
        shaft + &svg::head(from, to, &format!("{class}-fill"))
    }

    fn class_of(&self, frame: &Frame, place: usize) -> &'static str {
        match self.run.steps[place].answer.as_str() {
            "ok" => frame.kind.name(),
            _ => "ignored",
        }
    }

    fn loss(&self, frame: &Frame, to: usize) -> String {
        let (from, end) = (self.place_of(frame.sent), self.loss_at(frame, to));
        let class = format!("lost {}", frame.kind.name());
        let shaft = svg::line(beside(from, end.0), end, &class);
        shaft + &svg::cross(end, 5, "loss")
    }

    /// Where a lost frame ends: on the way to its box.
    fn loss_at(&self, frame: &Frame, to: usize) -> Point {
        let (x, y) = self.place_of(frame.sent);
        let goal = self.line_of(to);
        let apart = (goal - x).abs() / BETWEEN;
        (goal - 52 * (goal - x).signum(), y + 26 + 8 * apart)
    }

    fn labels_of(&self, frame: &Frame) -> String {
        let arrivals = frame.arrivals.iter().map(|&place| self.label(frame, place));
        let lost = frame.lost(self.run).into_iter();
        let losses = lost.map(|to| self.loss_label(frame, to));
        arrivals.chain(losses).collect()
    }

    fn label(&self, frame: &Frame, place: usize) -> String {
        let class = format!("{}-fill", self.class_of(frame, place));
        self.along(frame, self.place_of(place), &class)
    }

    /// A frame that arrived nowhere has its label where it was lost first.
    fn loss_label(&self, frame: &Frame, to: usize) -> String {
        let (x, y) = self.loss_at(frame, to);
        let right = self.place_of(frame.sent).0 < x;
        let ahead = if right { Side::Right } else { Side::Left };
        let lost = svg::text(moved((x, y + 5), ahead, 9), ahead, "red", "lost");
        if !frame.arrivals.is_empty() || frame.lost(self.run)[0] != to {
            return lost;
        }
        lost + &self.along(frame, (x, y), &format!("{}-fill", frame.kind.name()))
    }

    /// A frame's label along its arrow, where arrows lie apart: beside the box
    /// that is not coordinator, or where the frame was lost. One that comes back
    /// to its sender has none.
    fn along(&self, frame: &Frame, to: Point, class: &str) -> String {
        let from = self.place_of(frame.sent);
        let (across, down) = (to.0 - from.0, to.1 - from.1);
        if across == 0 {
            return String::new();
        }
        let slope = f64::from(down) / f64::from(across);
        let half = across.abs().min(BETWEEN) / 2 * across.signum();
        let near_sender = answers(frame.kind) && !frame.arrivals.is_empty();
        let x = match near_sender {
            true => from.0 + half,
            false => to.0 - half,
        };
        let at = (x, f64::from(to.1) + slope * f64::from(x - to.0));
        let lines = label_lines(self.run, frame, across.abs() > BETWEEN);
        let written = |(line, below): (String, i32)| svg::slanted(at, slope, below, class, &line);
        lines.into_iter().map(written).collect()
    }
}

/// The edge of a lifeline's bar, towards another lifeline.
fn beside((x, y): Point, other: i32) -> Point {
    (x + 5 * (other - x).signum(), y)
}

/// Whether frames of a kind go to the coordinator alone.
fn answers(kind: Kind) -> bool {
    matches!(kind, Kind::Ack | Kind::Estimate)
}

/// The lines of a frame's label, and how far below the arrow each stands: below
/// what is lost, and below an Ack that goes a long way, close to its Propose.
fn label_lines(run: &Run, frame: &Frame, far: bool) -> Vec<(String, i32)> {
    let note = notes::of_frame(run, frame);
    let below = frame.arrivals.is_empty() || (frame.kind == Kind::Ack && far);
    let first = match (below, note.second.is_empty()) {
        (true, _) => 17,
        (false, true) => -6,
        (false, false) => -23,
    };
    let lines = [(note.first, first), (note.second, first + 17)];
    let there = lines.into_iter().filter(|(line, _)| !line.is_empty());
    there.collect()
}
