//! The chart: a lifeline for each box, time downwards, one row for each step.

use crate::frames::Frame;
use crate::notes::{self, Note};
use crate::run::{Event, Run, Step};
use crate::svg::{self, Point, Side};

const FIRST_BOX: i32 = 262;
pub const BETWEEN: i32 = 276;
const RIGHT_MARGIN: i32 = 166;
const FIRST_ROW: i32 = 122;
const ROW: i32 = 48;
const NEW_PERIOD: i32 = 36;
const STOP: i32 = 36;
const HEADS: i32 = 62;
const HEAD_SIZE: Point = (120, 30);
const LEGEND: i32 = 92;

pub struct Chart<'a> {
    pub run: &'a Run,
    pub frames: &'a [Frame],
    /// how far down each step stands
    rows: Vec<i32>,
}

pub fn draw(title: &str, run: &Run, frames: &[Frame]) -> String {
    let chart = Chart {
        run,
        frames,
        rows: rows(run),
    };
    let (width, height) = (chart.width(), chart.bottom() + LEGEND);
    let mut out = svg::opening((width, height), title, include_str!("style.css"));
    out += &svg::rect((0, 0), (width, height), 0, "paper");
    out += &svg::text((20, 34), Side::Right, "title", title);
    out += &svg::text((50, HEADS + 20), Side::Right, "script", "script");
    out += &chart.periods();
    out += &chart.boxes();
    out += &chart.arrows();
    out += &chart.marks();
    out += &chart.labels();
    out += &chart.notes();
    out += &chart.legend();
    out + "</svg>\n"
}

/// A row for each step; the first of a period has a little more room above it.
fn rows(run: &Run) -> Vec<i32> {
    let mut latest = 0;
    let mut below = FIRST_ROW - ROW;
    let mut rows = Vec::new();
    for step in &run.steps {
        below += ROW;
        below += if step.period > latest { NEW_PERIOD } else { 0 };
        latest = latest.max(step.period);
        rows.push(below);
    }
    rows
}

impl Chart<'_> {
    fn width(&self) -> i32 {
        self.line_of(self.run.boxes) + RIGHT_MARGIN
    }

    fn bottom(&self) -> i32 {
        self.rows.last().unwrap_or(&FIRST_ROW) + ROW
    }

    pub fn line_of(&self, who: usize) -> i32 {
        FIRST_BOX + BETWEEN * (who as i32 - 1)
    }

    /// Where a step stands.
    pub fn place_of(&self, place: usize) -> Point {
        (self.line_of(self.run.steps[place].who), self.rows[place])
    }

    fn steps_of(&self, who: usize) -> impl Iterator<Item = usize> + '_ {
        (0..self.run.steps.len()).filter(move |&place| self.run.steps[place].who == who)
    }

    /// The last step of a box that stopped. Scripts have no line for a stop: a
    /// box is drawn as stopped if it has no line after another's give-up.
    fn stopped_at(&self, who: usize) -> Option<usize> {
        let last = self.steps_of(who).last()?;
        let later = &self.run.steps[last + 1..];
        let given_up = later.iter().any(|step| step.event == Event::GiveUp);
        given_up.then_some(last)
    }

    /// A line above the first tick of each period.
    fn periods(&self) -> String {
        let steps = &self.run.steps;
        let earlier = |place: usize| steps[..place].iter().map(|step| step.period).max();
        let begins = |place: &usize| earlier(*place) < Some(steps[*place].period);
        let firsts = (0..steps.len()).filter(begins);
        firsts.map(|place| self.period(place)).collect()
    }

    fn period(&self, place: usize) -> String {
        let top = self.rows[place] - NEW_PERIOD + 4;
        let name = format!("period {}", self.run.steps[place].period);
        let line = svg::line((20, top), (self.width() - 20, top), "begins");
        line + &svg::text((20, top + 18), Side::Right, "period", &name)
    }

    fn boxes(&self) -> String {
        (1..=self.run.boxes).map(|who| self.one_box(who)).collect()
    }

    fn one_box(&self, who: usize) -> String {
        let (x, top) = (self.line_of(who), HEADS + HEAD_SIZE.1);
        let end = self.end_of(who);
        let mut out = svg::line((x, top), (x, end), "life");
        if end < self.bottom() {
            out += &svg::line((x, end), (x, self.bottom()), "gone");
        }
        out += &self.bars(who, top);
        out += &svg::rect((x - HEAD_SIZE.0 / 2, HEADS), HEAD_SIZE, 6, "head");
        out + &svg::text((x, HEADS + 20), Side::Middle, "name", &format!("box {who}"))
    }

    fn end_of(&self, who: usize) -> i32 {
        let stop = self.stopped_at(who).map(|place| self.rows[place] + STOP);
        stop.unwrap_or(self.bottom())
    }

    /// Bars over a lifeline where its box is a coordinator. Fresh boxes are in
    /// view 0 and normal mode.
    fn bars(&self, who: usize, top: i32) -> String {
        let fresh = (self.run.coordinator(0) == who).then_some("leads");
        let mut from = (top, fresh);
        let mut out = String::new();
        for place in self.steps_of(who) {
            out += &self.bar(who, from, self.rows[place]);
            from = (self.rows[place], self.role(&self.run.steps[place]));
        }
        out + &self.bar(who, from, self.end_of(who))
    }

    fn bar(&self, who: usize, (top, role): (i32, Option<&str>), end: i32) -> String {
        let corner = (self.line_of(who) - 5, top);
        role.map_or(String::new(), |class| {
            svg::rect(corner, (10, end - top), 0, class)
        })
    }

    fn role(&self, step: &Step) -> Option<&'static str> {
        match (self.run.leads(step), self.run.hears_estimates(step)) {
            (false, _) => None,
            (true, false) => Some("leads"),
            (true, true) => Some("hears"),
        }
    }

    fn marks(&self) -> String {
        let steps = (0..self.run.steps.len()).map(|place| self.mark(place));
        let boxes = (1..=self.run.boxes).filter_map(|who| self.stopped_at(who));
        steps.chain(boxes.map(|place| self.stop(place))).collect()
    }

    fn mark(&self, place: usize) -> String {
        let (x, y) = self.place_of(place);
        let step = &self.run.steps[place];
        let number = svg::text((38, y + 4), Side::Left, "script", &step.line.to_string());
        let line = svg::text((50, y + 4), Side::Right, "script", &step.text);
        number
            + &line
            + &match step.event {
                Event::Tick(_) => svg::line((x - 11, y), (x + 11, y), "tick"),
                Event::GiveUp => svg::dot((x, y), 7, "given-up"),
                Event::Deliver(_) => String::new(),
            }
    }

    fn stop(&self, place: usize) -> String {
        let (x, y) = self.place_of(place);
        let at = (x, y + STOP);
        svg::cross(at, 8, "stop")
            + &svg::text((x - 18, at.1 + 5), Side::Left, "red strong", "stops")
    }

    fn notes(&self) -> String {
        (0..self.run.steps.len())
            .map(|place| self.note(place))
            .collect()
    }

    fn note(&self, place: usize) -> String {
        let step = &self.run.steps[place];
        let ((x, y), side) = (self.place_of(place), self.side_of(place));
        let up = self.lifted(step);
        if let Some(command) = &step.command {
            let words = format!("command {command}");
            return svg::dot((x, y), 6, "badge") + &badge((x, y - up), side, &words);
        }
        let arrived = self.arriving(place).map(|frame| frame.kind);
        let note = notes::of_step(self.run, step, arrived);
        let class = match step.answer.starts_with('r') {
            true => "red",
            false => "",
        };
        let base = if note.second.is_empty() { y + 4 } else { y - 3 };
        written((x, base - up), side, &note, class)
    }

    /// Arrows leave a box amid others on both sides: its notes stand above them.
    fn lifted(&self, step: &Step) -> i32 {
        let amid = 1 < step.who && step.who < self.run.boxes;
        match step.event {
            Event::Deliver(_) if amid => 16,
            _ => 0,
        }
    }

    /// The frame that a step delivers.
    fn arriving(&self, place: usize) -> Option<&Frame> {
        let arrives = |frame: &&Frame| frame.arrivals.contains(&place);
        self.frames.iter().find(arrives)
    }

    /// Notes stand across from the arrow; those of box 1 in the left margin.
    fn side_of(&self, place: usize) -> Side {
        let who = self.run.steps[place].who;
        let from = self
            .arriving(place)
            .map(|frame| self.run.steps[frame.sent].who);
        match who == 1 || from.is_some_and(|from| who < from) {
            true => Side::Left,
            false => Side::Right,
        }
    }

    fn legend(&self) -> String {
        let (first, second) = (self.bottom() + 34, self.bottom() + 66);
        let says = |x: i32, y: i32, words: &str| svg::text((x, y), Side::Right, "", words);
        [
            svg::rect((20, first - 14), (10, 18), 0, "leads"),
            says(40, first, "coordinator in normal mode"),
            svg::rect((20, second - 14), (10, 18), 0, "hears"),
            says(40, second, "coordinator in view-change mode"),
            svg::line((306, first - 5), (328, first - 5), "tick"),
            says(338, first, "tick with readings"),
            svg::dot((317, second - 5), 7, "given-up"),
            says(338, second, "view given up"),
            svg::dot((500, first - 5), 6, "badge"),
            says(514, first, "decided"),
            says(494, second, "base v, k: base view v, base period k"),
            svg::line((606, first - 5), (650, first - 5), "lost Propose"),
            svg::cross((656, first - 5), 5, "loss"),
            says(668, first, "frame sent, never delivered"),
        ]
        .concat()
    }
}

pub fn moved((x, y): Point, side: Side, by: i32) -> Point {
    match side {
        Side::Left => (x - by, y),
        Side::Middle => (x, y),
        Side::Right => (x + by, y),
    }
}

fn written(at: Point, side: Side, note: &Note, class: &str) -> String {
    let (x, y) = moved(at, side, 16);
    let mut out = svg::text((x, y), side, class, &note.first);
    if !note.second.is_empty() {
        out += &svg::text((x, y + 17), side, class, &note.second);
    }
    out
}

/// A decided command.
fn badge((x, y): Point, side: Side, words: &str) -> String {
    let width = 9 * words.chars().count() as i32 + 28;
    let left = match side {
        Side::Right => x + 14,
        _ => x - 14 - width,
    };
    let shape = svg::rect((left, y - 12), (width, 24), 12, "badge");
    shape + &svg::text((left + width / 2, y + 5), Side::Middle, "badge-text", words)
}

#[cfg(test)]
mod tests {
    use crate::{chart, frames, run};

    fn drawn(script: &str, printed: &str) -> String {
        let printed = format!("no who answer k v vb kb x frame command\n{printed}");
        let run = run::read(script, &printed).unwrap();
        chart::draw("a < b", &run, &frames::sent(&run).unwrap())
    }

    #[test]
    fn commands_losses_and_labels_are_there() {
        let picture = drawn(
            "T 1 100\nT 2 102\nD 2 1\nD 1 3\nD 2 4\n",
            "1 1 ok 1 0 0 1 0 1 -\n2 2 ok 1 0 0 0 0 - -\n3 2 ok 1 0 0 1 0 3 -\n\
             4 1 ok 1 0 0 1 0 4 50\n5 2 ok 1 0 0 1 0 - 50\n",
        );
        assert_eq!(picture.matches(">command 50<").count(), 2);
        assert_eq!(picture.matches(">lost<").count(), 2);
        assert_eq!(picture.matches(">Ack, view 0, period 1<").count(), 1);
        assert_eq!(picture.matches("<title>a &lt; b</title>").count(), 1);
        assert!(!picture.contains("stops"));
    }

    #[test]
    fn a_box_with_no_line_after_a_give_up_has_stopped() {
        let picture = drawn(
            "T 1 1\nT 2 1\nG 2\n",
            "1 1 ok 1 0 0 1 0 1 -\n2 2 ok 1 0 0 0 0 - -\n3 2 ok 1 1 0 0 0 - -\n",
        );
        assert_eq!(picture.matches(">stops<").count(), 1);
        assert_eq!(picture.matches("class=\"hears\"").count(), 2);
    }

    #[test]
    fn a_frame_back_at_its_sender_has_no_label() {
        let picture = drawn(
            "T 1 1\nD 1 1\n",
            "1 1 ok 1 0 0 1 0 1 -\n2 1 r9 1 0 0 1 0 - -\n",
        );
        assert!(picture.contains(">refused by 9<"));
        assert!(!picture.contains("NaN") && !picture.contains("inf"));
    }
}
