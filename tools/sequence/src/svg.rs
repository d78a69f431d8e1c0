//! The few elements of SVG that the chart is made of.

/// Where a text stands from its place.
#[derive(Clone, Copy, PartialEq, Eq)]
pub enum Side {
    Left,
    Middle,
    Right,
}

impl Side {
    fn anchor(self) -> &'static str {
        match self {
            Side::Left => "end",
            Side::Middle => "middle",
            Side::Right => "start",
        }
    }
}

pub type Point = (i32, i32);

pub fn opening((width, height): Point, title: &str, style: &str) -> String {
    let space = "http://www.w3.org/2000/svg";
    let size = format!("width=\"{width}\" height=\"{height}\" viewBox=\"0 0 {width} {height}\"");
    let title = escaped(title);
    format!("<svg xmlns=\"{space}\" {size} role=\"img\">\n<title>{title}</title>\n<style>\n{style}</style>\n")
}

pub fn text((x, y): Point, side: Side, class: &str, words: &str) -> String {
    let anchor = side.anchor();
    let words = escaped(words);
    format!("<text x=\"{x}\" y=\"{y}\" text-anchor=\"{anchor}\" class=\"{class}\">{words}</text>\n")
}

/// A text amid a slanted line, so far below the line.
pub fn slanted((x, y): (i32, f64), slope: f64, below: i32, class: &str, words: &str) -> String {
    let angle = slope.atan().to_degrees();
    let place = format!("translate({x} {y:.1}) rotate({angle:.1})");
    let words = escaped(words);
    format!("<text transform=\"{place}\" y=\"{below}\" text-anchor=\"middle\" class=\"{class}\">{words}</text>\n")
}

pub fn line((x1, y1): Point, (x2, y2): Point, class: &str) -> String {
    format!("<line x1=\"{x1}\" y1=\"{y1}\" x2=\"{x2}\" y2=\"{y2}\" class=\"{class}\"/>\n")
}

pub fn rect((x, y): Point, (width, height): Point, round: i32, class: &str) -> String {
    format!("<rect x=\"{x}\" y=\"{y}\" width=\"{width}\" height=\"{height}\" rx=\"{round}\" class=\"{class}\"/>\n")
}

pub fn dot((x, y): Point, radius: i32, class: &str) -> String {
    format!("<circle cx=\"{x}\" cy=\"{y}\" r=\"{radius}\" class=\"{class}\"/>\n")
}

pub fn cross((x, y): Point, half: i32, class: &str) -> String {
    let (left, right, top, bottom) = (x - half, x + half, y - half, y + half);
    format!("<path d=\"M{left} {top} L{right} {bottom} M{left} {bottom} L{right} {top}\" class=\"{class}\"/>\n")
}

/// The head of an arrow that comes from one point and ends at another.
pub fn head(from: Point, to: Point, class: &str) -> String {
    let (dx, dy) = (f64::from(to.0 - from.0), f64::from(to.1 - from.1));
    let length = dx.hypot(dy).max(1.0);
    let (ux, uy) = (dx / length, dy / length);
    let corner = |side: f64| {
        let x = f64::from(to.0) - 10.0 * ux - side * uy;
        let y = f64::from(to.1) - 10.0 * uy + side * ux;
        format!("{x:.1} {y:.1}")
    };
    let (a, b) = (corner(4.0), corner(-4.0));
    format!(
        "<path d=\"M{} {} L{a} L{b} Z\" class=\"{class}\"/>\n",
        to.0, to.1
    )
}

pub fn escaped(words: &str) -> String {
    words
        .replace('&', "&amp;")
        .replace('<', "&lt;")
        .replace('>', "&gt;")
}

#[cfg(test)]
mod tests {
    use super::*;

    #[test]
    fn words_are_escaped() {
        assert_eq!(escaped("a < b & c"), "a &lt; b &amp; c");
    }

    #[test]
    fn a_head_points_along_its_arrow() {
        let expected = "<path d=\"M30 0 L20.0 4.0 L20.0 -4.0 Z\" class=\"h\"/>\n";
        assert_eq!(head((0, 0), (30, 0), "h"), expected);
    }
}
