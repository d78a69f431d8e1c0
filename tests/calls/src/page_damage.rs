//! Shift pages whole and damaged, as bytes.

use second::page::{self, MOST_PERIODS, PAGE_AREA};

use crate::byte_damage as of_bytes;
use crate::line_damage as of_line;
use crate::page_areas::to_second;
use crate::page_columns::{Line, LINE, PERIOD};
use crate::page_lists::{entry, periods};
use crate::prng::Prng;

/// How a page is damaged.
#[derive(Clone, Copy)]
enum Way {
    /// Not at all.
    Whole,
    /// It is read for another p than it was written with.
    OtherP,
    /// One of its lines, for this p.
    Line(OfLine),
    Lines(fn(&mut Prng, Vec<Line>) -> Vec<Line>),
    Bytes(OfBytes),
}

type OfLine = fn(&mut Prng, usize, &mut Line);
type OfBytes = fn(&mut Prng, Vec<u8>) -> Vec<u8>;

pub struct Damage {
    pub name: &'static str,
    /// The fewest lines and the most of the page that is damaged.
    lines: [usize; 2],
    way: Way,
}

/// Every damage.
pub const DAMAGES: [Damage; 31] = [
    row("whole", [0, 60], Way::Whole),
    line("a digit changed", of_line::digit),
    line("a space changed", of_line::space),
    bytes("a space removed", of_bytes::remove_space),
    bytes("a space inserted", of_bytes::insert_space),
    bytes("a space moved", of_bytes::move_space),
    line("a number moved", of_line::move_number),
    row("a line lost", [1, 60], Way::Lines(lose_line)),
    row("two lines exchanged", [2, 60], Way::Lines(exchange)),
    row("a line doubled", [1, 59], Way::Lines(double)),
    row("a period not above another", [2, 60], Way::Lines(repeat)),
    line("a needless zero", of_line::zero),
    line("a plus sign", of_line::plus),
    line("a minus zero", of_line::minus_zero),
    line("a minus at a period or view", of_line::minus),
    line("the hyphen elsewhere, or twice", of_line::hyphen),
    line("the hyphen and more", of_line::hyphen_and_more),
    line("a hyphen for a command", of_line::hyphen_for_command),
    line("a command lost", of_line::lose_command),
    line("something behind the commands", of_line::behind),
    line("a number out of range", of_line::out_of_range),
    line("a line feed changed", of_line::line_feed),
    bytes("no line feed at the end", of_bytes::lose_end),
    bytes("a byte above 127", of_bytes::high_byte),
    bytes("bytes added", of_bytes::add),
    bytes("bytes cut off", of_bytes::cut_off),
    row("61 lines", [61, 61], Way::Whole),
    row("more lines", [62, 120], Way::Whole),
    bytes("nothing left", of_bytes::lose_all),
    row("whole for another p", [1, 60], Way::OtherP),
    row("noise", [0, 0], Way::Bytes(of_bytes::noise)),
];

const fn row(name: &'static str, lines: [usize; 2], way: Way) -> Damage {
    Damage { name, lines, way }
}

const fn line(name: &'static str, damage: OfLine) -> Damage {
    row(name, [1, 60], Way::Line(damage))
}

const fn bytes(name: &'static str, damage: OfBytes) -> Damage {
    row(name, [1, 60], Way::Bytes(damage))
}

/// A page as bytes, the p that it is for, and what was done to it: the place
/// in `DAMAGES`.
pub struct Made {
    pub damage: usize,
    pub p: usize,
    pub bytes: Vec<u8>,
}

impl Made {
    pub fn is_whole(&self) -> bool {
        self.damage == 0
    }
}

/// A page for this p, which is in range: one in four is whole.
pub fn make(prng: &mut Prng, p: usize) -> Made {
    let damage = match prng.chance(25) {
        true => 0,
        false => 1 + prng.below(DAMAGES.len() - 1),
    };
    let Damage { lines, way, .. } = DAMAGES[damage];
    let count = line_count(prng, lines);
    let lines = whole(prng, p, count);
    Made {
        damage,
        p: match way {
            Way::OtherP => 1 + (p + prng.below(3)) % 4,
            _ => p,
        },
        bytes: damaged(prng, way, p, lines),
    }
}

/// Often few or as many as may be.
fn line_count(prng: &mut Prng, [least, most]: [usize; 2]) -> usize {
    match prng.below(4) {
        0 => most,
        1 => least + prng.below(most - least + 1),
        _ => most.min(least + prng.below(5)),
    }
}

/// The lines of so many periods, as the second implementation writes them; no
/// page has more than 60.
fn whole(prng: &mut Prng, p: usize, count: usize) -> Vec<Line> {
    let mut periods = periods(prng, count);
    periods.sort_unstable();
    let decided = prng.pick(&[0, 50, 80, 80, 100]);
    let entries = periods.iter().map(|&period| entry(prng, period, decided));
    let entries: Vec<page::Entry> = entries.map(|entry| to_second(&entry)).collect();
    let mut lines = vec![];
    for entries in entries.chunks(MOST_PERIODS) {
        let mut area = [0; PAGE_AREA];
        let length = page::write(p, entries, &mut area).expect("nothing to refuse");
        lines.extend(area[..length].as_chunks::<LINE>().0);
    }
    lines
}

fn damaged(prng: &mut Prng, way: Way, p: usize, mut lines: Vec<Line>) -> Vec<u8> {
    match way {
        Way::Whole | Way::OtherP => lines.concat(),
        Way::Line(damage) => {
            let at = prng.below(lines.len());
            damage(prng, p, &mut lines[at]);
            lines.concat()
        }
        Way::Lines(damage) => damage(prng, lines).concat(),
        Way::Bytes(damage) => damage(prng, lines.concat()),
    }
}

/// What is left is the page of the others.
fn lose_line(prng: &mut Prng, mut lines: Vec<Line>) -> Vec<Line> {
    lines.remove(prng.below(lines.len()));
    lines
}

/// The places of two lines: neighbours, or any two.
fn two_of(prng: &mut Prng, lines: &[Line]) -> (usize, usize) {
    let later = 1 + prng.below(lines.len() - 1);
    match prng.chance(50) {
        true => (later - 1, later),
        false => (prng.below(later), later),
    }
}

fn exchange(prng: &mut Prng, mut lines: Vec<Line>) -> Vec<Line> {
    let (earlier, later) = two_of(prng, &lines);
    lines.swap(earlier, later);
    lines
}

/// Beside itself, or anywhere.
fn double(prng: &mut Prng, mut lines: Vec<Line>) -> Vec<Line> {
    let at = prng.below(lines.len());
    let to = match prng.chance(50) {
        true => at,
        false => prng.below(lines.len() + 1),
    };
    lines.insert(to, lines[at]);
    lines
}

/// A line has the period of one before it, and all else of its own.
fn repeat(prng: &mut Prng, mut lines: Vec<Line>) -> Vec<Line> {
    let (earlier, later) = two_of(prng, &lines);
    let before = lines[earlier];
    lines[later][PERIOD].copy_from_slice(&before[PERIOD]);
    lines
}

#[cfg(test)]
mod tests {
    use super::*;
    use crate::values::commands;

    /// Those that may leave a page, and those that must.
    const PERHAPS: [&str; 6] = [
        "a digit changed",
        "a space changed",
        "a space moved",
        "a hyphen for a command",
        "bytes cut off",
        "whole for another p",
    ];
    const HARMLESS: [&str; 3] = ["whole", "a line lost", "nothing left"];

    #[test]
    fn every_other_damage_is_refused() {
        let mut prng = Prng::new(2);
        let mut left = [[0; 2]; DAMAGES.len()];
        for _ in 0..30_000 {
            let p = commands(&mut prng);
            let made = make(&mut prng, p);
            let read = page::read(made.p, &made.bytes).is_ok();
            left[made.damage][usize::from(read)] += 1;
        }
        for (damage, [refused, read]) in DAMAGES.iter().zip(left) {
            let name = damage.name;
            assert_eq!(refused > 0, !HARMLESS.contains(&name), "{name}");
            let may_be_read = HARMLESS.contains(&name) || PERHAPS.contains(&name);
            assert_eq!(read > 0, may_be_read, "{name}");
        }
    }
}
