//! What the compared lists of entries reach.

use std::fmt;

use second::page::{MOST_PERIODS, PAGE_AREA};

use crate::page_areas::Entry;
use crate::page_calls::Writing;
#[cfg(test)]
use crate::report::met;
use crate::report::{write_answers, write_row, Answers};

/// A list, and its entries by period, in the order in which they were given.
struct Listed<'a> {
    call: &'a Writing,
    periods: Vec<Vec<Entry>>,
}

type ListTest = fn(&Listed) -> bool;

/// Those that more than one number would refuse: the lower one comes first.
const GROUNDS: [(&str, ListTest); 3] = [
    ("2 and 13", |list| list.outside() && list.short()),
    ("2 and 14", |list| list.outside() && list.crowded()),
    ("13 and 14", |list| list.short() && list.crowded()),
];

/// What was handed, refused or not.
const HANDED: [(&str, ListTest); 14] = [
    ("as words", |list| list.call.left_over.is_some()),
    ("with words left over", |list| list.left_over() > 0),
    ("with a mark above 1", |list| {
        list.any_entry(|entry| entry.decided > 1)
    }),
    ("no entry", |list| list.periods.is_empty()),
    ("1 to 58 periods", |list| {
        (1..=58).contains(&list.periods.len())
    }),
    ("59 periods", |list| list.periods.len() == 59),
    ("60 periods", |list| list.periods.len() == 60),
    ("61 periods", |list| list.periods.len() == 61),
    ("62 periods", |list| list.periods.len() == 62),
    ("more periods", |list| list.periods.len() > 62),
    ("100 entries or more", |list| list.call.entries.len() >= 100),
    ("periods never fall", |list| list.goes(|a, b| a <= b)),
    ("periods never rise", |list| list.goes(|a, b| a >= b)),
    ("an area of 4379 bytes", |list| {
        list.call.lent == PAGE_AREA - 1
    }),
];

/// What occurs where nothing is refused. Of the entries of one period the
/// first with a command stands, else the first.
const DONE: [(&str, ListTest); 9] = [
    ("an area of 4380 bytes", |list| list.call.lent == PAGE_AREA),
    ("equal periods", |list| list.any_period(|of| of.len() > 1)),
    ("one without a command gave way", |list| {
        list.any_period(|of| !is_decided(&of[0]) && of.iter().any(is_decided))
    }),
    ("the first of several commands stood", |list| {
        list.any_period(|of| of.iter().filter(|&entry| is_decided(entry)).count() > 1)
    }),
    ("one without a command came too late", |list| {
        list.any_period(|of| of.iter().skip_while(|&entry| !is_decided(entry)).any(lacks))
    }),
    ("the first of several without stood", |list| {
        list.any_period(|of| of.len() > 1 && of.iter().all(lacks))
    }),
    ("the largest period", |list| {
        list.any_line(|entry| entry.period == u32::MAX)
    }),
    ("the largest view", |list| {
        list.any_line(|entry| entry.view == u32::MAX)
    }),
    ("the lowest value", |list| {
        let p = list.call.p;
        list.any_line(|entry| is_decided(entry) && entry.command[..p].contains(&i32::MIN))
    }),
];

#[derive(Debug, Default)]
pub struct Counts {
    answers: Answers,
    grounds: [usize; GROUNDS.len()],
    handed: [usize; HANDED.len()],
    done: [usize; DONE.len()],
    /// Of pages written and read back.
    lines: usize,
    full_pages: usize,
}

fn is_decided(entry: &Entry) -> bool {
    entry.decided != 0
}

fn lacks(entry: &Entry) -> bool {
    entry.decided == 0
}

impl Listed<'_> {
    fn new(call: &Writing) -> Listed<'_> {
        let mut entries = call.entries.clone();
        // The order of those that are equal is kept.
        entries.sort_by_key(|entry| entry.period);
        let periods = entries.chunk_by(|a, b| a.period == b.period);
        Listed {
            call,
            periods: periods.map(<[Entry]>::to_vec).collect(),
        }
    }

    fn outside(&self) -> bool {
        !(1..=4).contains(&self.call.p)
    }

    fn short(&self) -> bool {
        self.call.lent < PAGE_AREA
    }

    fn crowded(&self) -> bool {
        self.periods.len() > MOST_PERIODS
    }

    fn left_over(&self) -> usize {
        self.call.left_over.as_ref().map_or(0, Vec::len)
    }

    fn any_entry(&self, test: impl Fn(&Entry) -> bool) -> bool {
        self.call.entries.iter().any(test)
    }

    fn any_period(&self, test: impl Fn(&[Entry]) -> bool) -> bool {
        self.periods.iter().any(|of| test(of))
    }

    /// Of those that stand on the page.
    fn any_line(&self, test: impl Fn(&Entry) -> bool) -> bool {
        self.any_period(|of| test(of.iter().find(|&entry| is_decided(entry)).unwrap_or(&of[0])))
    }

    /// Whether there are two entries or more, and the periods of any two
    /// neighbours are such.
    fn goes(&self, test: fn(u32, u32) -> bool) -> bool {
        let mut neighbours = self.call.entries.windows(2);
        neighbours.len() > 0 && neighbours.all(|pair| test(pair[0].period, pair[1].period))
    }
}

impl Counts {
    pub fn count(&mut self, call: &Writing, answer: u32) {
        let list = Listed::new(call);
        self.answers[answer as usize] += 1;
        count_each(&mut self.grounds, &GROUNDS, &list);
        count_each(&mut self.handed, &HANDED, &list);
        if answer == 0 {
            count_each(&mut self.done, &DONE, &list);
        }
    }

    pub fn count_lines(&mut self, lines: usize) {
        self.lines += lines;
        self.full_pages += usize::from(lines == MOST_PERIODS);
    }

    /// Whether each answer that writing can come to and each row was met.
    #[cfg(test)]
    pub fn are_everywhere(&self) -> bool {
        let rows = [&self.grounds[..], &self.handed, &self.done];
        met(&self.answers) == [0, 2, 13, 14]
            && self.full_pages > 0
            && rows.concat().iter().all(|&count| count > 0)
    }
}

/// Counts a list in each row of a table that it is of.
fn count_each(counts: &mut [usize], rows: &[(&str, ListTest)], list: &Listed) {
    for (count, (_, test)) in counts.iter_mut().zip(rows) {
        *count += usize::from(test(list));
    }
}

fn write_table(
    out: &mut fmt::Formatter<'_>,
    title: &str,
    rows: &[(&str, ListTest)],
    counts: &[usize],
) -> fmt::Result {
    writeln!(out, "{title}")?;
    for ((name, _), &count) in rows.iter().zip(counts) {
        write_row(out, &format!("  {name}"), count)?;
    }
    Ok(())
}

impl fmt::Display for Counts {
    fn fmt(&self, out: &mut fmt::Formatter<'_>) -> fmt::Result {
        write_answers(out, "lists", &self.answers)?;
        write_table(
            out,
            "that two numbers would refuse",
            &GROUNDS,
            &self.grounds,
        )?;
        write_table(out, "what was handed", &HANDED, &self.handed)?;
        write_table(out, "of those done", &DONE, &self.done)?;
        write_row(out, "  60 lines", self.full_pages)?;
        write_row(out, "lines read back", self.lines)
    }
}
