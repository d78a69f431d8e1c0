//! The comparison of the programs `page` on what generated scripts print, whole
//! and with damaged lines.

mod stars;

use std::process::{Command, Stdio};
use std::{fmt, thread};

use second::printed;

use crate::counts::Counts;
use crate::generator;
use crate::prng::Prng;
use crate::run::{library, talk};
use stars::Stars;

/// So many lines are looked at by the first implementation; the second has no
/// such limit.
const MOST_LINES: usize = 501;

/// Runs and compares; prints the counts. The error says what differs first.
pub fn compare(count: usize, seed: u64, page: &str) -> Result<(), String> {
    let mut tally = Tally::default();
    for number in 1..=count {
        let mut prng = Prng::of_script(seed, number);
        let script = generator::script(seed, number, &mut Counts::default());
        let mut text = library(&script);
        if prng.chance(60) {
            text = damaged(&text, &mut prng);
        }
        let found = printed::pages(&text);
        let said = said(found.1);
        if program(page, &text)? != (found.0.clone(), said) {
            return Err(format!(
                "seed {seed}, text {number}: the pages, or what is said, differ"
            ));
        }
        tally.count(&found);
        tally.count_asks(&text);
        tally.stars.count(&text);
    }
    print!("{count} texts of seed {seed}: no difference\n{tally}");
    Ok(())
}

/// What is said on standard error.
fn said(passed_over: usize) -> Vec<u8> {
    match passed_over {
        0 => Vec::new(),
        count => format!("page: lines passed over: {count}\n").into_bytes(),
    }
}

/// What the program writes to standard output and standard error.
fn program(page: &str, text: &[u8]) -> Result<(Vec<u8>, Vec<u8>), String> {
    let failed = |what: String| format!("{page}: {what}");
    let mut child = Command::new(page)
        .stdin(Stdio::piped())
        .stdout(Stdio::piped())
        .stderr(Stdio::piped())
        .spawn()
        .map_err(|error| failed(error.to_string()))?;
    let mut from_error = child.stderr.take().ok_or("no standard error")?;
    let (output, error) = thread::scope(|scope| {
        let error = scope.spawn(move || {
            let mut said = Vec::new();
            std::io::Read::read_to_end(&mut from_error, &mut said).map(|_| said)
        });
        (talk(&mut child, text), error.join())
    });
    let status = child.wait().map_err(|error| failed(error.to_string()))?;
    if !status.success() {
        return Err(failed(status.to_string()));
    }
    let error = error.map_err(|_| failed("no standard error".to_string()))?;
    Ok((
        output.map_err(failed)?,
        error.map_err(|error| failed(error.to_string()))?,
    ))
}

/// The text with some of its lines damaged.
fn damaged(text: &[u8], prng: &mut Prng) -> Vec<u8> {
    let mut lines: Vec<Vec<u8>> = text
        .split(|&byte| byte == b'\n')
        .map(<[u8]>::to_vec)
        .collect();
    lines.pop();
    stars::misplace(&mut lines, &mut prng.apart());
    for _ in 0..1 + prng.below(20) {
        let at = prng.below(lines.len());
        damage(&mut lines[at], prng);
    }
    if prng.chance(20) {
        prng.shuffle(&mut lines);
    }
    lines.truncate(MOST_LINES);
    let mut whole = lines.join(&b'\n');
    if prng.chance(80) {
        whole.push(b'\n');
    }
    whole
}

/// Words that a line may have in place of one of its own: in form or range they
/// are at an edge, or beyond it.
const WORDS: [&str; 33] = [
    "-",
    "?",
    "ok",
    "ignored",
    "bad",
    "r12",
    "r13",
    "r15",
    "r16",
    "r17",
    "r18",
    "r19",
    "r0",
    "0",
    "1",
    "9",
    "10",
    "500",
    "501",
    "01",
    "4294967295",
    "4294967296",
    "18446744073709551615",
    "18446744073709551616",
    "018446744073709551615",
    "-1",
    "-0",
    "+1",
    "2147483647,-2147483648",
    "2147483648",
    "1,2,3,4,5",
    "7*",
    "1,2*",
];

/// Changes a line in one way.
fn damage(line: &mut Vec<u8>, prng: &mut Prng) {
    let at = prng.below(line.len() + 1);
    match prng.below(8) {
        0 => line.insert(at, prng.pick(b" ,-*01r\t\r")),
        1 if at < line.len() => drop(line.remove(at)),
        2 if at < line.len() => line[at] = prng.next() as u8 | 1,
        3 => line.push(b'*'),
        4 => line.clear(),
        5 => change_ticket(line, prng),
        _ => replace_field(line, prng),
    }
}

/// An ask's line is one of eleven fields: the last is lost, or there is one
/// more.
fn change_ticket(line: &mut Vec<u8>, prng: &mut Prng) {
    let last = line.iter().rposition(|&byte| byte == b' ');
    match (last, prng.chance(50)) {
        (Some(last), true) => line.truncate(last),
        _ => {
            line.push(b' ');
            line.extend(prng.pick(&WORDS).as_bytes());
        }
    }
}

fn replace_field(line: &mut Vec<u8>, prng: &mut Prng) {
    let mut fields: Vec<&[u8]> = line.split(|&byte| byte == b' ').collect();
    let at = prng.below(fields.len());
    fields[at] = prng.pick(&WORDS).as_bytes();
    *line = fields.join(&b' ');
}

#[derive(Default)]
struct Tally {
    empty: usize,
    several: usize,
    lines: usize,
    passed: usize,
    passed_over: usize,
    asking: usize,
    asks: usize,
    refused_commits: usize,
    stars: Stars,
}

impl Tally {
    /// Lines of eleven fields, damaged ones too, and commits refused.
    fn count_asks(&mut self, text: &[u8]) {
        let asks = fields(text).filter(|fields| fields.len() == 11).count();
        let refused = fields(text).filter(|fields| fields.get(2) == Some(&&b"r17"[..]));
        self.asking += usize::from(asks > 0);
        self.asks += asks;
        self.refused_commits += refused.count();
    }

    fn count(&mut self, (pages, passed_over): &(Vec<u8>, usize)) {
        self.empty += usize::from(pages.is_empty());
        self.several += usize::from(pages.contains(&12));
        self.lines += pages.len() / 73;
        self.passed += usize::from(*passed_over > 0);
        self.passed_over += passed_over;
    }
}

/// The fields of each line.
fn fields(text: &[u8]) -> impl Iterator<Item = Vec<&[u8]>> {
    let lines = text.split(|&byte| byte == b'\n');
    lines.map(|line| line.split(|&byte| byte == b' ').collect())
}

impl fmt::Display for Tally {
    fn fmt(&self, out: &mut fmt::Formatter<'_>) -> fmt::Result {
        let named = [
            ("texts without an entry", self.empty),
            ("texts of more than one page", self.several),
            ("lines of pages", self.lines),
            ("texts with lines passed over", self.passed),
            ("  such lines", self.passed_over),
            ("texts with lines of eleven fields", self.asking),
            ("  such lines", self.asks),
            ("lines with r17", self.refused_commits),
        ];
        for (name, count) in named {
            writeln!(out, "{name:<34}{count:>9}")?;
        }
        write!(out, "{}", self.stars)
    }
}
