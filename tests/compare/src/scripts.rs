//! The comparison of the two implementations on generated scripts.

use std::path::PathBuf;
use std::{env, fmt, fs};

use crate::counts::Counts;
use crate::demand3::{self, Checked};
use crate::generator::{self, Script};
use crate::leaving;
use crate::played;
use crate::run::{library, Programs};

/// What is compared: the first implementation with the second, which is run
/// in this process unless its programs are named.
pub struct Sides {
    pub first: Programs,
    pub second: Option<Programs>,
}

/// Runs and compares; prints the counts. The error says what differs first.
pub fn compare(count: usize, seed: u64, sides: &Sides) -> Result<(), String> {
    let mut counts = Counts::default();
    let mut tally = Tally::default();
    for number in 1..=count {
        let before = counts.malformed;
        let script = generator::script(seed, number, &mut counts);
        let malformed = counts.malformed - before;
        let output = agreed_output(sides, &script);
        let output = output.and_then(|output| match counts.marks.otherwise {
            0 => Ok(output),
            _ => Err("a command is not marked as the law's formulas have it".to_string()),
        });
        let checked = output.and_then(|output| match &script.lines {
            Some(lines) => tally.check(&script, lines, &output, malformed),
            None => {
                counts.refused_first_line(&output);
                Ok(())
            }
        });
        checked.map_err(|what| failure(seed, number, &script, &what))?;
    }
    println!("{count} scripts of seed {seed}: no difference");
    print!("{counts}{tally}");
    Ok(())
}

/// What both implementations print.
fn agreed_output(sides: &Sides, script: &Script) -> Result<Vec<u8>, String> {
    let first = sides.first.run(script)?;
    let second = match &sides.second {
        Some(programs) => programs.run(script)?,
        None => library(script),
    };
    match first_difference(&first, &second) {
        Some(what) => Err(what),
        None => Ok(first),
    }
}

/// What the check of demand 3 came to over a run.
#[derive(Default)]
struct Tally {
    scripts: usize,
    periods: Checked,
}

impl Tally {
    fn check(
        &mut self,
        script: &Script,
        lines: &[Vec<u8>],
        output: &[u8],
        malformed: usize,
    ) -> Result<(), String> {
        if bad_rows(output) != malformed {
            return Err(format!("not {malformed} malformed lines, as counted"));
        }
        let played = played::played(lines, output)?;
        leaving::conditions_kept(script.host, &played)?;
        let checked = demand3::check(&script.group, script.host, lines, output);
        let checked = checked.map_err(|what| format!("demand 3: {what}"))?;
        self.scripts += 1;
        self.periods.decided_periods += checked.decided_periods;
        self.periods.searched_periods += checked.searched_periods;
        self.periods.missed_somewhere += checked.missed_somewhere;
        self.periods.missed_needed += checked.missed_needed;
        self.periods.marks_told_apart += checked.marks_told_apart;
        Ok(())
    }
}

impl fmt::Display for Tally {
    fn fmt(&self, out: &mut fmt::Formatter<'_>) -> fmt::Result {
        let named = [
            ("demand 3: scripts checked", self.scripts),
            ("  decided periods", self.periods.decided_periods),
            ("  of these, searched", self.periods.searched_periods),
            (
                "  with a missed period's row",
                self.periods.missed_somewhere,
            ),
            ("  that need one", self.periods.missed_needed),
            (
                "  with a row of another mark",
                self.periods.marks_told_apart,
            ),
        ];
        for (name, count) in named {
            writeln!(out, "{name:<34}{count:>9}")?;
        }
        Ok(())
    }
}

/// The generator counts its malformed lines; both must agree on them.
fn bad_rows(output: &[u8]) -> usize {
    let rows = output.split(|&byte| byte == b'\n');
    rows.filter(|row| row.ends_with(b" bad")).count()
}

fn first_difference(first: &[u8], second: &[u8]) -> Option<String> {
    if first == second {
        return None;
    }
    let rows = |output: &[u8]| -> Vec<String> {
        let rows = output.split_inclusive(|&byte| byte == b'\n');
        rows.map(|row| format!("{:?}", String::from_utf8_lossy(row)))
            .collect()
    };
    let (first, second) = (rows(first), rows(second));
    let at = (0..).find(|&at| first.get(at) != second.get(at))?;
    let shown = |rows: &[String]| rows.get(at).cloned().unwrap_or("nothing".to_string());
    Some(format!(
        "row {} differs\n  first:  {}\n  second: {}",
        at + 1,
        shown(&first),
        shown(&second)
    ))
}

/// Keeps the script and says where.
fn failure(seed: u64, number: usize, script: &Script, what: &str) -> String {
    let program = if script.is_rig { "rig" } else { "bench" };
    let path = saved_path(seed, number, program);
    let saved = match fs::write(&path, &script.input) {
        Ok(()) => path.display().to_string(),
        Err(error) => format!("not saved: {error}"),
    };
    format!("seed {seed}, script {number} for {program} ({saved}): {what}")
}

fn saved_path(seed: u64, number: usize, program: &str) -> PathBuf {
    env::temp_dir().join(format!("compare-{seed}-{number}.{program}"))
}

#[cfg(test)]
mod tests {
    use super::*;

    #[test]
    fn differences_are_told_by_row() {
        assert_eq!(first_difference(b"a\nb\n", b"a\nb\n"), None);
        let told = first_difference(b"a\nb\n", b"a\nc\n").unwrap();
        assert!(told.starts_with("row 2 differs"), "{told}");
        let told = first_difference(b"a\n", b"a\nc\n").unwrap();
        assert!(told.contains("first:  nothing"), "{told}");
        // A line feed that is missing at the end is a difference too.
        assert!(first_difference(b"a", b"a\n").is_some());
    }

    #[test]
    fn the_library_passes_its_own_check() {
        for number in 1..=100 {
            let script = generator::script(11, number, &mut Counts::default());
            if let Some(lines) = &script.lines {
                assert!((200..=503).contains(&lines.len()));
                let output = library(&script);
                let played = played::played(lines, &output).unwrap();
                leaving::conditions_kept(script.host, &played).unwrap();
                demand3::check(&script.group, script.host, lines, &output).unwrap();
            }
        }
    }
}
