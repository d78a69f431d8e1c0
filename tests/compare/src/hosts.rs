//! Hosts that break one of document 02's conditions each: the check of demand
//! 3 must find that the group no longer acts as one controller. Else it would
//! be blind.

mod history;
mod random;
mod shrink;
mod written;

use std::path::Path;
use std::{fmt, fs};

use history::{play, Condition, Entry};
use random::Random;
use shrink::Wrong;

use crate::demand3;
use crate::group::Group;
use crate::played;
use crate::prng::Prng;

/// So many histories are tried of each host.
const MOST_HISTORIES: usize = 5_000;

/// Of those that are wrong, so many are shrunk, and the shortest is kept.
const MOST_SHRUNK: usize = 40;

/// The conditions, with a name for a host that breaks each.
const HOSTS: [(&str, Condition); 5] = [
    ("sent-before-stored", Condition::StoredFirst),
    ("stored-out-of-order", Condition::InOrder),
    ("older-record-returned", Condition::LastReturned),
    ("stored-after-return", Condition::GoneAtStop),
    ("unstepped-after-ask", Condition::UnsteppedFirst),
];

/// Searches again; prints what was found. The error says which condition can
/// be broken unseen, or that it fails with all of them kept. Scripts go to a
/// folder, if there is one.
pub fn search(seed: u64, folder: Option<&str>) -> Result<(), String> {
    let group = Group::bench();
    let kept = (1..=MOST_HISTORIES).try_for_each(|number| {
        let prng = &mut Prng::of_script(seed, number);
        match Random::run(prng, group, None).history.violation() {
            Some(what) => Err(format!("history {number}, all conditions kept: {what}")),
            None => Ok(()),
        }
    });
    kept?;
    println!(
        "all conditions kept: none of {MOST_HISTORIES} histories of seed {seed} violates demand 3"
    );
    for (name, condition) in HOSTS {
        let found = Found::search(seed, condition);
        let shortest = found.shortest.as_ref();
        let shortest = shortest.ok_or_else(|| format!("{name}: demand 3 is never violated"))?;
        println!("\n{name}: {found}");
        for what in &shortest.unwritten {
            println!("not in the script: {what}");
        }
        println!("{}", shortest.input.trim_end());
        if let Some(folder) = folder {
            let path = Path::new(folder).join(format!("{name}.rig"));
            fs::write(&path, &shortest.input)
                .map_err(|error| format!("{}: {error}", path.display()))?;
        }
    }
    Ok(())
}

/// A history that breaks one condition, as a script.
struct Example {
    input: String,
    lines: usize,
    /// How often it breaks the condition.
    breaks: usize,
    unwritten: Vec<String>,
    what: String,
}

/// What came of the histories of one host.
struct Found {
    first: usize,
    violating: usize,
    shortest: Option<Example>,
}

impl Found {
    fn search(seed: u64, condition: Condition) -> Found {
        let group = Group::bench();
        let mut found = Found {
            first: 0,
            violating: 0,
            shortest: None,
        };
        for number in 1..=MOST_HISTORIES {
            let prng = &mut Prng::of_script(seed, number);
            let host = Random::run(prng, group, Some(condition));
            if host.history.differing.is_none() {
                continue;
            }
            found.violating += 1;
            if found.violating == 1 {
                found.first = number;
            }
            if found.violating <= MOST_SHRUNK {
                found.take(group, condition, &host.entries);
            }
        }
        found
    }

    /// Shrinks a history and keeps it if it is the shortest.
    fn take(&mut self, group: Group, condition: Condition, entries: &[Entry]) {
        let still = |entries: &[Entry]| wrong(group, condition, entries);
        let Some(wrong) = still(entries) else {
            return;
        };
        let example = Example::of(group, &shrink::shrunk(wrong, still));
        let size = |example: &Example| (example.breaks, example.lines);
        let known = self.shortest.as_ref().map(size);
        if known.is_none_or(|known| size(&example) < known) {
            self.shortest = Some(example);
        }
    }
}

impl fmt::Display for Found {
    fn fmt(&self, out: &mut fmt::Formatter<'_>) -> fmt::Result {
        let Some(shortest) = &self.shortest else {
            return write!(out, "nothing");
        };
        write!(
            out,
            "{} of {MOST_HISTORIES} histories, the first {}; shrunk to {} lines, {} break(s): {}",
            self.violating, self.first, shortest.lines, shortest.breaks, shortest.what
        )
    }
}

impl Example {
    fn of(group: Group, wrong: &Wrong) -> Example {
        let written = written::written(group.boxes.into(), &wrong.entries);
        let input = written.input(&group);
        let what = told(&group, &written.lines, &printed(&input));
        Example {
            input,
            lines: written.lines.len(),
            breaks: wrong.breaks,
            unwritten: written.unwritten,
            what: what.expect("a violation"),
        }
    }
}

/// Those of the entries for which there is what they name, if no condition but
/// this one is broken and two commands of one period differ, in the history
/// and in its script.
fn wrong(group: Group, condition: Condition, entries: &[Entry]) -> Option<Wrong> {
    let (history, entries) = play(group, entries);
    let breaks_others = history.broken.iter().any(|broken| *broken != condition);
    let differing = history.differing.as_deref()?;
    if breaks_others || !differing.contains("two commands") {
        return None;
    }
    let written = written::written(group.boxes.into(), &entries);
    let output = printed(&written.input(&group));
    let told = told(&group, &written.lines, &output)?;
    let is_same = written.is_of(&history, &output) && told == differing;
    is_same.then_some(Wrong {
        entries,
        breaks: history.broken.len(),
    })
}

/// What demand 3 has against a script, if anything.
fn told(group: &Group, lines: &[String], output: &[u8]) -> Option<String> {
    let lines: Vec<Vec<u8>> = lines.iter().map(|line| line.as_bytes().to_vec()).collect();
    demand3::check(group, played::Host::Storing, &lines, output).err()
}

/// What the second implementation's rig prints.
fn printed(input: &str) -> Vec<u8> {
    let mut output = Vec::new();
    second::script::rig(input.as_bytes(), &mut output).expect("reading and writing in memory");
    output
}

#[cfg(test)]
mod tests {
    use super::history::What;
    use super::*;
    use crate::leaving;

    const EXAMPLES: &str = concat!(env!("CARGO_MANIFEST_DIR"), "/../../docs/power-cycles");

    #[test]
    fn each_condition_is_missed_and_all_together_are_enough() {
        let group = Group::bench();
        let found = |breaks, number| {
            let prng = &mut Prng::of_script(9, number);
            let host = Random::run(prng, group, breaks);
            let broken = host.history.broken.clone();
            assert!(broken.iter().all(|broken| Some(*broken) == breaks));
            host.history.violation().is_some()
        };
        for (name, condition) in HOSTS {
            let mut numbers = 1..=MOST_HISTORIES;
            assert!(
                numbers.any(|number| found(Some(condition), number)),
                "{name}"
            );
        }
        assert!(!(1..=1_000).any(|number| found(None, number)));
    }

    /// Commits, records of asks that are returned and never committed, and
    /// records of the replica while something is asked.
    #[test]
    fn the_host_that_keeps_all_conditions_asks() {
        let mut met = [0; 3];
        for number in 1..=200 {
            let prng = &mut Prng::of_script(9, number);
            let entries = Random::run(prng, Group::bench(), None).entries;
            let is_ask = |number| {
                let made = entries.iter().find(|entry| entry.number == number);
                made.is_some_and(|entry| matches!(entry.what, What::Ask(_)))
            };
            let is_committed = |ask| entries.iter().any(|entry| entry.what == What::Commit(ask));
            for entry in &entries {
                match entry.what {
                    What::Commit(_) => met[0] += 1,
                    What::Return { record, .. } if is_ask(record) && !is_committed(record) => {
                        met[1] += 1;
                    }
                    What::Record => met[2] += 1,
                    _ => {}
                }
            }
        }
        assert!(met.iter().all(|&count| count > 50), "{met:?}");
    }

    /// The scripts kept in docs/ still lead to two commands of one period.
    #[test]
    fn kept_examples_violate_demand_3() {
        let readme = fs::read_to_string(Path::new(EXAMPLES).join("README.md")).unwrap();
        for (name, _) in HOSTS {
            let input = fs::read_to_string(Path::new(EXAMPLES).join(format!("{name}.rig")));
            let input = input.unwrap();
            let (first, lines) = input.split_once('\n').unwrap();
            assert_eq!(first, Group::bench().first_line());
            let lines: Vec<String> = lines.lines().map(str::to_string).collect();
            let what = told(&Group::bench(), &lines, &printed(&input)).unwrap();
            assert!(what.contains("two commands"), "{name}: {what}");
            assert!(readme.contains(&format!("{name}.rig")), "{name}");
        }
    }

    /// In a script each of them is a frame delivered that no `S` let leave, or
    /// the replica as it is stored after what was asked.
    #[test]
    fn kept_examples_break_a_condition() {
        for (name, _) in HOSTS {
            let input = fs::read_to_string(Path::new(EXAMPLES).join(format!("{name}.rig")));
            let input = input.unwrap();
            let lines = input.lines().skip(1).map(|line| line.as_bytes().to_vec());
            let lines: Vec<Vec<u8>> = lines.collect();
            let played = played::played(&lines, &printed(&input)).unwrap();
            assert!(leaving::conditions_kept(played::Host::Storing, &played).is_err());
        }
    }
}
