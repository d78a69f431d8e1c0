//! Compares frames, law calls, conversions of readings, steps, shift pages and
//! calls on records and on replicas with tickets of the first implementation,
//! through its static libraries `winder` and `steps`, with the second
//! implementation of document 01; and what is read of frames, and what calls on
//! records leave, with stored digests.

#![forbid(unsafe_code)]

mod areas;
mod byte_damage;
#[cfg(test)]
mod commands;
mod counterpart;
mod damage;
mod digest;
mod digest_lines;
mod digests;
mod draft;
mod events;
mod faults;
mod field_damage;
mod first;
mod frames;
mod handed_in;
mod handed_readings;
mod issued;
mod law;
mod law_call;
mod law_marks;
mod law_sums;
mod line_damage;
mod list_counts;
mod listed_singles;
mod lists;
mod page_areas;
mod page_calls;
mod page_columns;
mod page_damage;
mod page_lists;
mod pages;
#[path = "../../compare/src/prng.rs"]
mod prng;
mod quorum_bytes;
mod quorum_pairs;
mod quorum_reach;
mod quorums;
mod reach;
mod record_calls;
mod record_counts;
mod record_damage;
mod record_digests;
mod record_events;
mod record_group;
mod record_layout;
mod record_tables;
mod records;
mod report;
#[path = "../../compare/src/single_bits.rs"]
mod single_bits;
mod singles;
mod step_areas;
mod step_counts;
mod step_tables;
mod steps;
mod ticket_box;
mod ticket_calls;
mod ticket_counts;
mod ticket_damage;
mod ticket_damage_counts;
mod ticket_events;
mod ticket_group;
mod ticket_layout;
mod ticket_lent;
mod ticket_tables;
mod ticket_writes;
mod tickets;
mod traffic;
mod values;

use std::fmt::Display;
use std::process::ExitCode;
use std::{env, str::FromStr};

const USAGE: &str = "usage:
  calls frames COUNT SEED
  calls digests COUNT SEED [FILE]
  calls law COUNT SEED
  calls singles COUNT SEED
  calls singles all
  calls steps COUNT SEED
  calls lists COUNT SEED
  calls pages COUNT SEED
  calls records COUNT SEED
  calls record-digests COUNT SEED [FILE]
  calls tickets COUNT SEED
  calls faults SEED
  calls search frames|law|singles|steps|lists|pages|records|tickets SEED

The last is for this program's own use, with a fault planted.";

fn main() -> ExitCode {
    let words: Vec<String> = env::args().skip(1).collect();
    let words: Vec<&str> = words.iter().map(String::as_str).collect();
    match run(&words) {
        Ok(()) => ExitCode::SUCCESS,
        Err(what) => {
            eprintln!("{what}");
            ExitCode::FAILURE
        }
    }
}

fn run(words: &[&str]) -> Result<(), String> {
    match words {
        ["frames", count, seed] => compare("frames", frames::compare, count, seed),
        ["digests", count, seed] => digests::print(number(count)?, number(seed)?),
        ["digests", count, seed, file] => digests::compare(number(count)?, number(seed)?, file),
        ["law", count, seed] => compare("law calls", law::compare, count, seed),
        ["singles", "all"] => singles::compare_all(),
        ["singles", count, seed] => compare("single conversions", singles::compare, count, seed),
        ["steps", count, seed] => counted("steps", steps::compare, count, seed)?.check(),
        ["lists", count, seed] => compare("lists", lists::compare, count, seed),
        ["pages", count, seed] => compare("pages", pages::compare, count, seed),
        ["records", count, seed] => {
            counted("calls on records", records::compare, count, seed)?.check()
        }
        ["record-digests", count, seed] => record_digests::print(number(count)?, number(seed)?),
        ["record-digests", count, seed, file] => {
            record_digests::compare(number(count)?, number(seed)?, file)
        }
        ["tickets", count, seed] => counted(
            "calls on replicas with tickets",
            tickets::compare,
            count,
            seed,
        )?
        .check(),
        ["faults", seed] => faults::table(number(seed)?),
        ["search", calls, seed] => {
            second::fault::plant_from_environment()?;
            faults::search(calls, number(seed)?)
        }
        _ => Err(USAGE.to_string()),
    }
}

/// Runs the comparison for each number up to the count and prints what
/// occurred. The error says what differs first.
fn compare<C: Default + Display>(
    what: &str,
    compare_one: fn(u64, usize, &mut C) -> Result<(), String>,
    count: &str,
    seed: &str,
) -> Result<(), String> {
    counted(what, compare_one, count, seed).map(drop)
}

/// The same, and gives what was counted.
fn counted<C: Default + Display>(
    what: &str,
    compare_one: fn(u64, usize, &mut C) -> Result<(), String>,
    count: &str,
    seed: &str,
) -> Result<C, String> {
    let (count, seed) = (number(count)?, number(seed)?);
    let mut counts = C::default();
    for number in 1..=count {
        compare_one(seed, number, &mut counts)
            .map_err(|difference| format!("seed {seed}, number {number}: {difference}"))?;
    }
    print!("{count} {what} of seed {seed}: no difference\n{counts}");
    Ok(counts)
}

fn number<T: FromStr>(word: &str) -> Result<T, String> {
    word.parse()
        .map_err(|_| format!("{word}: no number\n{USAGE}"))
}
