//! Compares the first implementation's programs `bench`, `rig` and `page` with
//! the second implementation of documents 01 and 02, on generated scripts.

#![forbid(unsafe_code)]

mod behind;
mod clamps;
mod command;
mod counts;
mod decision;
mod demand3;
mod faults;
mod generator;
mod group;
mod hosts;
mod leaving;
mod malformed;
mod pages;
mod past;
mod played;
mod prng;
mod quorums;
mod run;
mod scripts;
mod single_bits;
mod station;
mod stops;
mod words;
mod writer;

use std::io::{self, BufWriter, Write};
use std::process::ExitCode;
use std::{env, str::FromStr};

use run::Programs;

const USAGE: &str = "usage:
  compare scripts COUNT SEED BENCH RIG [SECOND_DIR]
  compare pages COUNT SEED PAGE
  compare faults SEED [SECOND_DIR]
  compare hosts SEED [FOLDER]
  compare second bench|rig
  compare search SEED

BENCH, RIG and PAGE are the first implementation's programs. SECOND_DIR is a folder
with the second's programs; without it this program stands in for them. FOLDER
gets the scripts that `hosts` finds. The last two are for this program's own use, with a fault planted.";

fn main() -> ExitCode {
    let words: Vec<String> = env::args().skip(1).collect();
    let words: Vec<&str> = words.iter().map(String::as_str).collect();
    match run(&words) {
        Ok(()) => ExitCode::SUCCESS,
        Err(what) => {
            eprintln!("{what}");
            ExitCode::FAILURE
        }
    }
}

fn run(words: &[&str]) -> Result<(), String> {
    match words {
        ["scripts", count, seed, bench, rig, second @ ..] if second.len() < 2 => {
            let sides = scripts::Sides {
                first: Programs::at(bench, rig),
                second: second.first().map(|folder| Programs::within(folder)),
            };
            scripts::compare(number(count)?, number(seed)?, &sides)
        }
        ["pages", count, seed, page] => pages::compare(number(count)?, number(seed)?, page),
        ["faults", seed] => found(faults::table(number(seed)?, Programs::own)?),
        ["faults", seed, folder] => {
            let second = || Ok(Programs::within(folder));
            found(faults::table(number(seed)?, second)?)
        }
        ["hosts", seed, folder @ ..] if folder.len() < 2 => {
            hosts::search(number(seed)?, folder.first().copied())
        }
        ["second", program] => second_program(program),
        ["search", seed] => search(number(seed)?),
        _ => Err(USAGE.to_string()),
    }
}

fn search(seed: u64) -> Result<(), String> {
    second::fault::plant_from_environment()?;
    match faults::own_search(seed) {
        Some(number) => println!("{number}"),
        None => println!("none"),
    }
    Ok(())
}

fn number<T: FromStr>(word: &str) -> Result<T, String> {
    word.parse()
        .map_err(|_| format!("{word}: no number\n{USAGE}"))
}

fn found(all: bool) -> Result<(), String> {
    match all {
        true => Ok(()),
        false => Err("a planted fault was not found".to_string()),
    }
}

/// The second implementation's program, with the fault that the environment
/// names.
fn second_program(program: &str) -> Result<(), String> {
    second::fault::plant_from_environment()?;
    let mut output = BufWriter::new(io::stdout().lock());
    let input = io::stdin().lock();
    let result = match program {
        "bench" => second::script::bench(input, &mut output),
        "rig" => second::script::rig(input, &mut output),
        _ => return Err(USAGE.to_string()),
    };
    let result = result.and_then(|()| output.flush());
    result.map_err(|error| error.to_string())
}
