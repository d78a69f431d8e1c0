//! Whether the comparison finds faults planted in the second implementation,
//! and how soon.

use std::env;
use std::process::Command;

use second::fault::{Fault, CALL_NAMES, FRAME_NAMES, LAW_MARK_NAMES, LAW_NAMES, MARK_NAMES};
use second::fault::{NAMES, PAGE_NAMES, READING_NAMES, RECORD_NAMES, ROUNDING_NAMES};
use second::fault::{QUORUM_CALL_NAMES, QUORUM_NAMES, STEP_NAMES};
use second::fault::{TICKET_CALL_NAMES, TICKET_NAMES, VARIABLE};

use crate::{frames, law, lists, pages, records, singles, steps, tickets};

const MOST_CALLS: usize = 100_000;
const MOST_LISTS: usize = 20_000;
const MOST_PAGES: usize = 50_000;

/// Faults with their names.
type Named = (&'static str, Fault);

/// Prints the table; an error if a fault was not found.
pub fn table(seed: u64) -> Result<(), String> {
    println!("{:<26}first difference", "fault");
    let all_found = rows(seed, "frames", &FRAME_NAMES)?
        & rows(seed, "law", &LAW_NAMES)?
        & rows(seed, "law", &ROUNDING_NAMES)?
        & rows(seed, "law", &LAW_MARK_NAMES)?
        & rows(seed, "singles", &of_singles())?
        & rows(seed, "steps", &NAMES)?
        & rows(seed, "steps", &STEP_NAMES)?
        & rows(seed, "steps", &READING_NAMES)?
        & rows(seed, "steps", &ROUNDING_NAMES)?
        & rows(seed, "steps", &of_marks())?
        & rows(seed, "steps", &of_quorums(&OF_RECORDS))?
        & rows(seed, "lists", &of_lists())?
        & rows(seed, "pages", &of_pages())?
        & rows(seed, "records", &RECORD_NAMES)?
        & rows(seed, "records", &CALL_NAMES)?
        & rows(seed, "records", &of_marks())?
        & rows(seed, "records", &of_quorums(&OF_HANDED_IN))?
        & rows(seed, "tickets", &of_tickets())?
        & rows(seed, "tickets", &TICKET_CALL_NAMES)?
        & rows(seed, "tickets", &of_marks())?
        & rows(seed, "tickets", &of_quorums(&OF_MAKING))?;
    match all_found {
        true => Ok(()),
        false => Err("a planted fault was not found".to_string()),
    }
}

/// The faults of readings that a single's bits can show: the others are about
/// readings that are no singles, and about refusal 7.
fn of_singles() -> Vec<Named> {
    let others = [Fault::MissingPresent, Fault::MarksUnconverted];
    without(&READING_NAMES, &others)
}

/// The faults of pages that a list written, and read back, can show: the
/// others read what no writing gives.
fn of_lists() -> Vec<Named> {
    let others = [
        Fault::NeedlessZeroRead,
        Fault::AnyOrderRead,
        Fault::SpacesBehindRead,
    ];
    without(&PAGE_NAMES, &others)
}

/// The faults of pages that one handed to a reader can show: the others are
/// about lists and areas.
fn of_pages() -> Vec<Named> {
    let others = [
        Fault::LastGiven,
        Fault::WithoutCommandStays,
        Fault::FallingOrder,
        Fault::ShortPageArea,
        Fault::PageAreaFirst,
        Fault::PeriodsBeforeArea,
    ];
    without(&PAGE_NAMES, &others)
}

/// The faults of marks that a step of a replica can show: the others are about
/// what its box updated or issued before, which no replica holds.
fn of_marks() -> Vec<Named> {
    let others = [Fault::LastMarkKept, Fault::EstimatesUpdateMarked];
    without(&MARK_NAMES, &others)
}

/// Of quorums: what only a record can show.
const OF_RECORDS: [Fault; 2] = [Fault::RecordQuorumsExchanged, Fault::FirstVersionTaken];

/// What only a replica handed in can show: 15 is before it on a record.
const OF_HANDED_IN: [Fault; 1] = [Fault::QuorumsNotInStep];

/// The same, and what only making settings that are refused can show.
const OF_MAKING: [Fault; 2] = [Fault::QuorumsNotInStep, Fault::QuorumsBeforeLimits];

/// The faults of quorums but for these, and for the one of the rig's first
/// line.
fn of_quorums(others: &[Fault]) -> Vec<Named> {
    let faults = [&QUORUM_NAMES[..], &QUORUM_CALL_NAMES].concat();
    let of_calls = without(&faults, &[Fault::QuorumsPresumed]);
    without(&of_calls, others)
}

/// The faults of tickets that areas can show: an area has no place for what a
/// void ticket's step leaves, so none is taken there even with the fault.
fn of_tickets() -> Vec<Named> {
    without(&TICKET_NAMES, &[Fault::VoidTaken])
}

fn without(faults: &[Named], others: &[Fault]) -> Vec<Named> {
    let mut left = faults.to_vec();
    left.retain(|(_, fault)| !others.contains(fault));
    left
}

/// Prints the rows of some faults; gives whether each was found.
fn rows(seed: u64, calls: &str, faults: &[(&str, Fault)]) -> Result<bool, String> {
    let mut all_found = true;
    for (name, _) in faults {
        let found = searched(seed, calls, name)?;
        println!("{name:<26}{calls} {found}");
        all_found &= found.parse::<usize>().is_ok();
    }
    Ok(all_found)
}

/// What `calls search` prints in a process of its own: a fault can only be
/// planted at its start.
fn searched(seed: u64, calls: &str, fault: &str) -> Result<String, String> {
    let own = env::current_exe().map_err(|error| error.to_string())?;
    let output = Command::new(own)
        .args(["search", calls, &seed.to_string()])
        .env(VARIABLE, fault)
        .output()
        .map_err(|error| error.to_string())?;
    match output.status.success() {
        true => Ok(String::from_utf8_lossy(&output.stdout).trim().to_string()),
        false => Err(String::from_utf8_lossy(&output.stderr).into_owned()),
    }
}

/// Prints the first number at which the two implementations differ.
pub fn search(calls: &str, seed: u64) -> Result<(), String> {
    let found = match calls {
        "frames" => first_difference(frames::compare, seed, MOST_CALLS),
        "law" => first_difference(law::compare, seed, MOST_CALLS),
        "singles" => first_difference(singles::compare, seed, MOST_CALLS),
        "steps" => first_difference(steps::compare, seed, MOST_CALLS),
        "lists" => first_difference(lists::compare, seed, MOST_LISTS),
        "pages" => first_difference(pages::compare, seed, MOST_PAGES),
        "records" => first_difference(records::compare, seed, MOST_CALLS),
        "tickets" => first_difference(tickets::compare, seed, MOST_CALLS),
        _ => return Err(format!("{calls}: no calls that are searched")),
    };
    match found {
        Some(number) => println!("{number}"),
        None => println!("not found"),
    }
    Ok(())
}

fn first_difference<C: Default>(
    compare: fn(u64, usize, &mut C) -> Result<(), String>,
    seed: u64,
    most: usize,
) -> Option<usize> {
    let differs = |&number: &usize| compare(seed, number, &mut C::default()).is_err();
    (1..=most).find(differs)
}
