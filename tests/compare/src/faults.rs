//! Whether the comparison finds faults planted on purpose, and how soon.

use second::fault::{
    planted, Fault, LAW_MARK_NAMES, MARK_NAMES, NAMES, QUORUM_NAMES, READING_NAMES, RECORD_NAMES,
    ROUNDING_NAMES, STORE_NAMES, TICKET_NAMES,
};

use crate::counts::Counts;
use crate::generator::ONE_ASKING;
use crate::run::{library, Programs};
use crate::{demand3, generator, run};

const MOST_SCRIPTS: usize = 2_000;

/// The number of the first script that shows a fault, by each way to look.
#[derive(Default)]
struct Found {
    by_output: Option<usize>,
    by_demand3: Option<usize>,
}

/// Prints the table; gives whether every fault was found by its output.
pub fn table(seed: u64, second: impl Fn() -> Result<Programs, String>) -> Result<bool, String> {
    let (output, demand3, own) = ("outputs differ", "demand 3", "on own scripts");
    println!("{:<26}{output:>15}{demand3:>15}{own:>17}", "fault");
    let mut all_found = true;
    let names = NAMES.into_iter().chain(READING_NAMES).chain(ROUNDING_NAMES);
    let names = names.chain(RECORD_NAMES).chain(STORE_NAMES);
    let names = names.chain(TICKET_NAMES).chain(MARK_NAMES);
    let names = names.chain(QUORUM_NAMES);
    for (name, fault) in names.filter(shows) {
        let is_safe = keeps_demand3(fault);
        let found = look_for(seed, fault, &second()?.with_fault(name))?;
        // By demand 3, on scripts written while the faulty replicas run, so
        // that the frames which only they send are delivered too.
        let own = match is_of_law(fault) {
            true => "its own law".to_string(),
            false if is_safe => "kept".to_string(),
            false => shown(run::own_search(seed, name)?),
        };
        let demand3 = match is_safe {
            true => "kept".to_string(),
            false if is_of_first_lines(fault) => "no group".to_string(),
            false => shown(found.by_demand3),
        };
        let output = shown(found.by_output);
        println!("{name:<26}{output:>15}{demand3:>15}{own:>17}");
        all_found &= found.by_output.is_some();
    }
    Ok(all_found)
}

fn shown(first: Option<usize>) -> String {
    match first {
        Some(number) => format!("script {number}"),
        None => "not found".to_string(),
    }
}

/// Whether the check of demand 3 has the fault too where it runs in a process
/// with it: its law is the second implementation's.
fn is_of_law(fault: Fault) -> bool {
    let mut of_law = ROUNDING_NAMES.iter().chain(&LAW_MARK_NAMES);
    of_law.any(|(_, known)| *known == fault) || fault == Fault::RoundToZero
}

/// Whether scripts can show a fault: no script has a word for a reading at or
/// above m, no record in one is other than a replica's, and none comes near
/// the last view.
fn shows((_, fault): &(&str, Fault)) -> bool {
    let of_records = RECORD_NAMES.iter().any(|(_, known)| known == fault);
    let of_missed_periods = [
        Fault::MissedWithoutUpdate,
        Fault::MissedOneFewer,
        Fault::MissedBeyondTaken,
    ];
    *fault != Fault::MarksUnconverted && (!of_records || of_missed_periods.contains(fault))
}

/// Whether demand 3 holds with a fault all the same: a box may miss one period
/// more than it may return with, a commit may be refused, or change nothing;
/// quorums may be others, as long as two of them always have a box in common.
fn keeps_demand3(fault: Fault) -> bool {
    let keeping = [
        Fault::MissedBeyondTaken,
        Fault::IgnoredCommitted,
        Fault::CommittedTwice,
        Fault::TicketsGoOn,
        Fault::RefusedStepVoids,
    ];
    let of_quorums = QUORUM_NAMES.iter().any(|(_, known)| *known == fault);
    keeping.contains(&fault) || of_quorums && fault != Fault::SumOfNTaken
}

/// Whether a fault changes what is refused in a first line and nothing else: no
/// script of a group shows it.
fn is_of_first_lines(fault: Fault) -> bool {
    let of_first_lines = [
        Fault::SumOfNTaken,
        Fault::QuorumOfOneTaken,
        Fault::QuorumAboveTaken,
        Fault::QuorumsBeforeLimits,
    ];
    of_first_lines.contains(&fault)
}

/// The scripts that can show a fault: of tickets those with asks alone.
fn numbers(is_shown: impl Fn(Fault) -> bool) -> impl Iterator<Item = usize> {
    let of_tickets = TICKET_NAMES.iter().any(|(_, fault)| is_shown(*fault));
    let every = if of_tickets { ONE_ASKING } else { 1 };
    (every..=MOST_SCRIPTS).step_by(every)
}

fn look_for(seed: u64, fault: Fault, faulty: &Programs) -> Result<Found, String> {
    let of_first_lines = is_of_first_lines(fault);
    let by_output_alone = keeps_demand3(fault) || of_first_lines;
    let mut found = Found::default();
    for number in numbers(|known| known == fault) {
        let script = generator::script(seed, number, &mut Counts::default());
        if of_first_lines && script.lines.is_some() {
            continue;
        }
        let output = faulty.run(&script)?;
        if found.by_output.is_none() && output != library(&script) {
            found.by_output = Some(number);
        }
        if found.by_demand3.is_none() {
            if let Some(lines) = &script.lines {
                let checked = demand3::check(&script.group, script.host, lines, &output);
                found.by_demand3 = checked.is_err().then_some(number);
            }
        }
        if found.by_output.is_some() && (by_output_alone || found.by_demand3.is_some()) {
            break;
        }
    }
    Ok(found)
}

/// The first script whose output demand 3 refuses, where generator, replicas
/// and law all have the fault that is planted in this process.
pub fn own_search(seed: u64) -> Option<usize> {
    numbers(planted).find(|&number| {
        let script = generator::script(seed, number, &mut Counts::default());
        let check =
            |lines: &Vec<_>| demand3::check(&script.group, script.host, lines, &library(&script));
        script
            .lines
            .as_ref()
            .is_some_and(|lines| check(lines).is_err())
    })
}
