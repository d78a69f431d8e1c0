//! The check tried on scripts with asks, commits and records of asks.

use super::*;
use crate::words::on_the_bench_group;

fn checked(lines: &str) -> Result<Checked, String> {
    let (lines, output) = on_the_bench_group(lines);
    check(&Group::bench(), Host::Storing, &lines, &output)
}

/// What the check says where other commands, or other answers, are printed.
fn with_other(lines: &str, from: &str, to: &str) -> Result<Checked, String> {
    let (lines, output) = on_the_bench_group(lines);
    let output = String::from_utf8(output).unwrap();
    assert!(output.contains(from), "{output}");
    let output = output.replace(from, to);
    check(&Group::bench(), Host::Storing, &lines, output.as_bytes())
}

/// Period 1 is decided by boxes 1 and 2 with 50, each event asked, stored and
/// committed.
const ASKED: &str = "AT 1 100\nSA 1\nC 1 1\nAT 2 102\nSA 2\nC 2 1\n\
                     AD 2 3\nSA 2\nC 2 2\nAD 1 9\nSA 1\nC 1 2\n";

#[test]
fn commits_are_held_to_demand_3() {
    let expected = Checked {
        decided_periods: 1,
        searched_periods: 1,
        ..Checked::default()
    };
    assert_eq!(checked(ASKED), Ok(expected));
    let answer = with_other(
        ASKED,
        "\n12 1 ok 1 0 0 1 0 12 50",
        "\n12 1 ok 1 0 0 1 0 12 52",
    );
    assert!(answer.unwrap_err().contains("period 1: no choice"));
    // What an ask prints is not written yet.
    let answer = with_other(
        ASKED,
        "\n10 1 ok 1 0 0 1 0 ? 50",
        "\n10 1 ok 1 0 0 1 0 ? 52",
    );
    assert_eq!(answer, Ok(expected));
}

#[test]
fn two_commits_that_differ_are_refused() {
    let lines = format!("{ASKED}AD 2 12\nSA 2\nC 2 3\n");
    assert!(checked(&lines).is_ok());
    let answer = with_other(
        &lines,
        "\n15 2 ok 1 0 0 1 0 - 50",
        "\n15 2 ok 1 0 0 1 0 - 51",
    );
    assert!(answer.unwrap_err().contains("period 1: two commands"));
}

#[test]
fn what_was_not_committed_or_not_stored_does_not_count() {
    let decided = |lines: &str| checked(lines).unwrap().decided_periods;
    let asked = ASKED.strip_suffix("SA 1\nC 1 2\n").unwrap();
    assert_eq!(decided(asked), 0);
    assert_eq!(decided(&format!("{asked}SA 1\n")), 0);
    assert_eq!(decided(&format!("{asked}SA 1\nC 1 1\nC 1 3\n")), 0);
    assert_eq!(decided(&format!("{asked}C 1 2\n")), 0);
    assert_eq!(decided(&format!("{asked}C 1 2\nSA 1\n")), 1);
    assert_eq!(decided(&format!("{asked}C 1 2\nS 1\n")), 1);
    // Stored and returned: the command never left.
    assert_eq!(decided(&format!("{asked}SA 1\nR 1 0\nC 1 2\n")), 0);
}

#[test]
fn the_decided_state_shows_at_the_commit_of_the_next_tick() {
    let lines = format!("{ASKED}AT 1 8\nC 1 3\n");
    assert!(checked(&lines).is_ok());
    let answer = with_other(&lines, "\n14 1 ok 2 0 0 2 50", "\n14 1 ok 2 0 0 2 51");
    assert!(answer.unwrap_err().contains("period 1: no choice"));
}

/// Box 1 is asked 100 and then 60, of which one is committed.
#[test]
fn a_row_counts_once_committed() {
    let lines = "AT 1 100\nAT 1 60\nC 1 2\nS 1\nT 2 -\nD 2 3\nS 2\nD 1 6\nS 1\n";
    assert_eq!(checked(lines).unwrap().searched_periods, 1);
    let answer = with_other(lines, " 30\n", " 50\n");
    assert!(answer.unwrap_err().contains("period 1: no choice"));
}

/// Box 1 returns from the record of a tick with 100 that it never committed;
/// period 2 is decided from what that led to.
#[test]
fn a_row_counts_once_its_record_is_returned() {
    let lines = "AT 1 100\nSA 1\nR 1 0\nT 1 8\nS 1\nT 2 -\nT 2 -\nD 2 4\nS 2\nD 1 8\nS 1\n";
    let (_, output) = on_the_bench_group(lines);
    assert!(String::from_utf8(output).unwrap().contains(" 29\n"));
    assert_eq!(checked(lines).unwrap().searched_periods, 1);
    let answer = with_other(lines, " 29\n", " 5\n");
    assert!(answer.unwrap_err().contains("period 2: no choice"));
}

#[test]
fn a_commit_of_no_ask_is_told() {
    let answer = with_other("AT 1 5\nC 1 7\n", "\n2 1 r17 0", "\n2 1 ok 0");
    assert_eq!(
        answer.unwrap_err(),
        "ticket 7 is committed, which no ask gave"
    );
}

/// After what was asked the replica as it is is stored; the Propose leaves, and
/// the box returns without knowing it.
#[test]
fn a_proposal_that_was_forgotten_leads_to_two_commands() {
    let lines = "AT 1 100\nSA 1\nS 1\nC 1 1\nR 1 1\nT 3 300\nD 3 4\nS 3\nD 1 7\nS 1\n\
                 T 2 200\nG 3\nS 3\nD 2 12\nS 2\nD 3 14\nS 3\nD 2 16\nS 2\n";
    let answer = checked(lines).unwrap_err();
    assert_eq!(answer, "period 1: two commands, [0] and [50]");
    // With the two stores in the order that counts it returns as what it sent.
    let kept = lines.replacen("SA 1\nS 1", "S 1\nSA 1", 1);
    assert!(checked(&kept).is_ok());
}
