//! The check tried on marks.

use super::*;
use crate::counts::Counts;
use crate::generator;
use crate::run::library;
use crate::words::on_group;

/// What the check says of lines on a group where this is printed in place of
/// something else.
fn with_other(group: &Group, lines: &str, from: &str, to: &str) -> Result<Checked, String> {
    let (lines, output) = on_group(group, lines);
    let output = String::from_utf8(output).unwrap();
    assert!(output.contains(from), "{output}");
    let output = output.replace(from, to);
    check(group, Host::Storing, &lines, output.as_bytes())
}

fn checked(group: &Group, lines: &str, command: &str) -> Result<Checked, String> {
    with_other(group, lines, command, command)
}

/// The bench's group with these limits of the command.
fn in_limits(lower: i32, upper: i32) -> Group {
    let mut group = Group::bench();
    (group.settings.lower[0], group.settings.upper[0]) = (lower, upper);
    group
}

/// Period 1 leads to 2^30. For period 2 box 1, which proposes, and box 2 are
/// handed these.
fn second_period(of_box_1: &str, of_box_2: &str) -> String {
    format!(
        "T 1 2147483647\nS 1\nT 2 -\nD 2 1\nS 2\nD 1 4\nS 1\n\
         T 1 {of_box_1}\nS 1\nT 2 {of_box_2}\nD 2 8\nS 2\nD 1 11\nS 1\n"
    )
}

/// e(1) is just at the lowest end; a reading below it is clamped. Both lead to
/// the state 0.
const AT_THE_END: &str = "-1073741824";
const BEYOND: &str = "-2147483648";

#[test]
fn a_mark_that_no_row_gives_is_refused() {
    let group = Group::bench();
    let told = "period 2: no choice of rows gives it with its mark";
    let lines = second_period(BEYOND, "-");
    assert_eq!(
        checked(&group, &lines, " 0*\n").unwrap().searched_periods,
        2
    );
    let answer = with_other(&group, &lines, " 0*\n", " 0\n");
    assert_eq!(answer, Err(told.to_string()));
    let lines = second_period(AT_THE_END, "-");
    assert_eq!(checked(&group, &lines, " 0\n").unwrap().searched_periods, 2);
    let answer = with_other(&group, &lines, " 0\n", " 0*\n");
    assert_eq!(answer, Err(told.to_string()));
    // Other values are told as ever.
    let answer = with_other(&group, &lines, " 0\n", " 1*\n");
    assert_eq!(answer.unwrap_err(), "period 2: no choice of rows gives it");
}

/// "Byte 2 is no function of the state alone": with both rows handed either
/// mark can be right, each by a row of its own.
#[test]
fn of_two_rows_that_lead_to_one_state_one_serves() {
    let group = Group::bench();
    let expected = Checked {
        decided_periods: 2,
        searched_periods: 2,
        marks_told_apart: 1,
        ..Checked::default()
    };
    let lines = second_period(BEYOND, AT_THE_END);
    assert_eq!(checked(&group, &lines, " 0*\n"), Ok(expected));
    assert_eq!(with_other(&group, &lines, " 0*\n", " 0\n"), Ok(expected));
    let lines = second_period(AT_THE_END, BEYOND);
    assert_eq!(checked(&group, &lines, " 0\n"), Ok(expected));
    assert_eq!(with_other(&group, &lines, " 0\n", " 0*\n"), Ok(expected));
}

/// The row of the right mark is that of a missed period, and no other is.
#[test]
fn a_missed_period_is_needed_for_its_mark() {
    let mut group = Group::bench();
    // Nothing is gained from a reading, so that all rows lead to one state.
    group.settings.l[0][0] = 0;
    group.settings.start[0] = i32::MIN;
    let lines = "S 2\nT 1 2147483647\nS 1\nR 2 1\nS 2\nD 2 2\nS 2\nD 1 6\nS 1\n";
    let marked = checked(&group, lines, " -2147483648*\n").unwrap();
    assert_eq!((marked.missed_needed, marked.marks_told_apart), (0, 1));
    let plain = with_other(&group, lines, " -2147483648*\n", " -2147483648\n").unwrap();
    assert_eq!((plain.missed_needed, plain.marks_told_apart), (1, 1));
}

#[test]
fn two_marks_of_one_period_are_refused() {
    let lines = format!("{}D 2 13\nS 2\n", second_period(BEYOND, AT_THE_END));
    let answer = with_other(&Group::bench(), &lines, "- 0*\n", "- 0\n");
    assert_eq!(answer.unwrap_err(), "period 2: two commands, [0]* and [0]");
}

#[test]
fn the_limits_of_the_command_mark_too() {
    let lines = "T 1 100\nS 1\nT 2 101\nD 2 1\nS 2\nD 1 4\nS 1\n";
    let cases = [
        (in_limits(-40, 40), " 40*\n", " 40\n"),
        (in_limits(60, 90), " 60*\n", " 60\n"),
        (in_limits(-50, 50), " 50\n", " 50*\n"),
        (in_limits(50, 50), " 50\n", " 50*\n"),
    ];
    for (group, right, wrong) in cases {
        assert!(checked(&group, lines, right).is_ok());
        let answer = with_other(&group, lines, right, wrong).unwrap_err();
        assert!(answer.ends_with("with its mark"), "{answer}");
    }
    // With no reading at box 2 its row gives 0, which is brought to 50.
    let lines = lines.replace("101", "-");
    assert!(with_other(&in_limits(50, 50), &lines, " 50\n", " 50*\n").is_ok());
}

/// With the command limited, rows that clamp and rows that do not serve alike.
#[test]
fn a_limited_command_is_marked_by_any_row() {
    let group = in_limits(5, 9);
    let lines = second_period(AT_THE_END, BEYOND);
    let checked = checked(&group, &lines, " 5*\n").unwrap();
    assert_eq!((checked.searched_periods, checked.marks_told_apart), (2, 0));
    assert!(with_other(&group, &lines, " 5*\n", " 5\n").is_err());
}

/// Period 2 has an e(j) that is clamped, and ends undecided.
#[test]
fn an_undecided_period_marks_nothing() {
    let group = Group::bench();
    let lines = "T 1 2147483647\nT 1 -2147483648\nT 1 7\nS 1\n\
                 T 2 -\nT 2 -\nT 2 -\nD 2 3\nS 2\nD 1 8\nS 1\n";
    assert_eq!(checked(&group, lines, " 4\n").unwrap().searched_periods, 1);
    assert!(with_other(&group, lines, " 4\n", " 4*\n").is_err());
}

/// What an ask prints is not written yet, so only its commit's mark counts.
#[test]
fn the_commit_has_the_mark() {
    let group = in_limits(-40, 40);
    let lines = "AT 1 100\nSA 1\nC 1 1\nT 2 102\nD 2 3\nS 2\nAD 1 5\nSA 1\nC 1 2\n";
    assert!(checked(&group, lines, " ? 40* 2\n").is_ok());
    assert!(with_other(&group, lines, " ? 40* 2\n", " ? 40 2\n").is_ok());
    assert!(with_other(&group, lines, " 9 40*\n", " 9 40\n").is_err());
}

/// The output with the marks of all commands of a period turned about.
fn turned_about(output: &str, period: &str) -> String {
    let turned = |row: &str| {
        let mut fields: Vec<String> = row.split(' ').map(str::to_string).collect();
        let is_command = fields.len() >= 10 && fields[3] == period && fields[9] != "-";
        if is_command {
            fields[9] = match fields[9].strip_suffix('*') {
                Some(plain) => plain.to_string(),
                None => fields[9].clone() + "*",
            };
        }
        fields.join(" ") + "\n"
    };
    output.lines().map(turned).collect()
}

/// In what generated scripts print, the marks of one period are turned about.
/// That is taken only where another row gives the command with that mark, and
/// where too many states were reached.
#[test]
fn a_mark_turned_about_is_seldom_taken() {
    let (mut refused, mut taken) = (0, 0);
    for number in 1..=200 {
        let script = generator::script(11, number, &mut Counts::default());
        let Some(lines) = &script.lines else {
            continue;
        };
        let output = String::from_utf8(library(&script)).unwrap();
        let rows = output.lines().skip(1).map(|row| row.split(' ').collect());
        let decided = rows.filter(|row: &Vec<&str>| row.len() == 10 && row[9] != "-");
        let decided: Vec<Vec<&str>> = decided.collect();
        let Some(row) = decided.get(decided.len() / 2) else {
            continue;
        };
        let turned = turned_about(&output, row[3]);
        match check(&script.group, script.host, lines, turned.as_bytes()) {
            Ok(_) => taken += 1,
            Err(_) => refused += 1,
        }
    }
    assert!(refused > 150 && taken < 25, "{refused} {taken}");
}
