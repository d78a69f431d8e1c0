//! Document 02, L6, on the rig: lines that ask, commit and store what was
//! asked, their pages, and the faults that they show.

use std::io::Write;
use std::process::{Command, Stdio};

use second::fault::TICKET_NAMES;
use second::printed;
use second::script;

const HEADER: &str = "no who answer k v vb kb x frame command\n";

/// The bench's group on the rig, with these lines.
fn input(lines: &str) -> String {
    let settings = "1 1 1 65536 32768 65536 65536 -2147483648 2147483647 0";
    format!("rig 3 {settings}\n{lines}")
}

fn rig(lines: &str) -> String {
    let mut output = Vec::new();
    script::rig(input(lines).as_bytes(), &mut output).unwrap();
    let text = String::from_utf8(output).unwrap();
    text.strip_prefix(HEADER).unwrap().to_string()
}

/// What the rig prints for each line, which stands beside it.
fn assert_prints(lines: &[(&str, &str)]) {
    let script: String = lines.iter().map(|(line, _)| format!("{line}\n")).collect();
    let printed = rig(&script);
    let expected: Vec<&str> = lines.iter().map(|&(_, row)| row).collect();
    assert_eq!(printed.lines().collect::<Vec<_>>(), expected);
}

/// Document 01's example, every event asked and committed.
const EXAMPLE: [(&str, &str); 14] = [
    ("AT 1 100", "1 1 ok 1 0 0 1 0 ? - 1"),
    ("C 1 1", "2 1 ok 1 0 0 1 0 2 -"),
    ("AT 2 102", "3 2 ok 1 0 0 0 0 - - 1"),
    ("C 2 1", "4 2 ok 1 0 0 0 0 - -"),
    ("AD 2 2", "5 2 ok 1 0 0 1 0 ? - 2"),
    ("C 2 2", "6 2 ok 1 0 0 1 0 6 -"),
    ("AD 1 6", "7 1 ok 1 0 0 1 0 ? 50 2"),
    ("C 1 2", "8 1 ok 1 0 0 1 0 8 50"),
    ("AD 2 8", "9 2 ok 1 0 0 1 0 - 50 3"),
    ("C 2 3", "10 2 ok 1 0 0 1 0 - 50"),
    ("AT 2 -", "11 2 ok 2 0 0 1 50 - - 4"),
    ("AG 2", "12 2 ignored 1 0 0 1 0 - - 5"),
    ("AT 2 -", "13 2 ok 2 0 0 1 50 - - 6"),
    ("C 2 6", "14 2 ok 2 0 0 1 50 - -"),
];

#[test]
fn the_example_asked_and_committed() {
    assert_prints(&EXAMPLE);
}

/// "making no step": the replica is as it was, whatever the ask said.
#[test]
fn an_ask_makes_no_step() {
    assert_prints(&[
        ("AT 2 7", "1 2 ok 1 0 0 0 0 - - 1"),
        ("C 2 9", "2 2 r17 0 0 0 0 0 - -"),
        ("T 2 8", "3 2 ok 1 0 0 0 0 - -"),
        ("AG 2", "4 2 ok 1 1 0 0 0 - - 2"),
        ("AT 2 9", "5 2 ok 2 0 0 0 4 - - 3"),
        ("S 2", "6 2 ok 1 0 0 0 0 - -"),
        ("C 2 3", "7 2 ok 2 0 0 0 4 - -"),
    ]);
}

/// Changes: "those of the replica as it is where the answer is not ok".
#[test]
fn asks_that_are_not_ok_have_tickets_and_cannot_be_committed() {
    assert_prints(&[
        ("T 1 100", "1 1 ok 1 0 0 1 0 1 -"),
        ("AD 1 1", "2 1 r9 1 0 0 1 0 - - 1"),
        ("C 1 1", "3 1 r17 1 0 0 1 0 - -"),
        ("AG 1", "4 1 ignored 1 0 0 1 0 - - 2"),
        ("C 1 2", "5 1 r17 1 0 0 1 0 - -"),
        ("AD 3 1", "6 3 ignored 0 0 0 0 0 - - 1"),
        ("C 3 1", "7 3 r17 0 0 0 0 0 - -"),
        ("SA 3", "8 bad"),
        ("C 3 0", "9 3 r17 0 0 0 0 0 - -"),
        ("AT 3 1", "10 3 ok 1 0 0 0 0 - - 2"),
        ("AG 3", "11 3 ignored 0 0 0 0 0 - - 3"),
        ("C 3 2", "12 3 r17 0 0 0 0 0 - -"),
        ("C 3 3", "13 3 r17 0 0 0 0 0 - -"),
    ]);
}

/// Changes: "nothing changes: the right ticket can still be committed"; each
/// box has its own.
#[test]
fn a_ticket_is_committed_once_and_only_at_its_box() {
    assert_prints(&[
        ("AT 1 100", "1 1 ok 1 0 0 1 0 ? - 1"),
        ("AT 1 102", "2 1 ok 1 0 0 1 0 ? - 2"),
        ("C 2 2", "3 2 r17 0 0 0 0 0 - -"),
        ("C 1 1", "4 1 r17 0 0 0 0 0 - -"),
        ("C 1 0", "5 1 r17 0 0 0 0 0 - -"),
        ("C 1 3", "6 1 r17 0 0 0 0 0 - -"),
        ("C 1 18446744073709551615", "7 1 r17 0 0 0 0 0 - -"),
        ("C 1 2", "8 1 ok 1 0 0 1 0 8 -"),
        ("C 1 2", "9 1 r17 1 0 0 1 0 - -"),
        ("C 1 1", "10 1 r17 1 0 0 1 0 - -"),
        // The reading is the second ask's.
        ("T 1 -", "11 1 ok 2 0 0 2 51 11 -"),
    ]);
}

/// "or a step made, voids the earlier ticket"
#[test]
fn a_step_made_voids_and_no_other_line_does() {
    assert_prints(&[
        ("AT 2 100", "1 2 ok 1 0 0 0 0 - - 1"),
        ("G 2", "2 2 ignored 0 0 0 0 0 - -"),
        ("S 2", "3 2 ok 0 0 0 0 0 - -"),
        ("SA 2", "4 2 ok 0 0 0 0 0 - -"),
        ("T 1 5", "5 1 ok 1 0 0 1 0 5 -"),
        ("D 2 5", "6 2 ignored 0 0 0 0 0 - -"),
        ("R 2 10001", "7 2 r16 0 0 0 0 0 - -"),
        // A line that is bad is no ask.
        ("AD 2 1", "8 bad"),
        ("AT 2 x", "9 bad"),
        ("C 2 1", "10 2 ok 1 0 0 0 0 - -"),
        ("AG 2", "11 2 ok 1 1 0 0 0 - - 2"),
        ("T 2 7", "12 2 ok 2 0 0 0 50 - -"),
        ("C 2 2", "13 2 r17 2 0 0 0 50 - -"),
        ("AT 2 -", "14 2 ok 3 0 0 0 28 - - 3"),
    ]);
}

/// Changes: "`D` names the commit's line, never the ask's."
#[test]
fn the_commits_line_sends_what_was_asked() {
    assert_prints(&[
        ("AT 1 100", "1 1 ok 1 0 0 1 0 ? - 1"),
        ("T 2 102", "2 2 ok 1 0 0 0 0 - -"),
        ("D 2 1", "3 bad"),
        ("AD 2 1", "4 bad"),
        ("AD 2 7", "5 bad"),
        ("AD 2 6", "6 bad"),
        ("C 1 1", "7 1 ok 1 0 0 1 0 7 -"),
        ("D 2 1", "8 bad"),
        ("AD 2 7", "9 2 ok 1 0 0 1 0 ? - 1"),
        ("D 2 7", "10 2 ok 1 0 0 1 0 10 -"),
        ("C 2 1", "11 2 r17 1 0 0 1 0 - -"),
        ("D 1 11", "12 bad"),
        ("D 1 9", "13 bad"),
        ("D 1 10", "14 1 ok 1 0 0 1 0 14 50"),
    ]);
}

/// Changes: "the record that box r's latest ask gave is stored"; "It prints
/// `ok` and the ten fields of the box as it is, not of the record".
#[test]
fn what_was_asked_is_stored() {
    assert_prints(&[
        ("SA 2", "1 bad"),
        ("AT 2 100", "2 2 ok 1 0 0 0 0 - - 1"),
        ("SA 2", "3 2 ok 0 0 0 0 0 - -"),
        ("SA 1", "4 bad"),
        ("R 2 1", "5 2 ok 2 0 0 0 50 - -"),
        // There is no latest ask, and tickets count from 1.
        ("SA 2", "6 bad"),
        ("C 2 1", "7 2 r17 2 0 0 0 50 - -"),
        ("AG 2", "8 2 ok 2 1 0 0 50 - - 1"),
        ("R 2 10001", "9 2 r16 2 0 0 0 50 - -"),
        ("SA 2", "10 2 ok 2 0 0 0 50 - -"),
        ("AT 2 10", "11 2 ok 3 0 0 0 50 - - 2"),
        // That of ticket 1, as it stays stored.
        ("R 2 0", "12 2 ok 2 1 0 0 50 - -"),
        ("R 2 0", "13 2 ok 2 1 0 0 50 - -"),
        ("AT 2 10", "14 2 ok 3 2 0 0 50 ? - 1"),
    ]);
}

/// Changes: "also after that ask was committed or voided"; `bad` where the
/// latest "was ignored or refused".
#[test]
fn what_was_asked_is_stored_also_when_it_was_committed_or_voided() {
    assert_prints(&[
        ("AT 2 100", "1 2 ok 1 0 0 0 0 - - 1"),
        ("C 2 1", "2 2 ok 1 0 0 0 0 - -"),
        ("T 2 7", "3 2 ok 2 0 0 0 50 - -"),
        ("SA 2", "4 2 ok 2 0 0 0 50 - -"),
        ("R 2 0", "5 2 ok 1 0 0 0 0 - -"),
        ("AG 2", "6 2 ok 1 1 0 0 0 - - 1"),
        ("T 2 7", "7 2 ok 2 0 0 0 50 - -"),
        ("SA 2", "8 2 ok 2 0 0 0 50 - -"),
        ("R 2 0", "9 2 ok 1 1 0 0 0 - -"),
        ("AT 2 7", "10 2 ok 2 2 0 0 50 ? - 1"),
        ("D 2 10", "11 bad"),
        ("S 2", "12 2 ok 1 1 0 0 0 - -"),
        ("AG 2", "13 2 ok 1 2 0 0 0 ? - 2"),
        ("C 2 2", "14 2 ok 1 2 0 0 0 14 -"),
        ("AD 2 14", "15 2 r9 1 2 0 0 0 - - 3"),
        ("SA 2", "16 bad"),
    ]);
}

#[test]
fn lines_that_ask_and_commit_have_one_form() {
    let bad = [
        "A",
        "A 2",
        "AT",
        "AT 2",
        "AT 2 ",
        "AT 2 1 1",
        "AT  2 1",
        " AT 2 1",
        "at 2 1",
        "aT 2 1",
        "A T 2 1",
        "AAT 2 1",
        "AT 0 1",
        "AT 4 1",
        "AT 02 1",
        "AT 2 01",
        "AT 2 +1",
        "AT 2 1\r",
        "AT 2 2147483648",
        "AT 2 f3fc0000",
        "TA 2 1",
        "AG",
        "AG 2 ",
        "AG 2 1",
        "AG 4",
        "AD 2",
        "AD 2 ",
        "AD 2 0",
        "AD 2 1",
        "AD 2 2",
        "AD 2 3",
        "AD 2 -",
        "AD 2 501",
        "AC 2 1",
        "AS 2",
        "ASA 2",
        "AR 2 0",
        "C",
        "C 2",
        "C 2 ",
        "C 2 -",
        "C 2 -1",
        "C 2 -0",
        "C 2 +1",
        "C 2 01",
        "C 2 00",
        "C 2 1 1",
        "C 2 1 ",
        "C  2 1",
        "C 2  1",
        "C 0 1",
        "C 4 1",
        "c 2 1",
        "C 2 1\r",
        "C 2 18446744073709551616",
        "C 2 99999999999999999999",
        "C 2 0x1",
        "C 2 1.0",
        "C 2 ?",
        "SA",
        "SA 2 ",
        "SA 2 1",
        "SA 0",
        "SA 4",
        "SA 02",
        "SA  2",
        "sA 2",
        "Sa 2",
        "AS 2",
        "SA 3",
    ];
    for line in bad {
        let printed = rig(&format!("AT 2 5\n{line}\nC 2 1\nAT 2 -\n"));
        let expected = "1 2 ok 1 0 0 0 0 - - 1\n2 bad\n\
                        3 2 ok 1 0 0 0 0 - -\n4 2 ok 2 0 0 0 2 - - 2\n";
        assert_eq!(printed, expected, "{line:?}");
    }
    // Readings are those of the rig.
    assert_eq!(
        rig("AT 2 f3fc00000\nAT 2 -"),
        "1 2 ok 1 0 0 0 0 - - 1\n2 2 ok 1 0 0 0 0 - - 2\n"
    );
}

/// Only in `rig`.
#[test]
fn the_bench_asks_nothing() {
    let mut output = Vec::new();
    let lines = "AT 1 100\nAG 1\nT 1 5\nAD 2 3\nC 1 1\nC 1 0\nSA 1\n";
    script::bench(lines.as_bytes(), &mut output).unwrap();
    let expected = "1 bad\n2 bad\n3 1 ok 1 0 0 1 0 3 -\n4 bad\n5 bad\n6 bad\n7 bad\n";
    assert_eq!(
        String::from_utf8(output).unwrap(),
        format!("{HEADER}{expected}")
    );
}

/// A state of two values and a command of two, behind which the ticket stands.
#[test]
fn an_ask_prints_all_values() {
    let lines = "rig 3 2 2 2 \
                 65536 0 0 65536 32768 0 0 32768 65536 0 0 65536 65536 0 0 65536 \
                 -100 -100 100 100 4 -4\n\
                 AT 1 10 -\nC 1 1\nT 2 - -\nD 2 2\nAD 1 4\nC 1 2\n";
    let mut output = Vec::new();
    script::rig(lines.as_bytes(), &mut output).unwrap();
    let expected = "1 1 ok 1 0 0 1 4,-4 ? - 1\n\
                    2 1 ok 1 0 0 1 4,-4 2 -\n\
                    3 2 ok 1 0 0 0 4,-4 - -\n\
                    4 2 ok 1 0 0 1 4,-4 4 -\n\
                    5 1 ok 1 0 0 1 4,-4 ? 7,-4 2\n\
                    6 1 ok 1 0 0 1 4,-4 6 7,-4\n";
    assert_eq!(
        String::from_utf8(output).unwrap(),
        format!("{HEADER}{expected}")
    );
}

// Pages.

/// What the page has of these lines, and how many it passes over.
fn page_of(lines: &str) -> (String, usize) {
    let (page, passed_over) = printed::pages(rig(lines).as_bytes());
    (String::from_utf8(page).unwrap(), passed_over)
}

#[test]
fn commits_are_entries_and_asks_are_none() {
    let lines = EXAMPLE.map(|(line, _)| format!("{line}\n")).concat();
    let one = "         1          0           50                                      \n";
    let two = "         2          0            -                                      \n";
    assert_eq!(page_of(&lines), (format!("{one}{two}"), 0));
    // Without the last commit period 2 was only asked.
    let uncommitted = lines.strip_suffix("C 2 6\n").unwrap();
    assert_eq!(page_of(uncommitted), (one.to_string(), 0));
    assert_eq!(page_of("AT 2 1\nC 2 7\n"), (String::new(), 0));
    let zero = "         0          0            -                                      \n";
    assert_eq!(page_of("AT 2 1\nSA 2\n"), (zero.to_string(), 0));
}

#[test]
fn what_a_rig_with_asks_prints_is_nowhere_passed_over() {
    let mut seed: u32 = 13;
    let mut next = |bound: u32| {
        seed = seed.wrapping_mul(1_664_525).wrapping_add(1_013_904_223);
        (seed >> 16) % bound
    };
    let mut refused = 0;
    for _ in 0..100 {
        let lines: Vec<String> = (1..=200)
            .map(|number| match next(10) {
                0 => format!("T {} {}\n", 1 + next(3), next(200)),
                1 => format!("AT {} {}\n", 1 + next(3), next(200)),
                2 => format!("AG {}\n", 1 + next(4)),
                3 => format!("SA {}\n", 1 + next(4)),
                4 => format!("R {} {}\n", 1 + next(3), next(2)),
                5 | 6 => format!("C {} {}\n", 1 + next(3), next(8)),
                7 => format!("AD {} {}\n", 1 + next(3), next(number)),
                _ => format!("D {} {}\n", 1 + next(3), next(number)),
            })
            .collect();
        let text = rig(&lines.concat());
        refused += text.matches(" r17 ").count();
        assert_eq!(printed::pages(text.as_bytes()).1, 0);
    }
    assert!(refused > 100, "{refused}");
}

// The planted faults.

fn printed_with(fault: &str, lines: &str) -> Vec<String> {
    let mut child = Command::new(env!("CARGO_BIN_EXE_rig"))
        .env("SECOND_FAULT", fault)
        .stdin(Stdio::piped())
        .stdout(Stdio::piped())
        .spawn()
        .unwrap();
    let mut stdin = child.stdin.take().unwrap();
    stdin.write_all(input(lines).as_bytes()).unwrap();
    drop(stdin);
    let output = child.wait_with_output().unwrap();
    assert!(output.status.success());
    let text = String::from_utf8(output.stdout).unwrap();
    text.lines().skip(1).map(str::to_string).collect()
}

/// The last line shows the fault, as the row given, and no line before it.
#[test]
fn faults_of_tickets_show() {
    let cases = [
        ("ask_steps", "AT 2 1\nS 2\n", "2 2 ok 1 0 0 0 0 - -"),
        ("ignored_committed", "AG 2\nC 2 1\n", "2 2 ok 0 0 0 0 0 - -"),
        (
            "void_taken",
            "AT 1 9\nAG 1\nC 1 1\n",
            "3 1 ok 1 0 0 1 0 3 -",
        ),
        (
            "void_taken",
            "AT 1 9\nT 1 8\nC 1 1\n",
            "3 1 ok 1 0 0 1 0 3 -",
        ),
        (
            "void_taken",
            "AT 1 9\nAT 1 8\nC 1 1\n",
            "3 1 ok 1 0 0 1 0 3 -",
        ),
        (
            "committed_twice",
            "AT 1 9\nC 1 1\nC 1 1\n",
            "3 1 ok 1 0 0 1 0 3 -",
        ),
        (
            "tickets_go_on",
            "S 2\nAG 2\nR 2 0\nAG 2\n",
            "4 2 ignored 0 0 0 0 0 - - 2",
        ),
        (
            "refused_step_voids",
            "AT 2 1\nG 2\nC 2 1\n",
            "3 2 r17 0 0 0 0 0 - -",
        ),
        (
            "refused_ask_keeps",
            "AT 1 1\nAG 1\nC 1 1\n",
            "3 1 ok 1 0 0 1 0 3 -",
        ),
        (
            "step_keeps",
            "AT 1 9\nT 1 8\nC 1 1\n",
            "3 1 ok 1 0 0 1 0 3 -",
        ),
        (
            "unstepped_record",
            "AT 2 1\nSA 2\nR 2 0\n",
            "3 2 ok 0 0 0 0 0 - -",
        ),
        ("latest_unread", "AT 1 1\nC 1 2\n", "2 1 ok 1 0 0 1 0 2 -"),
    ];
    for (fault, lines, row) in cases {
        let (right, wrong) = (printed_with("", lines), printed_with(fault, lines));
        if !cfg!(feature = "faults") {
            assert_eq!(right, wrong, "{fault}");
            continue;
        }
        let last = right.len() - 1;
        assert_eq!(right[..last], wrong[..last], "{fault}");
        assert_ne!(right[last], wrong[last], "{fault}");
        assert_eq!(wrong[last], row, "{fault}");
    }
    let is_tried = |name: &str| cases.iter().any(|(fault, ..)| *fault == name);
    assert!(TICKET_NAMES.iter().all(|(name, _)| is_tried(name)));
}
