//! The calls on records that are measured: both implementations' do the same, and what their kinds say.

use std::io::Write;
use std::process::{Command, Stdio};

use measured::periods::Groups;
use measured::record_kinds::{Left, Measured, KINDS};
use measured::records::{Calls, First, Given, Record, Recorded, Second};
use second::frame::{ACK, DECIDE, ESTIMATE, PROPOSE};

/// What program periods is run with, and what it then prints.
const LETTERS: &str = include_str!("../../../crates/periods/stdin");
const COMMANDS: &str = include_str!("../../../crates/periods/stdout");

#[test]
fn programs_print_the_commands_of_crate_periods() {
    let record_periods = env!("CARGO_BIN_EXE_record_periods");
    let printed = [
        printed(&mut Command::new(env!("CARGO_BIN_EXE_periods"))),
        printed(Command::new(record_periods).arg("first")),
        printed(Command::new(record_periods).arg("second")),
    ];
    assert_eq!(printed, [COMMANDS; 3]);
}

fn printed(program: &mut Command) -> String {
    let running = program.stdin(Stdio::piped()).stdout(Stdio::piped()).spawn();
    let mut running = running.expect("a program");
    let mut letters = running.stdin.take().expect("its input");
    letters.write_all(LETTERS.as_bytes()).expect("letters");
    drop(letters);
    let output = running.wait_with_output().expect("its output");
    assert!(output.status.success());
    String::from_utf8(output.stdout).expect("text")
}

#[test]
fn periods_through_both_give_the_same_commands_and_records() {
    let (mut first, mut second) = (groups::<First>(), groups::<Second>());
    for letter in "abccbabcaacb".repeat(10).bytes() {
        first.play(letter);
        second.play(letter);
        assert_eq!(first.commands(), second.commands());
        assert_eq!(records(&first), records(&second));
    }
}

fn groups<C: Calls>() -> Groups<Recorded<C>> {
    Groups::new(|law, boxes, own| Recorded::new(&Given::new(law.clone()), boxes, own))
}

fn records<C: Calls>(groups: &Groups<Recorded<C>>) -> Vec<Record> {
    groups.members().map(|member| member.record).collect()
}

/// For each kind the frame that it sends in a group of three and in one of nine, and whether it issues a command.
const SENT: [(Option<u8>, Option<u8>, bool); 16] = [
    (None, None, false),
    (Some(PROPOSE), Some(PROPOSE), false),
    (None, None, false),
    (Some(ACK), Some(ACK), false),
    (Some(DECIDE), Some(DECIDE), true),
    (None, None, true),
    (None, None, false),
    (Some(PROPOSE), None, false),
    (Some(ESTIMATE), Some(ESTIMATE), false),
    (None, None, false),
    (None, None, false),
    (None, None, false),
    (None, None, false),
    (None, None, false),
    (None, None, false),
    (None, None, false),
];

#[test]
fn calls_of_a_kind_do_what_it_says() {
    let three = Measured::new(3, 4, 2, 1);
    let nine = Measured::new(9, 6, 4, 4);
    for (kind, (in_three, in_nine, issues)) in KINDS.iter().zip(SENT) {
        for (group, sends) in [(&three, in_three), (&nine, in_nine)] {
            let call = group.call(kind);
            let left = group.called::<First>(&call);
            assert_eq!(left, group.called::<Second>(&call), "{}", kind.name);
            assert_eq!(left.answer, kind.answer, "{}", kind.name);
            assert_eq!(sent(&left), (sends, issues), "{}", kind.name);
        }
    }
}

/// The kind of the frame sent, and whether a command was issued. The calls that are no step leave the lengths.
fn sent(left: &Left) -> (Option<u8>, bool) {
    match left.lengths {
        [usize::MAX, _] => (None, false),
        [frame, command] => ((frame > 0).then_some(left.frame[0]), command > 0),
    }
}
