//! The programs as they run: standard input, standard output and the planted
//! faults.

use std::io::Write;
use std::process::{Command, Output, Stdio};

use second::fault::{MARK_NAMES, QUORUM_CALL_NAMES, QUORUM_NAMES, ROUNDING_NAMES, STORE_NAMES};

const BENCH: &str = env!("CARGO_BIN_EXE_bench");
const RIG: &str = env!("CARGO_BIN_EXE_rig");
const PAGE: &str = env!("CARGO_BIN_EXE_page");

const EXAMPLE: &str = "T 1 100\nT 2 102\nD 2 1\nD 1 3\nD 2 4\nT 2 -\n";

fn run(program: &str, fault: &str, input: &[u8]) -> Output {
    let mut child = Command::new(program)
        .env("SECOND_FAULT", fault)
        .stdin(Stdio::piped())
        .stdout(Stdio::piped())
        .stderr(Stdio::piped())
        .spawn()
        .unwrap();
    // A program that ends early may leave the rest of its input unread.
    let _ = child.stdin.take().unwrap().write_all(input);
    child.wait_with_output().unwrap()
}

fn lines(program: &str, fault: &str, input: &str) -> Vec<String> {
    let output = run(program, fault, input.as_bytes());
    assert!(output.status.success());
    let text = String::from_utf8(output.stdout).unwrap();
    text.lines().map(str::to_string).collect()
}

/// The fault must show, first on the line given (counted from 1 after the
/// header), as the row given; without the feature it must not.
fn assert_shows(program: &str, fault: &str, input: &str, line: usize, row: &str) {
    let right = lines(program, "", input);
    let wrong = lines(program, fault, input);
    if !cfg!(feature = "faults") {
        assert_eq!(right, wrong, "{fault}");
        return;
    }
    assert_eq!(right[..line], wrong[..line], "{fault}");
    assert_ne!(right[line], wrong[line], "{fault}");
    assert_eq!(wrong[line], row, "{fault}");
}

fn rig_of(boxes: u8, script: &str) -> String {
    rig_with(boxes, "", script)
}

/// The same with what stands at the end of its first line.
fn rig_with(boxes: u8, quorums: &str, script: &str) -> String {
    let settings = "1 1 1 32768 32768 65536 65536 -2147483648 2147483647 8";
    format!("rig {boxes} {settings}{quorums}\n{script}")
}

#[test]
fn bench_prints_the_example() {
    let expected = [
        "no who answer k v vb kb x frame command",
        "1 1 ok 1 0 0 1 0 1 -",
        "2 2 ok 1 0 0 0 0 - -",
        "3 2 ok 1 0 0 1 0 3 -",
        "4 1 ok 1 0 0 1 0 4 50",
        "5 2 ok 1 0 0 1 0 - 50",
        "6 2 ok 2 0 0 1 50 - -",
    ];
    assert_eq!(lines(BENCH, "", EXAMPLE), expected);
}

#[test]
fn rig_prints_the_example_too() {
    let settings = "1 1 1 65536 32768 65536 65536 -2147483648 2147483647 0";
    let input = format!("rig 3 {settings}\n{EXAMPLE}");
    assert_eq!(lines(RIG, "", &input), lines(BENCH, "", EXAMPLE));
}

#[test]
fn any_bytes_are_answered_line_by_line() {
    let mut seed: u32 = 1;
    let mut bytes = Vec::new();
    for _ in 0..20_000 {
        seed = seed.wrapping_mul(1_664_525).wrapping_add(1_013_904_223);
        bytes.push((seed >> 24) as u8);
    }
    let count = bytes.split(|&byte| byte == b'\n').count();
    let output = run(BENCH, "", &bytes);
    assert!(output.status.success());
    let printed = String::from_utf8(output.stdout).unwrap();
    assert_eq!(printed.lines().count(), 1 + count.min(500));
    assert_eq!(run(RIG, "", &bytes).stdout, b"bad\n");
}

#[test]
fn an_unknown_fault_is_an_error() {
    let output = run(BENCH, "no_such_fault", b"");
    assert!(!output.status.success());
    assert!(output.stdout.is_empty());
}

#[test]
fn base_period_first_shows() {
    // Boxes 2, 3 and 5 change to view 1, where box 3 accepts in period 1.
    // Box 4 stays and accepts in view 0 in period 2. Then box 3 gathers
    // estimates for view 2: its own is of base view 1, box 4's of period 2.
    let script = "T 1 10\nT 2 20\nT 3 30\nT 4 40\nT 5 50\n\
                  G 2\nG 3\nG 5\nD 2 7\nD 2 8\nD 3 10\n\
                  T 1 60\nT 4 70\nD 4 12\nG 4\nG 4\n\
                  T 3 80\nG 3\nD 3 16\nT 5 90\nG 5\nD 3 21\n";
    let input = rig_of(5, script);
    assert_eq!(lines(RIG, "", &input)[22], "22 3 ok 2 2 2 2 10 22 -");
    let row = "22 3 ok 2 2 2 2 5 22 -";
    assert_shows(RIG, "base_period_first", &input, 22, row);
}

#[test]
fn own_readings_shows() {
    let input = "T 1 100\nT 2 102\nD 2 1\nT 2 -\n";
    assert_shows(BENCH, "own_readings", input, 4, "4 2 ok 2 0 0 1 51 - -");
}

#[test]
fn doubled_ack_shows() {
    let script = "T 1 10\nT 2 10\nD 2 1\nD 1 3\nD 1 3\n";
    let row = "5 1 ok 1 0 0 1 8 5 5";
    assert_shows(RIG, "doubled_ack", &rig_of(4, script), 5, row);
}

#[cfg(feature = "faults")]
#[test]
fn doubled_acks_add_up() {
    // A majority of 9 is 5: the box itself and four Acks, all of box 2.
    let script = "T 1 10\nT 2 10\nD 2 1\nD 1 3\nD 1 3\nD 1 3\nD 1 3\n";
    let wrong = lines(RIG, "doubled_ack", &rig_of(9, script));
    assert_eq!(wrong[6], "6 1 ok 1 0 0 1 8 - -");
    assert_eq!(wrong[7], "7 1 ok 1 0 0 1 8 7 5");
}

#[test]
fn old_estimate_shows() {
    let input = "T 1 100\nT 1 100\n";
    assert_shows(BENCH, "old_estimate", input, 2, "2 1 ok 2 0 0 2 0 2 -");
}

#[test]
fn first_tick_shows() {
    let input = rig_of(3, "T 1 100\n");
    assert_shows(RIG, "first_tick", &input, 1, "1 1 ok 1 0 0 1 4 1 -");
}

#[test]
fn quorum_smaller_shows() {
    let script = "T 1 10\nT 2 10\nD 2 1\nD 1 3\n";
    let row = "4 1 ok 1 0 0 1 8 4 5";
    assert_shows(RIG, "quorum_smaller", &rig_of(4, script), 4, row);
    // Both numbers: of the second, box 2 has heard itself and box 3.
    let row = "5 2 ok 1 1 1 1 8 5 -";
    assert_shows(RIG, "quorum_smaller", &rig_of(4, TAKEN_OVER), 5, row);
}

/// Box 1's Propose is acknowledged by one box.
const ACKNOWLEDGED: &str = "T 1 10\nT 2 10\nD 2 1\nD 1 3\n";

/// Box 2 hears one Estimate.
const TAKEN_OVER: &str = "T 2 10\nG 2\nT 3 10\nG 3\nD 2 4\n";

#[test]
fn rig_takes_two_quorum_numbers() {
    let row = |quorums, script, line: usize| {
        let rows = lines(RIG, "", &rig_with(5, quorums, script));
        rows[line].clone()
    };
    let (decided, undecided) = ("4 1 ok 1 0 0 1 8 4 5", "4 1 ok 1 0 0 1 8 - -");
    let (proposed, waiting) = ("5 2 ok 1 1 1 1 8 5 -", "5 2 ok 1 1 0 0 8 - -");
    let cases = [
        ("", undecided, waiting),
        (" quorums 3 3", undecided, waiting),
        (" quorums 2 4", decided, waiting),
        (" quorums 2 5", decided, waiting),
        (" quorums 4 2", undecided, proposed),
        (" quorums 5 2", undecided, proposed),
        (" quorums 5 5", undecided, waiting),
    ];
    for (quorums, fourth, fifth) in cases {
        assert_eq!(row(quorums, ACKNOWLEDGED, 4), fourth, "{quorums}");
        assert_eq!(row(quorums, TAKEN_OVER, 5), fifth, "{quorums}");
    }
    assert_eq!(lines(RIG, "", &rig_with(4, " quorums 2 2", "")), ["r18"]);
}

/// The first line that shows each fault of quorums, and its row; 0 is the
/// header's, or what stands in its place.
#[test]
fn faults_of_quorums_show() {
    let acknowledged = |boxes, quorums| rig_with(boxes, quorums, ACKNOWLEDGED);
    let taken_over = |boxes, quorums| rig_with(boxes, quorums, TAKEN_OVER);
    let crossed = "rig 4 1 1 1 1 1 1 1 2 1 1 quorums 0 0\n".to_string();
    let header = "no who answer k v vb kb x frame command";
    let undecided = "4 1 ok 1 0 0 1 8 - -";
    let waiting = "5 2 ok 1 1 0 0 8 - -";
    let cases = [
        (
            "quorums_exchanged",
            acknowledged(5, " quorums 2 4"),
            4,
            undecided,
        ),
        ("sum_of_n_taken", acknowledged(4, " quorums 2 2"), 0, header),
        (
            "own_estimate_not_counted",
            taken_over(4, " quorums 3 2"),
            5,
            waiting,
        ),
        (
            "coordinator_not_counted",
            acknowledged(4, " quorums 2 3"),
            4,
            undecided,
        ),
        (
            "quorum_of_one_taken",
            acknowledged(4, " quorums 1 4"),
            0,
            header,
        ),
        (
            "quorum_above_taken",
            acknowledged(4, " quorums 5 4"),
            0,
            header,
        ),
        ("quorums_before_limits", crossed, 0, "r18"),
        (
            "quorums_presumed",
            acknowledged(5, " quorums 2 4"),
            4,
            undecided,
        ),
    ];
    for (fault, input, line, row) in &cases {
        assert_shows(RIG, fault, input, *line, row);
    }
    let names = cases.map(|case| case.0);
    assert_eq!(names, QUORUM_NAMES.map(|(name, _)| name));
    // The others show in no script.
    let stored = format!("{ACKNOWLEDGED}S 1\nR 1 0\nS 2\nR 2 1\nAT 1 7\nSA 1\nR 1 0\n");
    let input = rig_with(5, " quorums 2 4", &stored);
    for (fault, _) in QUORUM_CALL_NAMES {
        assert_eq!(lines(RIG, fault, &input), lines(RIG, "", &input), "{fault}");
    }
    // On the bench: of 2 and 2 neither is reached.
    let row = "4 1 ok 1 0 0 1 0 - -";
    assert_shows(BENCH, "coordinator_not_counted", EXAMPLE, 4, row);
    let row = "5 2 ok 1 1 0 0 0 - -";
    assert_shows(BENCH, "own_estimate_not_counted", TAKEN_OVER, 5, row);
}

#[test]
fn heard_kept_shows() {
    // Box 1 has heard itself and box 2 when box 3's Estimate of view 4 comes.
    let script = "T 1 10\nT 2 10\nD 2 1\nD 1 3\nT 3 9\nG 3\nG 3\nG 3\nG 3\nD 1 9\n";
    let row = "10 1 ok 1 4 4 1 8 10 -";
    assert_shows(RIG, "heard_kept", &rig_of(4, script), 10, row);
}

#[test]
fn command_before_shows() {
    let row = "4 1 ok 1 0 0 1 0 4 0";
    assert_shows(BENCH, "command_before", EXAMPLE, 4, row);
}

#[test]
fn round_to_zero_shows() {
    // −51.5: the even one, −52, is further from zero.
    let input = "T 1 -103\nT 1 -\n";
    assert_eq!(lines(BENCH, "", input)[2], "2 1 ok 2 0 0 2 -52 2 -");
    assert_shows(BENCH, "round_to_zero", input, 2, "2 1 ok 2 0 0 2 -51 2 -");
}

#[test]
fn two_divisions_shows() {
    // Half of 1 and half of 2 − 1.
    let input = decided_on_the_rig("32768 32768 65536 65536", 1, 2);
    assert_eq!(lines(RIG, "", &input)[4], "4 1 ok 1 0 0 1 1 4 1");
    assert_shows(RIG, "two_divisions", &input, 4, "4 1 ok 1 0 0 1 1 4 0");
}

#[test]
fn lower_view_shows() {
    let input = "T 1 5\nT 2 7\nG 2\nD 2 1\n";
    assert_shows(BENCH, "lower_view", input, 4, "4 2 ok 1 0 0 1 0 4 -");
}

#[test]
fn coordinator_before_sender_shows() {
    // Box 2 gets its own Ack, which is for box 1.
    let input = "T 1 5\nT 2 7\nD 2 1\nD 2 3\n";
    let row = "4 2 r10 1 0 0 1 0 - -";
    assert_shows(BENCH, "coordinator_before_sender", input, 4, row);
}

#[test]
fn ignoring_before_refusals_shows() {
    // Box 3, still in period 0, gets an Ack that is for box 1.
    let input = "T 1 5\nT 2 7\nD 2 1\nD 3 3\n";
    let row = "4 3 ignored 0 0 0 0 0 - -";
    assert_shows(BENCH, "ignoring_before_refusals", input, 4, row);
}

#[test]
fn decide_acknowledged_shows() {
    let row = "5 2 ok 1 0 0 1 0 5 50";
    assert_shows(BENCH, "decide_acknowledged", EXAMPLE, 5, row);
}

#[test]
fn proposer_not_counted_shows() {
    let row = "4 1 ok 1 0 0 1 0 - -";
    assert_shows(BENCH, "proposer_not_counted", EXAMPLE, 4, row);
}

#[test]
fn base_period_kept_shows() {
    let row = "3 2 ok 1 0 0 0 0 3 -";
    assert_shows(BENCH, "base_period_kept", EXAMPLE, 3, row);
}

/// A reading on the rig, then a missing one: the state of the second line is
/// the reading as converted, or the start where it was missing.
fn reading_on_the_rig(start: i32, word: &str) -> String {
    let settings = "1 1 1 65536 65536 65536 65536 -2147483648 2147483647";
    format!("rig 3 {settings} {start}\nT 2 {word}\nT 2 -\n")
}

#[test]
fn faults_of_singles_show() {
    let cases = [
        ("single_toward_zero", -3, "fb7c00000", -2, -1),
        ("negative_subnormal_zero", -3, "f80000001", -1, 0),
        ("above_range_taken", 0, "f47000000", 0, 2_147_483_647),
        ("lowest_missing", -3, "fc7000000", -2_147_483_648, -3),
        ("exponent_off_by_one", -3, "f3fc00000", 98_304, 196_608),
        ("infinity_taken", 0, "f7f800000", 0, 2_147_483_647),
        ("infinity_taken", 0, "fff800000", 0, -2_147_483_648),
        ("nan_taken", -3, "f7fc00000", -3, 0),
        ("nan_taken", -3, "fff800001", -3, 0),
    ];
    for (fault, start, word, right, wrong) in cases {
        let input = reading_on_the_rig(start, word);
        let row = |state: i32| format!("2 2 ok 2 0 0 0 {state} - -");
        assert_eq!(lines(RIG, "", &input)[2], row(right), "{word}");
        assert_shows(RIG, fault, &input, 2, &row(wrong));
    }
}

#[test]
fn missing_present_shows() {
    let settings = "1 4 1 65536 65536 0 0 0 65536 0 0 0 65536 -9 9 7";
    let input = format!("rig 3 {settings}\nT 2 - 1 1 1\nT 2 1 1 1 1\n");
    let row = "2 2 ok 2 0 0 0 0 - -";
    assert_shows(RIG, "missing_present", &input, 2, row);
    // With m below 4 every row has missing readings at or above m.
    let input = reading_on_the_rig(7, "1");
    let row = "1 2 r7 0 0 0 0 7 - -";
    assert_shows(RIG, "missing_present", &input, 1, row);
}

/// A period that is decided with the gains A, L, C and K and one reading:
/// line 4 has the command of the start's update.
fn decided_on_the_rig(gains: &str, start: i32, reading: i32) -> String {
    let settings = format!("1 1 1 {gains} -2147483648 2147483647 {start}");
    format!("rig 3 {settings}\nT 1 {reading}\nT 2 -\nD 2 1\nD 1 3\n")
}

/// The fault shows on line 4, and none of these others shows at all.
fn assert_shows_without(others: &[&str], fault: &str, input: &str, right: &str, wrong: &str) {
    let rows = lines(RIG, "", input);
    assert_eq!(rows[4], right, "{fault}");
    assert_shows(RIG, fault, input, 4, wrong);
    for other in others.iter().filter(|&&other| other != fault) {
        assert_eq!(lines(RIG, other, input), rows, "{other} for {fault}");
    }
}

/// Of all faults of rounding this one alone shows.
fn assert_rounding_shows(fault: &str, input: &str, right: &str, wrong: &str) {
    let all = ROUNDING_NAMES.map(|(name, _)| name);
    assert_shows_without(&all, fault, input, right, wrong);
}

#[test]
fn floor_kept_shows() {
    // The state is −4.25 and the command a quarter of it. Of −4 or of −5 the
    // nearest is −1; only both floors come to −2.
    let input = decided_on_the_rig("65536 16384 65536 16384", 0, -17);
    let (right, wrong) = ("4 1 ok 1 0 0 1 0 4 -1", "4 1 ok 1 0 0 1 0 4 -2");
    assert_rounding_shows("floor_kept", &input, right, wrong);
    // The case P2, as document 01 had it.
    let input = "T 1 -101\nT 1 -\n";
    assert_eq!(lines(BENCH, "", input)[2], "2 1 ok 2 0 0 2 -50 2 -");
    assert_shows(BENCH, "floor_kept", input, 2, "2 1 ok 2 0 0 2 -51 2 -");
}

#[test]
fn ties_up_shows() {
    // −51.5: the even one is further from zero, as the floor is.
    let input = decided_on_the_rig("65536 32768 65536 65536", 0, -103);
    let (right, wrong) = ("4 1 ok 1 0 0 1 0 4 -52", "4 1 ok 1 0 0 1 0 4 -51");
    assert_rounding_shows("ties_up", &input, right, wrong);
    let input = "T 1 101\nT 1 -\n";
    assert_eq!(lines(BENCH, "", input)[2], "2 1 ok 2 0 0 2 50 2 -");
    assert_shows(BENCH, "ties_up", input, 2, "2 1 ok 2 0 0 2 51 2 -");
}

#[test]
fn ties_away_from_zero_shows() {
    // 50.5, of which the command is minus a half: −25 of 50. With 51 it is a
    // tie again, which goes up to −25 or away from zero.
    let input = decided_on_the_rig("65536 32768 65536 -32768", 0, 101);
    let (right, wrong) = ("4 1 ok 1 0 0 1 0 4 -25", "4 1 ok 1 0 0 1 0 4 -26");
    assert_rounding_shows("ties_away_from_zero", &input, right, wrong);
    let input = "T 1 101\nT 1 -\n";
    assert_eq!(lines(BENCH, "", input)[2], "2 1 ok 2 0 0 2 50 2 -");
    let row = "2 1 ok 2 0 0 2 51 2 -";
    assert_shows(BENCH, "ties_away_from_zero", input, 2, row);
}

#[test]
fn floored_prediction_shows() {
    // 0.75 is predicted: e(1) is 1 − 1, or 1 − 0 by the floor. So the state is
    // 0.25 or 0.75, which the nearest alone tells apart.
    let input = decided_on_the_rig("16384 32768 49152 65536", 1, 1);
    let (right, wrong) = ("4 1 ok 1 0 0 1 1 4 0", "4 1 ok 1 0 0 1 1 4 1");
    assert_rounding_shows("floored_prediction", &input, right, wrong);
}

#[test]
fn floored_update_shows() {
    // As above, but the state is 0.75 or 1.25: 1, but for the floor of 0.75.
    let input = decided_on_the_rig("49152 32768 49152 65536", 1, 1);
    let (right, wrong) = ("4 1 ok 1 0 0 1 1 4 1", "4 1 ok 1 0 0 1 1 4 0");
    assert_rounding_shows("floored_update", &input, right, wrong);
}

#[test]
fn floored_command_shows() {
    // The state is 0.75, the command minus a quarter of 1, or of 0 by the
    // floor: 0, but for the floor of −0.25.
    let input = decided_on_the_rig("65536 49152 65536 -16384", 0, 1);
    let (right, wrong) = ("4 1 ok 1 0 0 1 0 4 0", "4 1 ok 1 0 0 1 0 4 -1");
    assert_rounding_shows("floored_command", &input, right, wrong);
    // The state is the same.
    let next = format!("{input}T 1 -\n");
    let row = "5 1 ok 2 0 0 2 1 5 -";
    assert_eq!(lines(RIG, "", &next)[5], row);
    assert_eq!(lines(RIG, "floored_command", &next)[5], row);
}

#[test]
fn faults_of_single_divisions_show() {
    // Of the three divisions one alone has a remainder: its quotient is 0.75.
    let cases = [
        ("floored_prediction", "65536 65536 49152 65536", 1, 1, 2),
        ("floored_update", "65536 49152 65536 65536", 0, 1, 0),
        ("floored_command", "65536 65536 65536 49152", 0, 1, 0),
    ];
    let names = cases.map(|(fault, ..)| fault);
    for (fault, gains, start, right, wrong) in cases {
        let input = decided_on_the_rig(gains, start, 1);
        let row = |command: i32| format!("4 1 ok 1 0 0 1 {start} 4 {command}");
        assert_shows_without(&names, fault, &input, &row(right), &row(wrong));
        assert_shows(RIG, "floor_kept", &input, 4, &row(wrong));
    }
}

/// The bench's group on the rig, with these lines.
fn bench_on_the_rig(script: &str) -> String {
    let settings = "1 1 1 65536 32768 65536 65536 -2147483648 2147483647 0";
    format!("rig 3 {settings}\n{script}")
}

/// Box 2 stores in period 0 and in period 1, goes on and returns.
const STOPPED: &str = "S 2\nT 2 100\nS 2\nT 2 -\nR 2 0\nR 2 2\nR 2 10001\n";

#[test]
fn a_box_stops_and_returns() {
    let expected = [
        "no who answer k v vb kb x frame command",
        "1 2 ok 0 0 0 0 0 - -",
        "2 2 ok 1 0 0 0 0 - -",
        "3 2 ok 1 0 0 0 0 - -",
        "4 2 ok 2 0 0 0 50 - -",
        "5 2 ok 1 0 0 0 0 - -",
        "6 2 ok 3 0 0 0 50 - -",
        "7 2 r16 3 0 0 0 50 - -",
    ];
    assert_eq!(lines(RIG, "", &bench_on_the_rig(STOPPED)), expected);
}

#[test]
fn faults_of_returning_show() {
    let cases = [
        ("present_returned", 5, "5 2 ok 2 0 0 0 50 - -"),
        ("second_store_dropped", 5, "5 2 ok 0 0 0 0 0 - -"),
        ("missed_without_update", 6, "6 2 ok 3 0 0 0 0 - -"),
        ("missed_one_fewer", 6, "6 2 ok 2 0 0 0 50 - -"),
        ("missed_beyond_taken", 7, "7 2 ok 10002 0 0 0 50 - -"),
    ];
    let names = STORE_NAMES.map(|(name, _)| name);
    assert_eq!(names, [cases[0].0, cases[1].0]);
    for (fault, line, row) in cases {
        assert_shows(RIG, fault, &bench_on_the_rig(STOPPED), line, row);
    }
}

/// Three periods, of which the second has an e(1) that is clamped.
const CLAMPED: &str = "T 1 2147483640\nT 2 -\nD 2 1\nD 1 3\n\
                       T 1 -2147483648\nT 2 -\nD 2 5\nD 1 7\n\
                       T 1 9\nT 2 -\nD 2 9\nD 1 11\n";

/// A period with limits of 40 either way that is decided, and the next one.
fn limited_on_the_rig(first: i32, second: i32) -> String {
    let settings = "1 1 1 65536 32768 65536 65536 -40 40 0";
    let lines = format!(
        "T 1 {first}\nT 2 -\nD 2 1\nD 1 3\n\
         T 1 {second}\nT 2 -\nD 2 5\nD 1 7\n"
    );
    format!("rig 3 {settings}\n{lines}")
}

#[test]
fn commands_that_hit_the_stop_have_a_star() {
    for (program, input) in [(BENCH, CLAMPED), (RIG, &bench_on_the_rig(CLAMPED))] {
        let rows = lines(program, "", input);
        assert_eq!(rows[4], "4 1 ok 1 0 0 1 0 4 1073741820");
        assert_eq!(rows[8], "8 1 ok 2 0 0 2 1073741820 8 -4*");
        assert_eq!(rows[12], "12 1 ok 3 0 0 3 -4 12 2");
    }
    let rows = lines(RIG, "", &limited_on_the_rig(100, -30));
    assert_eq!(rows[4], "4 1 ok 1 0 0 1 0 4 40*");
    assert_eq!(rows[8], "8 1 ok 2 0 0 2 50 8 10");
}

#[test]
fn faults_of_marks_show_on_the_bench() {
    let unmarked = "8 1 ok 2 0 0 2 1073741820 8 -4";
    for fault in [
        "only_commands_marked",
        "marks_left_zero",
        "estimates_update_marked",
    ] {
        assert_shows(BENCH, fault, CLAMPED, 8, unmarked);
    }
    let row = "12 1 ok 3 0 0 3 -4 12 2*";
    assert_shows(BENCH, "last_mark_kept", CLAMPED, 12, row);
    // An e(1) at the end of i32.
    let input = "T 1 2147483647\nT 2 -\nD 2 1\nD 1 3\n";
    let row = "4 1 ok 1 0 0 1 0 4 1073741824*";
    assert_shows(BENCH, "at_limit_marked", input, 4, row);
    // There no command is beyond its limits, so this one shows nowhere.
    assert_eq!(
        lines(BENCH, "only_updates_marked", CLAMPED),
        lines(BENCH, "", CLAMPED)
    );
}

/// The state comes down to the least, half of the way in each period; then an
/// absent reading's e(1) would be clamped.
#[test]
fn absent_marked_shows_on_the_bench() {
    let falling = "T 1 -2147483648\n".repeat(33);
    let caught_up = "T 2 -\n".repeat(34);
    let input = format!("{falling}T 1 -\n{caught_up}D 2 34\nD 1 69\n");
    let right = "70 1 ok 34 0 0 34 -2147483648 70 -2147483648";
    assert_eq!(lines(BENCH, "", &input)[70], right);
    assert_shows(BENCH, "absent_marked", &input, 70, &format!("{right}*"));
}

/// The first line that shows each fault of marks on the rig, and its row.
#[test]
fn faults_of_marks_show_on_the_rig() {
    let marked = limited_on_the_rig(100, -30);
    let at_limit = limited_on_the_rig(80, -30);
    let clamped = bench_on_the_rig(CLAMPED);
    // Twice the state is predicted.
    let absent = decided_on_the_rig("65536 32768 131072 65536", -1_073_741_824, 0);
    let absent = absent.replace("T 1 0", "T 1 -");
    let unmarked = "8 1 ok 2 0 0 2 1073741820 8 -4";
    let cases = [
        ("only_commands_marked", &clamped, 8, unmarked),
        ("only_updates_marked", &marked, 4, "4 1 ok 1 0 0 1 0 4 40"),
        (
            "absent_marked",
            &absent,
            4,
            "4 1 ok 1 0 0 1 -1073741824 4 -1073741824*",
        ),
        ("last_mark_kept", &marked, 8, "8 1 ok 2 0 0 2 50 8 10*"),
        ("marks_left_zero", &marked, 4, "4 1 ok 1 0 0 1 0 4 40"),
        ("estimates_update_marked", &clamped, 8, unmarked),
        ("at_limit_marked", &at_limit, 4, "4 1 ok 1 0 0 1 0 4 40*"),
    ];
    assert_eq!(cases.map(|case| case.0), MARK_NAMES.map(|(name, _)| name));
    for (fault, input, line, row) in cases {
        assert_shows(RIG, fault, input, line, row);
    }
}

/// The last line of this script on the rig with limits of 40 either way.
#[cfg(feature = "faults")]
fn last_with_mark_kept(script: &str) -> String {
    let settings = "1 1 1 65536 32768 65536 65536 -40 40 0";
    let input = format!("rig 3 {settings}\n{script}");
    lines(RIG, "last_mark_kept", &input).pop().unwrap()
}

/// A mark is kept of what was issued, so not of an ask, and by the box that
/// stayed up.
#[cfg(feature = "faults")]
#[test]
fn a_mark_is_kept_by_the_box_that_issued_it() {
    let asked = "T 1 100\nT 2 -\nD 2 1\nAD 1 3\n";
    let uncommitted = format!("{asked}G 1\nT 1 -30\nT 2 -\nD 2 6\nD 1 8\n");
    let row = "9 1 ok 2 0 0 2 50 9 10";
    assert_eq!(last_with_mark_kept(&uncommitted), row);
    let committed = format!("{asked}C 1 1\nT 1 -30\nT 2 -\nD 2 6\nD 1 8\n");
    assert_eq!(last_with_mark_kept(&committed), format!("{row}*"));
    let returned = format!("{asked}C 1 1\nT 1 -30\nT 2 -\nD 2 6\nS 1\nR 1 0\nD 1 8\n");
    let row = "11 1 ok 2 0 0 2 50 11 10";
    assert_eq!(last_with_mark_kept(&returned), row);
    // Box 2 has issued none before.
    let other = format!("{asked}C 1 1\nT 1 -30\nT 2 -\nD 2 6\nD 1 8\nD 2 9\n");
    assert_eq!(last_with_mark_kept(&other), "10 2 ok 2 0 0 2 50 - 10");
}

/// What the program prints and, where lines are passed over, says of them.
fn assert_pages(text: &[u8], pages: &[&str], said: &str) {
    let output = run(PAGE, "", text);
    assert!(output.status.success());
    assert_eq!(String::from_utf8(output.stdout).unwrap(), pages.concat());
    assert_eq!(String::from_utf8(output.stderr).unwrap(), said);
}

#[test]
fn page_prints_the_page_of_the_example() {
    let text = run(BENCH, "", EXAMPLE.as_bytes()).stdout;
    let page = [
        "         1          0           50                                      \n",
        "         2          0            -                                      \n",
    ];
    assert_pages(&text, &page, "");
    let longer = [&text[..], b"\n7 bad\n8 worse\nr13\n"].concat();
    assert_pages(&longer, &page, "page: lines passed over: 3\n");
}

#[test]
fn page_passes_over_the_star() {
    let text = run(BENCH, "", CLAMPED.as_bytes()).stdout;
    let page = [
        "         1          0   1073741820                                      \n",
        "         2          0           -4                                      \n",
        "         3          0            2                                      \n",
    ];
    assert_pages(&text, &page, "");
}

#[test]
fn page_prints_nothing_where_there_is_no_entry() {
    assert_pages(b"", &[], "");
    assert_pages(b"r1\n", &[], "");
    assert_pages(b"\n", &[], "page: lines passed over: 1\n");
}

#[test]
fn page_prints_a_form_feed_between_pages() {
    let script: String = (1..=61).map(|y| format!("T 2 {y}\n")).collect();
    let text = run(BENCH, "", script.as_bytes()).stdout;
    let line = |period| format!("{period:10}          0 {:>12}{:38}\n", "-", "");
    let first: String = (1..=60).map(line).collect();
    assert_pages(&text, &[&first, "\u{c}\n", &line(61)], "");
}

/// Of the faults of pages those of writing show in what is printed.
#[test]
fn faults_of_pages_show() {
    let text = "1 1 ok 1 0 0 0 0 - -\n1 1 ok 1 0 0 0 0 - 5\n\
                1 1 ok 1 0 0 0 0 - 6\n1 1 ok 2 1 0 0 0 - -\n";
    let right = [
        "         1          0            5                                      ",
        "         2          1            -                                      ",
    ];
    assert_eq!(lines(PAGE, "", text), right);
    let cases = [
        (
            "last_given",
            0,
            "         1          0            6                                      ",
        ),
        (
            "without_command_stays",
            0,
            "         1          0            -                                      ",
        ),
        (
            "falling_order",
            0,
            "         2          1            -                                      ",
        ),
        (
            "view_column",
            0,
            "         1         0             5                                      ",
        ),
        (
            "hyphen_column",
            1,
            "         2          1 -                                                 ",
        ),
    ];
    for (fault, line, row) in cases {
        assert_shows(PAGE, fault, text, line, row);
    }
}
