//! Document 02, L7, "Commands that hit the stop": byte 2 of the commands that
//! steps, calls on records and asks write, the `*` of the scripts, and the
//! faults of both.

mod planted;

use planted::Case;
use second::calls::{self, DONE};
use second::fault;
use second::frame::{command_limited, command_values, COMMAND_AREA, FRAME_AREA};
use second::law::{self, Readings, Settings, State};
use second::printed;
use second::reading::{Reading, Row};
use second::record::LENGTH;
use second::replica::{Answer, Areas, Quorums, Replica};
use second::script::{self, bench_settings};
use second::ticket_calls;
use second::tickets;

/// Those of the bench.
const QUORUMS: Quorums = Quorums {
    to_decide: 2,
    to_propose: 2,
};

const LEAST: i32 = i32::MIN;
const LARGEST: i32 = i32::MAX;

/// Half of the largest, which the bench's law makes of it.
const HALF: i32 = 1 << 30;

enum Event {
    Tick(Option<i32>),
    Arrive(Vec<u8>),
}

impl Event {
    /// Kinds and bits of a tick's readings, as the calls on records take them.
    fn of_tick(y: Option<i32>) -> ([u8; 4], [u32; 4]) {
        let kind = u8::from(y.is_some());
        ([kind, 0, 0, 0], [y.unwrap_or(0) as u32, 0, 0, 0])
    }
}

/// What an event wrote: its frame and its command.
type Written = (Vec<u8>, Vec<u8>);

/// The commands of as many periods as there are readings, which the
/// coordinator gets and which box 2 helps it to decide. Both issue the same.
fn commands<B>(
    making: impl Fn(u8) -> B,
    take: impl Fn(&mut B, &Event) -> Written,
    readings: &[Option<i32>],
) -> Vec<Vec<u8>> {
    let (mut one, mut two) = (making(1), making(2));
    let decide = |&y: &Option<i32>| {
        let (propose, _) = take(&mut one, &Event::Tick(y));
        take(&mut two, &Event::Tick(None));
        let (ack, _) = take(&mut two, &Event::Arrive(propose));
        let (decide, command) = take(&mut one, &Event::Arrive(ack));
        let (_, told) = take(&mut two, &Event::Arrive(decide));
        assert_eq!(command, told);
        command
    };
    readings.iter().map(decide).collect()
}

/// What a call with lent areas wrote, which gives its lengths.
fn lend(call: impl FnOnce(Areas) -> [usize; 2]) -> Written {
    let (mut frame, mut command) = ([0xAA; FRAME_AREA], [0xAA; COMMAND_AREA]);
    let [of_frame, of_command] = call(Areas {
        frame: &mut frame,
        command: &mut command,
    });
    (frame[..of_frame].to_vec(), command[..of_command].to_vec())
}

fn by_steps(settings: Settings, readings: &[Option<i32>]) -> Vec<Vec<u8>> {
    let take = |replica: &mut Replica, event: &Event| {
        lend(|areas| {
            let (next, step) = match event {
                Event::Tick(y) => replica.tick(&row_of(*y), areas),
                Event::Arrive(bytes) => replica.arrive(bytes, areas),
            };
            assert_eq!(step.answer, Answer::Ok);
            *replica = next;
            [step.frame_length, step.command_length]
        })
    };
    let making = |own| Replica::new(3, own, QUORUMS, settings).unwrap();
    commands(making, take, readings)
}

fn row_of(y: Option<i32>) -> Row {
    let missing = Reading::Missing;
    [y.map_or(missing, Reading::Count), missing, missing, missing]
}

fn made(own: u8, settings: Settings) -> Vec<u8> {
    let mut record = vec![0; LENGTH];
    assert_eq!(calls::make(3, own, QUORUMS, settings, &mut record), DONE);
    record
}

fn by_records(settings: Settings, readings: &[Option<i32>]) -> Vec<Vec<u8>> {
    let take = |record: &mut Vec<u8>, event: &Event| {
        lend(|areas| {
            let mut lengths = [0; 2];
            let answer = match event {
                Event::Tick(y) => {
                    let (kinds, bits) = Event::of_tick(*y);
                    calls::tick(record, &kinds, &bits, areas, &mut lengths)
                }
                Event::Arrive(bytes) => calls::arrive(record, bytes, areas, &mut lengths),
            };
            assert_eq!(answer, DONE);
            lengths
        })
    };
    commands(|own| made(own, settings), take, readings)
}

fn with_tickets(own: u8, settings: Settings) -> Vec<u8> {
    let mut area = vec![0; tickets::LENGTH];
    let answer = ticket_calls::tickets(&made(own, settings), &mut area);
    assert_eq!(answer, DONE);
    area
}

fn by_steps_with_tickets(settings: Settings, readings: &[Option<i32>]) -> Vec<Vec<u8>> {
    use ticket_calls::{ticketed_arrive, ticketed_tick};
    let take = |area: &mut Vec<u8>, event: &Event| {
        lend(|areas| {
            let mut lengths = [0; 2];
            let answer = match event {
                Event::Tick(y) => {
                    let (kinds, bits) = Event::of_tick(*y);
                    ticketed_tick(area, &kinds, &bits, areas, &mut lengths)
                }
                Event::Arrive(bytes) => ticketed_arrive(area, bytes, areas, &mut lengths),
            };
            assert_eq!(answer, DONE);
            lengths
        })
    };
    commands(|own| with_tickets(own, settings), take, readings)
}

/// Every event is asked, which gives what it writes, and committed.
fn by_asks(settings: Settings, readings: &[Option<i32>]) -> Vec<Vec<u8>> {
    use ticket_calls::{ask_arrive, ask_tick};
    let take = |area: &mut Vec<u8>, event: &Event| {
        let mut ticket = 0;
        let written = lend(|areas| {
            let (mut record, mut lengths) = ([0; LENGTH], [0; 2]);
            let (record, lengths_given) = (&mut record, &mut lengths);
            let answer = match event {
                Event::Tick(y) => {
                    let (kinds, bits) = Event::of_tick(*y);
                    let ticket = &mut ticket;
                    ask_tick(area, &kinds, &bits, record, areas, lengths_given, ticket)
                }
                Event::Arrive(bytes) => {
                    ask_arrive(area, bytes, record, areas, lengths_given, &mut ticket)
                }
            };
            assert_eq!(answer, DONE);
            lengths
        });
        assert_eq!(ticket_calls::commit(area, ticket), DONE);
        written
    };
    commands(|own| with_tickets(own, settings), take, readings)
}

/// The bench's settings with a start.
fn from(start: i32) -> Settings {
    let mut settings = bench_settings();
    settings.start[0] = start;
    settings
}

/// These with limits of the command.
fn in_limits(start: i32, lower: i32, upper: i32) -> Settings {
    let mut settings = from(start);
    (settings.lower[0], settings.upper[0]) = (lower, upper);
    settings
}

/// These with a state that is doubled, and a command of half of it.
fn doubled(start: i32) -> Settings {
    let mut settings = from(start);
    settings.a[0][0] = 131_072;
    settings.k[0][0] = 32_768;
    settings
}

/// The value and the mark of each period's command; all else of its bytes is
/// as ever.
fn assert_commands(settings: Settings, readings: &[Option<i32>], expected: &[(i32, bool)]) {
    let written = by_steps(settings, readings);
    assert_eq!(written.len(), expected.len());
    for (nth, (command, &(value, limited))) in written.iter().zip(expected).enumerate() {
        let head = [5, 1, u8::from(limited), 0, nth as u8 + 1, 0, 0, 0];
        assert_eq!(*command, [&head[..], &value.to_le_bytes()].concat());
        assert_eq!(command_values(command), [value]);
        assert_eq!(command_limited(command), Some(limited));
    }
    assert_eq!(by_records(settings, readings), written);
    assert_eq!(by_steps_with_tickets(settings, readings), written);
    assert_eq!(by_asks(settings, readings), written);
}

#[test]
fn nothing_changed_gives_0() {
    assert_commands(from(0), &[Some(101)], &[(50, false)]);
    assert_commands(from(50), &[None], &[(50, false)]);
    assert_commands(doubled(HALF - 1), &[None], &[(HALF - 1, false)]);
    assert_commands(in_limits(5, 4, 6), &[None], &[(5, false)]);
}

/// "Byte 2 of the command is 1 if that occurred in the update or the command
/// it comes from, otherwise 0."
#[test]
fn each_change_alone_gives_1() {
    // An e(j), a state and a command.
    assert_commands(from(HALF), &[Some(LEAST)], &[(0, true)]);
    assert_commands(doubled(HALF), &[None], &[(HALF, true)]);
    assert_commands(in_limits(0, -40, 40), &[Some(101)], &[(40, true)]);
    assert_commands(in_limits(0, -40, 40), &[Some(-101)], &[(-40, true)]);
    // An e(j) and a command.
    assert_commands(in_limits(HALF, 7, 8), &[Some(LEAST)], &[(7, true)]);
}

#[test]
fn exactly_at_a_limit_is_0() {
    // An e(j), a state and a command, each at both ends.
    assert_commands(from(HALF), &[Some(-HALF)], &[(0, false)]);
    assert_commands(from(-HALF), &[Some(HALF - 1)], &[(0, false)]);
    assert_commands(doubled(-HALF), &[None], &[(-HALF, false)]);
    assert_commands(from(LARGEST), &[None], &[(LARGEST, false)]);
    assert_commands(in_limits(0, -50, 50), &[Some(101)], &[(50, false)]);
    assert_commands(in_limits(0, -50, 50), &[Some(-101)], &[(-50, false)]);
    assert_commands(in_limits(9, 9, 9), &[None], &[(9, false)]);
}

/// An absent reading's e(j) is 0, though 0 − x would be clamped.
#[test]
fn an_absent_reading_does_not_mark() {
    assert_commands(from(LEAST), &[None], &[(LEAST, false)]);
    assert_commands(from(LEAST), &[Some(0)], &[(-HALF, true)]);
}

/// Both states are 0, and so are both commands' values.
#[test]
fn byte_2_is_no_function_of_the_state() {
    let readings = |y| [Some(LARGEST), Some(y), None];
    let (first, last) = ((HALF, false), (0, false));
    assert_commands(from(0), &readings(LEAST), &[first, (0, true), last]);
    assert_commands(from(0), &readings(-HALF), &[first, (0, false), last]);
}

#[test]
fn a_mark_does_not_stay() {
    // By an e(j), then by a command; what led to the estimate's state is no
    // part of the next command's update.
    let readings = [Some(LARGEST), Some(LEAST), Some(7), Some(LEAST), Some(3)];
    let expected = [
        (HALF, false),
        (0, true),
        (4, false),
        (-HALF + 4, true),
        (-HALF / 2 + 4, false),
    ];
    assert_commands(from(0), &readings, &expected);
    let readings = [Some(100), Some(-30), Some(100), None];
    let expected = [(40, true), (10, false), (40, true), (40, true)];
    assert_commands(in_limits(0, -40, 40), &readings, &expected);
}

/// A period that ends undecided leaves no mark either, though its update was
/// limited.
#[test]
fn an_undecided_period_leaves_no_mark() {
    let first = "T 1 -2147483648\nT 1 7\nT 2 -\nT 2 -\nD 2 2\nD 1 5\n";
    let printed = rig(&rig_from(HALF, first));
    assert_eq!(printed[5], "6 1 ok 2 0 0 2 0 6 4");
}

// Scripts.

/// The bench's group on the rig, with this start and these lines.
fn rig_from(start: i32, lines: &str) -> String {
    let settings = "1 1 1 65536 32768 65536 65536 -2147483648 2147483647";
    format!("rig 3 {settings} {start}\n{lines}")
}

/// What a script's lines print.
fn rig(script: &str) -> Vec<String> {
    let mut output = Vec::new();
    script::rig(script.as_bytes(), &mut output).unwrap();
    rows(&output)
}

fn bench(script: &str) -> Vec<String> {
    let mut output = Vec::new();
    script::bench(script.as_bytes(), &mut output).unwrap();
    rows(&output)
}

fn rows(output: &[u8]) -> Vec<String> {
    let text = std::str::from_utf8(output).unwrap();
    text.lines().skip(1).map(str::to_string).collect()
}

/// Three periods, of which the second has an e(j) that is clamped.
const SCRIPT: &str = "T 1 2147483647\nT 2 -\nD 2 1\nD 1 3\nD 2 4\n\
                      T 1 -2147483648\nT 2 -\nD 2 6\nD 1 8\nD 2 9\n\
                      T 1 7\nT 2 -\nD 2 11\nD 1 13\nD 2 14\n";

const PRINTED: [&str; 15] = [
    "1 1 ok 1 0 0 1 0 1 -",
    "2 2 ok 1 0 0 0 0 - -",
    "3 2 ok 1 0 0 1 0 3 -",
    "4 1 ok 1 0 0 1 0 4 1073741824",
    "5 2 ok 1 0 0 1 0 - 1073741824",
    "6 1 ok 2 0 0 2 1073741824 6 -",
    "7 2 ok 2 0 0 1 1073741824 - -",
    "8 2 ok 2 0 0 2 1073741824 8 -",
    "9 1 ok 2 0 0 2 1073741824 9 0*",
    "10 2 ok 2 0 0 2 1073741824 - 0*",
    "11 1 ok 3 0 0 3 0 11 -",
    "12 2 ok 3 0 0 2 0 - -",
    "13 2 ok 3 0 0 3 0 13 -",
    "14 1 ok 3 0 0 3 0 14 4",
    "15 2 ok 3 0 0 3 0 - 4",
];

/// "The bench prints `*` directly behind such a command."
#[test]
fn bench_and_rig_print_a_star() {
    assert_eq!(bench(SCRIPT), PRINTED);
    assert_eq!(rig(&rig_from(0, SCRIPT)), PRINTED);
    // The same state, and no star.
    let unclamped = SCRIPT.replace("-2147483648", "-1073741824");
    let plain = PRINTED.map(|row| row.replace('*', ""));
    assert_eq!(bench(&unclamped), plain);
}

/// Changes: "once, behind its last value".
#[test]
fn one_star_stands_behind_the_last_value() {
    let settings = "65536 0 0 65536 32768 0 0 32768 65536 0 0 65536 65536 0 0 65536";
    let cases = [
        ("-100 -100 100 100", "7,-4"),
        ("-100 -100 7 -4", "7,-4"),
        ("-100 -100 6 100", "6,-4*"),
        ("-100 -3 100 100", "7,-3*"),
        ("8 -3 100 100", "8,-3*"),
    ];
    for (limits, command) in cases {
        let lines = "T 1 10 -\nT 2 - -\nD 2 1\nD 1 3\nD 2 4\n";
        let printed = rig(&format!("rig 3 2 2 2 {settings} {limits} 4 -4\n{lines}"));
        assert_eq!(printed[3], format!("4 1 ok 1 0 0 1 4,-4 4 {command}"));
        assert_eq!(printed[4], format!("5 2 ok 1 0 0 1 4,-4 - {command}"));
    }
}

/// An ask's command has its mark, and its commit prints that of the ask.
#[test]
fn asked_and_committed_commands_have_their_star() {
    let lines = "T 1 -2147483648\nT 2 -\nD 2 1\nAD 1 3\nS 1\nC 1 1\n\
                 AD 2 6\nAG 1\nC 2 1\n\
                 T 1 7\nT 2 -\nD 2 10\nAD 1 12\nC 1 3\n";
    let printed = rig(&rig_from(HALF, lines));
    let expected = [
        "4 1 ok 1 0 0 1 1073741824 ? 0* 1",
        "5 1 ok 1 0 0 1 1073741824 - -",
        "6 1 ok 1 0 0 1 1073741824 6 0*",
        "7 2 ok 1 0 0 1 1073741824 - 0* 1",
        "8 1 ignored 1 0 0 1 1073741824 - - 2",
        "9 2 ok 1 0 0 1 1073741824 - 0*",
    ];
    assert_eq!(printed[3..9], expected);
    assert_eq!(printed[12], "13 1 ok 2 0 0 2 0 ? 4 3");
    assert_eq!(printed[13], "14 1 ok 2 0 0 2 0 14 4");
}

/// A box that returns has the mark of what it decides, as one that stayed up.
#[test]
fn a_box_that_returns_marks_as_any() {
    let lines = "T 1 -2147483648\nS 1\nT 2 -\nD 2 1\nD 1 4\nR 1 0\nD 1 4\n";
    let printed = rig(&rig_from(HALF, lines));
    assert_eq!(printed[4], "5 1 ok 1 0 0 1 1073741824 5 0*");
    assert_eq!(printed[6], "7 1 ok 1 0 0 1 1073741824 7 0*");
}

/// Changes: "`*` is read and not shown".
#[test]
fn a_page_shows_no_star() {
    let mut output = Vec::new();
    script::bench(SCRIPT.as_bytes(), &mut output).unwrap();
    let page = [
        "         1          0   1073741824                                      \n",
        "         2          0            0                                      \n",
        "         3          0            4                                      \n",
    ];
    assert_eq!(printed::pages(&output), (page.concat().into_bytes(), 0));
}

// The planted faults.

/// Byte 2 of the first command.
fn mark(settings: Settings, y: Option<i32>) -> u8 {
    by_steps(settings, &[y])[0][2]
}

/// Byte 2 where the update and the command were both limited.
fn mark_of_both() -> u8 {
    mark(in_limits(HALF, 7, 8), Some(LEAST))
}

fn state(value: i32) -> State {
    [value, 0, 0, 0, 0, 0]
}

/// The two that law calls must find are tried by law calls alone.
const CASES: [Case; 7] = [
    ("only_commands_marked", || {
        mark(from(HALF), Some(LEAST)) == mark_of_both()
    }),
    ("only_updates_marked", || {
        mark(in_limits(0, -40, 40), Some(101)) == mark_of_both()
    }),
    ("absent_marked", || {
        // Twice the state is predicted.
        let mut settings = from(0);
        settings.c[0][0] = 131_072;
        let updated = law::update(&settings, &state(-HALF), &Readings::default()).unwrap();
        updated.state == state(-HALF) && !updated.limited
    }),
    ("last_mark_kept", || {
        // Period 1 has a command that is limited, period 2 none.
        let settings = "1 1 1 65536 32768 65536 65536 -40 40 0";
        let lines = "T 1 100\nT 2 -\nD 2 1\nD 1 3\nT 1 -30\nT 2 -\nD 2 5\nD 1 7\n";
        let printed = rig(&format!("rig 3 {settings}\n{lines}"));
        printed[7] == "8 1 ok 2 0 0 2 50 8 10"
    }),
    ("marks_left_zero", || mark_of_both() == 1),
    ("estimates_update_marked", || {
        // Period 1 ends undecided, and its update was limited.
        let lines = "T 1 -2147483648\nT 1 7\nT 2 -\nT 2 -\nD 2 2\nD 1 5\n";
        rig(&rig_from(HALF, lines))[5] == "6 1 ok 2 0 0 2 0 6 4"
    }),
    ("at_limit_marked", || {
        let readings = Readings {
            marks: 1,
            values: [-HALF, 0, 0, 0],
        };
        let error = law::update(&from(0), &state(HALF), &readings).unwrap();
        let none = Readings::default();
        let updated = law::update(&from(0), &state(LARGEST), &none).unwrap();
        let command = law::command(&in_limits(0, -9, 9), &state(-9)).unwrap();
        !error.limited && !updated.limited && !command.limited
    }),
];

#[test]
fn cases_hold() {
    planted::hold(&CASES);
}

#[test]
fn each_fault_breaks_its_case_alone() {
    planted::each_breaks_its_case_alone(&fault::MARK_NAMES, &CASES);
}
