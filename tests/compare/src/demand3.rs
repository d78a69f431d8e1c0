//! Demand 3 tried on a printed output. The check knows nothing of the
//! protocol: it takes the rows handed to the boxes from the script, the
//! commands from the output, and looks for one choice of rows with which a
//! single controller gives all of these commands.
//!
//! It also takes the decided states that show: a box that wrote a command
//! for period k shows at its next tick the state that it decided on.
//!
//! Document 02, L4: where records are stored, commands that never left don't
//! count, and a box that returns has behind it the rows of the record and one
//! with no reading for each missed period.
//!
//! L6: "the commit counts as writing and sending what its ask gave". The row of
//! a tick that was asked is behind a box from its commit on, or from a return
//! from its record.
//!
//! L7: command k has the mark of step k and of itself. The mark is no function
//! of the state, so that of two rows that lead to one state only one may serve.

mod seen;

use crate::behind::Behind;
use crate::group::Group;
use crate::leaving::leaving;
use crate::played::{self, Host, Played, What};
pub use seen::Seen;

/// What the check came to for one output.
#[derive(Clone, Copy, Debug, Default, PartialEq, Eq)]
pub struct Checked {
    pub decided_periods: usize,
    /// Those whose command and state were held against the states reached;
    /// the others only against each other.
    pub searched_periods: usize,
    /// Decided periods that a box missed which has returned since.
    pub missed_somewhere: usize,
    /// Of those searched, such as need the all-absent row of a missed period,
    /// their own or one since the last decided period before.
    pub missed_needed: usize,
    /// Of those searched, such as have the state that gives the command also by
    /// rows that would mark it otherwise, and so do not serve.
    pub marks_told_apart: usize,
}

/// Gives what does not fit, if anything.
pub fn check(
    group: &Group,
    host: Host,
    lines: &[Vec<u8>],
    output: &[u8],
) -> Result<Checked, String> {
    let played = played::played(lines, output)?;
    let seen = Reader::read(group, host, &played)?;
    seen.search(&group.settings)
}

/// Reads a script with its output.
struct Reader {
    seen: Seen,
    boxes: Vec<Behind>,
}

impl Reader {
    fn read(group: &Group, host: Host, played: &[Option<Played>]) -> Result<Seen, String> {
        let left = leaving(host, played);
        let mut reader = Reader {
            seen: Seen::default(),
            boxes: vec![Behind::default(); group.boxes.into()],
        };
        for (line, left) in played.iter().zip(left) {
            if let Some(line) = line {
                reader.take(line, left.is_some())?;
            }
        }
        for behind in &reader.boxes {
            reader.seen.take_rows(behind.now());
        }
        Ok(reader.seen)
    }

    fn take(&mut self, line: &Played, has_left: bool) -> Result<(), String> {
        let no_box = || format!("no box {}", line.place + 1);
        let behind = self.boxes.get_mut(line.place).ok_or_else(no_box)?;
        if let What::Ask(event, ticket) = line.what {
            behind.ask(ticket, line.is_ok.then_some(event));
        }
        if !line.is_ok {
            return Ok(());
        }
        let mut ticket = None;
        let shown = match line.what {
            What::Event(event) => behind.step(event),
            What::Ask(..) => None,
            What::Commit(committed) => {
                ticket = Some(committed);
                behind.commit(committed)?
            }
            What::Store => {
                behind.store();
                None
            }
            What::StoreAsked => {
                behind.store_asked()?;
                None
            }
            What::Return { missed } => behind.come_back(missed)?,
        };
        if let Some(period) = shown {
            self.seen.take_state(period, line.state.clone())?;
        }
        if let (Some(command), true) = (&line.command, has_left) {
            behind.decide(line.period, ticket);
            self.seen.take_command(line.period, command.clone())?;
        }
        Ok(())
    }
}

#[cfg(test)]
mod asked;
#[cfg(test)]
mod marks;

#[cfg(test)]
mod tests {
    use super::*;
    use second::replica::Quorums;

    const LINES: &str = "T 1 100\nT 2 102\nD 2 1\nD 1 3\nD 2 4\nT 2 -\nT 1 8\nD 2 7\nD 1 8";

    const RIGHT: &str = "no who answer k v vb kb x frame command\n\
                         1 1 ok 1 0 0 1 0 1 -\n\
                         2 2 ok 1 0 0 0 0 - -\n\
                         3 2 ok 1 0 0 1 0 3 -\n\
                         4 1 ok 1 0 0 1 0 4 50\n\
                         5 2 ok 1 0 0 1 0 - 50\n\
                         6 2 ok 2 0 0 1 50 - -\n\
                         7 1 ok 2 0 0 2 50 7 -\n\
                         8 2 ok 2 0 0 2 50 8 -\n\
                         9 1 ok 2 0 0 2 50 9 29\n";

    fn checked(output: &str) -> Result<Checked, String> {
        checked_with(LINES, output)
    }

    fn checked_with(lines: &str, output: &str) -> Result<Checked, String> {
        let lines: Vec<Vec<u8>> = lines.lines().map(|line| line.as_bytes().to_vec()).collect();
        check(&Group::bench(), Host::Plain, &lines, output.as_bytes())
    }

    /// The lines with other readings in their first.
    fn lines_from(word: &str) -> String {
        LINES.replacen("100", word, 1)
    }

    fn refused(from: &str, to: &str) -> String {
        assert!(RIGHT.contains(from));
        checked(&RIGHT.replace(from, to)).unwrap_err()
    }

    #[test]
    fn the_right_output_is_taken() {
        let mut output = Vec::new();
        second::script::bench(LINES.as_bytes(), &mut output).unwrap();
        assert_eq!(String::from_utf8(output).unwrap(), RIGHT);
        let expected = Checked {
            decided_periods: 2,
            searched_periods: 2,
            ..Checked::default()
        };
        assert_eq!(checked(RIGHT), Ok(expected));
    }

    #[test]
    fn unequal_commands_of_one_period_are_refused() {
        assert!(refused("- 50\n", "- 51\n").contains("period 1: two commands"));
    }

    #[test]
    fn unequal_decided_states_are_refused() {
        let answer = refused("7 1 ok 2 0 0 2 50", "7 1 ok 2 0 0 2 51");
        assert!(answer.contains("period 1: two decided states"));
    }

    #[test]
    fn a_command_that_no_row_gives_is_refused() {
        // 52 twice is equal at both boxes, but of no row.
        assert!(refused(" 50\n", " 52\n").contains("period 1: no choice"));
        assert!(refused(" 29\n", " 30\n").contains("period 2: no choice"));
    }

    #[test]
    fn one_choice_must_serve_all_periods() {
        // 51 is the command of box 2's row, but then the state shown is not
        // 50, and with 51 shown the command of period 2 is not 29.
        assert!(refused(" 50\n", " 51\n").contains("period 1: no choice"));
        let shown = RIGHT.replace(" 50\n", " 51\n").replace("2 50 ", "2 51 ");
        let shown = shown.replace("0 1 50 ", "0 1 51 ");
        assert!(checked(&shown).unwrap_err().contains("period 2: no choice"));
    }

    #[test]
    fn a_single_is_taken_converted() {
        // 99, 100 and 101 go to 50 alike, 102 to 51: 101.99 must not become 102.
        for units in [99.0, 100.99, 101.0, 101.5, 101.99] {
            let word = format!("f{:08x}", (units / 65_536.0_f32).to_bits());
            assert!(checked_with(&lines_from(&word), RIGHT).is_ok(), "{word}");
        }
        // 98 of these, or 102, or none: then period 1 has no row for 50.
        for word in ["f3ac5ffff", "f3acc0000", "f7fc00000", "f47000000", "-"] {
            let answer = checked_with(&lines_from(word), RIGHT).unwrap_err();
            assert!(answer.contains("period 1: no choice"), "{word} {answer}");
        }
    }

    #[test]
    fn a_tick_that_was_taken_must_be_well_formed() {
        let words = [
            "f",
            "f3ac8000",
            "f3AC80000",
            "f+3ac8000",
            "f3ac800000",
            "1 f3ac80000 2 3 4",
        ];
        for word in words {
            let answer = checked_with(&lines_from(word), RIGHT).unwrap_err();
            assert!(answer.contains(&format!("T 1 {word}")), "{word} {answer}");
        }
    }

    #[test]
    fn a_row_never_handed_for_its_period_is_refused() {
        // 8 was handed to nobody in period 1: Update(0, 8) is 4.
        assert!(refused(" 50\n", " 4\n").contains("period 1: no choice"));
    }

    /// It is about commands and rows, whatever quorum numbers a group has.
    #[test]
    fn quorum_numbers_are_not_looked_at() {
        let lines: Vec<Vec<u8>> = LINES.lines().map(|line| line.into()).collect();
        for (to_decide, to_propose) in [(2, 2), (2, 3), (3, 2), (3, 3), (1, 1), (9, 9)] {
            let group = Group {
                named: Some(Quorums {
                    to_decide,
                    to_propose,
                }),
                ..Group::bench()
            };
            let checked = |output: &str| check(&group, Host::Plain, &lines, output.as_bytes());
            assert_eq!(checked(RIGHT).unwrap().searched_periods, 2);
            assert!(checked(&RIGHT.replace("- 50\n", "- 51\n")).is_err());
        }
    }

    // With power cycles.

    fn checked_storing(lines: &str) -> Result<Checked, String> {
        let (lines, output) = crate::words::on_the_bench_group(lines);
        check(&Group::bench(), Host::Storing, &lines, &output)
    }

    /// Period 1 is decided by boxes 1 and 2 with 50, all of it stored.
    const STORED: &str = "T 1 100\nS 1\nT 2 102\nS 2\nD 2 1\nS 2\nD 1 5\nS 1\n";

    #[test]
    fn commands_that_are_not_stored_do_not_count() {
        let decided = |lines: &str| checked_storing(lines).unwrap().decided_periods;
        assert_eq!(decided(STORED), 1);
        let unstored = STORED.strip_suffix("S 1\n").unwrap();
        assert_eq!(decided(unstored), 0);
        // A tick, a return, an ignored give-up come before it is stored.
        for between in ["T 1 5", "R 1 0", "G 1"] {
            assert_eq!(decided(&format!("{unstored}{between}\nS 1\n")), 0);
        }
        // Another box, a refused return: it is still that step's.
        let between = format!("{unstored}T 3 5\nR 1 10001\nS 1\n");
        assert_eq!(decided(&between), 1);
    }

    /// A decision that was undone is made again, with other rows.
    #[test]
    fn a_decision_that_never_left_binds_nobody() {
        let lines = "S 1\nT 1 100\nS 1\nT 2 7\nD 2 2\nS 2\nR 1 0\nD 1 5\nR 1 0\n\
                     G 2\nS 2\nT 3 300\nG 3\nS 3\nD 2 13\nS 2\nD 3 15\nS 3\nD 2 17\nS 2\n";
        let (script, output) = crate::words::on_the_bench_group(lines);
        let printed = String::from_utf8(output.clone()).unwrap();
        assert!(printed.contains("\n8 1 ok 1 0 0 1 0 8 50\n"), "{printed}");
        assert!(printed.contains("\n19 2 ok 1 1 1 1 0 19 50\n"), "{printed}");
        let checked = check(&Group::bench(), Host::Storing, &script, &output);
        assert_eq!(checked.unwrap().decided_periods, 1);
        // Another command in the line that does not count is of no account.
        let other = printed.replace("0 1 0 8 50", "0 1 0 8 51");
        assert!(check(&Group::bench(), Host::Storing, &script, other.as_bytes()).is_ok());
        let other = printed.replace("1 1 0 19 50", "1 1 0 19 51");
        assert!(check(&Group::bench(), Host::Storing, &script, other.as_bytes()).is_err());
    }

    #[test]
    fn rows_of_steps_that_a_return_undoes_do_not_count() {
        // Box 1 ticks with 100, which is undone, and then with 60.
        let lines = "S 1\nT 1 100\nR 1 0\nT 1 60\nS 1\nT 2 -\nD 2 4\nS 2\nD 1 7\nS 1\n";
        let (script, output) = crate::words::on_the_bench_group(lines);
        let printed = String::from_utf8(output).unwrap();
        assert!(printed.contains(" 30\n"), "{printed}");
        let answer = |command: &str| {
            let output = printed.replace(" 30\n", command);
            check(&Group::bench(), Host::Storing, &script, output.as_bytes())
        };
        assert_eq!(answer(" 30\n").unwrap().searched_periods, 1);
        assert!(answer(" 50\n").unwrap_err().contains("period 1: no choice"));
    }

    /// Box 1 misses period 2 and decides period 3 from what that led to.
    #[test]
    fn missed_periods_count_as_ticks_with_no_reading() {
        let lines = "R 1 1\nT 1 9\nS 1\nT 2 300\nT 2 8\nD 2 10\nS 2\nD 1 14\nS 1\n";
        let expected = Checked {
            decided_periods: 2,
            searched_periods: 2,
            missed_needed: 1,
            ..Checked::default()
        };
        assert_eq!(checked_storing(&format!("{STORED}{lines}")), Ok(expected));
    }

    /// Box 1 misses period 2, which boxes 2 and 3 decide.
    #[test]
    fn decided_periods_that_a_box_missed_are_counted() {
        let lines = "R 1 1\nT 2 300\nG 2\nS 2\nT 3 1\nT 3 2\nG 3\nS 3\n\
                     D 2 15\nS 2\nD 3 17\nS 3\nD 2 19\nS 2\n";
        let expected = Checked {
            decided_periods: 2,
            searched_periods: 2,
            missed_somewhere: 1,
            ..Checked::default()
        };
        assert_eq!(checked_storing(&format!("{STORED}{lines}")), Ok(expected));
    }

    #[test]
    fn a_return_with_one_missed_period_shows_the_decided_state() {
        let (script, output) = crate::words::on_the_bench_group(&format!("{STORED}R 1 1\n"));
        let printed = String::from_utf8(output).unwrap();
        assert!(printed.ends_with("9 1 ok 2 0 0 2 50 - -\n"), "{printed}");
        let other = printed.replace("0 2 50 - -", "0 2 51 - -");
        let answer = check(&Group::bench(), Host::Storing, &script, other.as_bytes());
        assert!(answer.unwrap_err().contains("period 1: no choice"));
    }

    /// Box 2 acknowledges, returns without knowing it, and its Ack leaves all
    /// the same: the run for which document 02's three conditions, read alone,
    /// are not enough.
    #[test]
    fn an_ack_that_was_undone_leads_to_two_commands() {
        let lines = "T 1 100\nS 1\nT 2 200\nS 2\nT 3 300\nS 3\nD 2 1\nR 2 0\nD 1 7\nS 1\n\
                     G 2\nS 2\nG 3\nS 3\nD 2 13\nS 2\nD 3 15\nS 3\nD 2 17\nS 2\n";
        let answer = checked_storing(lines).unwrap_err();
        assert_eq!(answer, "period 1: two commands, [50] and [100]");
    }

    #[test]
    fn ten_thousand_missed_periods_are_searched() {
        let lines = "R 1 10000\nS 1\nR 2 10000\nT 1 9\nS 1\nT 2 7\nD 2 12\nS 2\nD 1 15\nS 1\n";
        let checked = checked_storing(&format!("{STORED}{lines}")).unwrap();
        assert_eq!((checked.searched_periods, checked.missed_needed), (2, 1));
    }
}
