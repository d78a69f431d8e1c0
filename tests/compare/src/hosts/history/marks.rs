//! Marks of the commands in a history.

use super::*;

/// Boxes 1 and 2 decide period 1 with 2^30 and period 2 with 0, by a reading
/// whose e(j) is clamped.
fn decided() -> History {
    let tick = |reading| What::Event(Event::Tick(reading));
    let arrive = |sent| What::Event(Event::Arrive(sent));
    let whats = [
        (0, tick(Some(i32::MAX))),
        (0, What::Store(4)),
        (1, tick(None)),
        (1, arrive(4)),
        (1, What::Store(7)),
        (0, arrive(7)),
        (0, What::Store(9)),
        (0, tick(Some(i32::MIN))),
        (0, What::Store(11)),
        (1, tick(None)),
        (1, arrive(11)),
        (1, What::Store(14)),
        (0, arrive(14)),
        (0, What::Store(16)),
    ];
    let mut history = History::new(Group::bench());
    for (at, (place, what)) in whats.into_iter().enumerate() {
        let number = at + 4;
        assert!(history.enter(&Entry {
            number,
            place,
            what
        }));
    }
    history
}

#[test]
fn a_history_keeps_the_marks_of_its_commands() {
    assert_eq!(decided().violation(), None);
    let entered = |period, field| {
        let command = Command::printed(field).unwrap();
        decided().seen.take_command(period, command)
    };
    assert_eq!(entered(1, "1073741824"), Ok(()));
    assert_eq!(entered(2, "0*"), Ok(()));
    assert_eq!(
        entered(2, "0").unwrap_err(),
        "period 2: two commands, [0]* and [0]"
    );
}
