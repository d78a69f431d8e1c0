//! Entries left out of a history, as long as what is wrong with it stays.

use super::history::{Entry, Event, What};

/// Entries that are wrong, and how often they break a condition.
#[derive(Clone, Debug, PartialEq, Eq)]
pub struct Wrong {
    pub entries: Vec<Entry>,
    pub breaks: usize,
}

/// What remains when no entry, and no two, can be left out and no number be
/// made plainer. `still` gives what some entries come to, if they are wrong;
/// they must not break the condition more often.
pub fn shrunk(wrong: Wrong, still: impl Fn(&[Entry]) -> Option<Wrong>) -> Wrong {
    let mut wrong = wrong;
    while let Some(less) = less(&wrong, &still) {
        wrong = less;
    }
    wrong
}

fn less(wrong: &Wrong, still: &impl Fn(&[Entry]) -> Option<Wrong>) -> Option<Wrong> {
    let entries = &wrong.entries;
    let mut parts = one_fewer(entries)
        .chain(two_fewer(entries))
        .chain(plainer(entries))
        .chain(one_ask_fewer(entries));
    parts.find_map(|part| still(&part).filter(|less| less.breaks <= wrong.breaks))
}

fn without(entries: &[Entry], places: &[usize]) -> Vec<Entry> {
    let rest = entries.iter().enumerate();
    let rest = rest.filter(|(at, _)| !places.contains(at));
    rest.map(|(_, entry)| *entry).collect()
}

fn one_fewer(entries: &[Entry]) -> impl Iterator<Item = Vec<Entry>> + '_ {
    (0..entries.len()).rev().map(|at| without(entries, &[at]))
}

fn two_fewer(entries: &[Entry]) -> impl Iterator<Item = Vec<Entry>> + '_ {
    (0..entries.len()).flat_map(move |first| {
        let others = 0..first;
        others.map(move |other| without(entries, &[first, other]))
    })
}

/// With one round reading more, or one return more with nothing missed.
fn plainer(entries: &[Entry]) -> impl Iterator<Item = Vec<Entry>> + '_ {
    (0..entries.len()).filter_map(move |at| {
        let mut plainer = entries.to_vec();
        plainer[at].what = plain(&entries[at]);
        (plainer != entries).then_some(plainer)
    })
}

fn plain(entry: &Entry) -> What {
    let tick = Event::Tick(Some(100 * (entry.place as i32 + 1)));
    match entry.what {
        What::Event(Event::Tick(_)) => What::Event(tick),
        What::Ask(Event::Tick(_)) => What::Ask(tick),
        What::Return { record, .. } => What::Return { record, missed: 0 },
        other => other,
    }
}

/// With one event that is not asked; its commit comes to nothing then.
fn one_ask_fewer(entries: &[Entry]) -> impl Iterator<Item = Vec<Entry>> + '_ {
    (0..entries.len()).filter_map(move |at| {
        let What::Ask(event) = entries[at].what else {
            return None;
        };
        let mut fewer = entries.to_vec();
        fewer[at].what = What::Event(event);
        Some(fewer)
    })
}

#[cfg(test)]
mod tests {
    use super::*;

    fn entries(readings: &[i32]) -> Vec<Entry> {
        let entry = |(at, &reading): (usize, &i32)| Entry {
            number: at,
            place: 0,
            what: What::Event(Event::Tick(Some(reading))),
        };
        readings.iter().enumerate().map(entry).collect()
    }

    fn readings(entries: &[Entry]) -> Vec<i32> {
        let reading = |entry: &Entry| match entry.what {
            What::Event(Event::Tick(Some(reading))) => reading,
            _ => panic!("a tick with a reading"),
        };
        entries.iter().map(reading).collect()
    }

    /// What is wrong here: readings that come to an even sum, 7 among them.
    fn even(entries: &[Entry]) -> Option<Wrong> {
        let readings = readings(entries);
        let is_wrong = readings.contains(&7) && readings.iter().sum::<i32>() % 2 == 0;
        is_wrong.then(|| Wrong {
            entries: entries.to_vec(),
            breaks: readings.iter().filter(|&&reading| reading == 5).count(),
        })
    }

    #[test]
    fn one_entry_is_left_out_and_two_at_a_time() {
        let wrong = even(&entries(&[2, 3, 9, 7, 4, 1])).unwrap();
        // 3, 9 and 1 are odd: two of them can be left out together only.
        assert_eq!(readings(&shrunk(wrong, even).entries), [7, 1]);
    }

    #[test]
    fn numbers_become_plain_where_they_may() {
        let wrong = even(&entries(&[7, 8, 7])).unwrap();
        assert_eq!(readings(&shrunk(wrong, even).entries), [7, 7]);
        let needs_three =
            |entries: &[Entry]| even(entries).filter(|wrong| wrong.entries.len() == 3);
        let wrong = even(&entries(&[7, 8, 7])).unwrap();
        assert_eq!(readings(&shrunk(wrong, needs_three).entries), [7, 100, 7]);
    }

    #[test]
    fn the_condition_is_not_broken_more_often() {
        let breaks_more = |entries: &[Entry]| {
            even(entries).map(|wrong| Wrong {
                breaks: 9 - wrong.entries.len(),
                ..wrong
            })
        };
        let wrong = breaks_more(&entries(&[2, 7, 7])).unwrap();
        assert_eq!(readings(&shrunk(wrong, breaks_more).entries), [100, 7, 7]);
    }
}
