//! Lists of entries for a shift page: few and many, with periods once and
//! over and over, in any order.

use std::cmp::Reverse;
use std::collections::HashSet;
use std::iter::repeat_with;

use second::page::PAGE_AREA;

use crate::page_areas::{words_of, Entry, ENTRY_WORDS};
use crate::page_calls::{enough, Writing};
use crate::prng::Prng;
use crate::values::{commands, noise, perhaps_other_commands, value};

/// The most periods of a list. So many strides come to less than 2^32, so
/// that no period is met again.
const MOST_PERIODS: usize = 300;
const LONGEST_STRIDE: usize = 10_000_000;

pub fn make(prng: &mut Prng) -> Writing {
    let inside = commands(prng);
    let (periods, more) = sizes(prng);
    let entries = entries(prng, periods, more);
    Writing {
        p: perhaps_other_commands(prng, inside),
        left_over: left_over(prng, &entries),
        entries,
        lent: lent_length(prng),
    }
}

/// How many periods, and how many entries more of these.
fn sizes(prng: &mut Prng) -> (usize, usize) {
    match prng.below(20) {
        0 => (0, 0),
        1..=6 => (1 + prng.below(4), prng.below(5)),
        7..=11 => (59 + prng.below(4), 0),
        12 | 13 => (59 + prng.below(4), 1 + prng.below(60)),
        14..=16 => (1 + prng.below(60), prng.below(60)),
        17 | 18 => (1 + prng.below(62), 100 + prng.below(400)),
        _ => (1 + prng.below(MOST_PERIODS), prng.below(10)),
    }
}

/// Entries of so many periods, each at least once, and so many more.
fn entries(prng: &mut Prng, count: usize, more: usize) -> Vec<Entry> {
    let periods = periods(prng, count);
    let decided = prng.pick(&[0, 5, 50, 50, 95, 100]);
    let again = (0..more).map(|_| prng.pick(&periods)).collect();
    let all = [periods, again].concat();
    let mut entries: Vec<Entry> = all
        .into_iter()
        .map(|period| entry(prng, period, decided))
        .collect();
    match prng.below(4) {
        0 => entries.sort_by_key(|entry| entry.period),
        1 => entries.sort_by_key(|entry| Reverse(entry.period)),
        2 => prng.shuffle(&mut entries),
        // Those that come again are behind all others.
        _ => (),
    }
    entries
}

/// So many different periods: anywhere, or one after the other, at times past
/// the largest and on from 0.
pub fn periods(prng: &mut Prng, count: usize) -> Vec<u32> {
    if prng.chance(40) {
        let mut met = HashSet::new();
        let any = repeat_with(|| number(prng) as u32);
        let others = any.filter(|&period| met.insert(period));
        return others.take(count).collect();
    }
    let stride = match prng.chance(60) {
        true => 1,
        false => 1 + prng.below(LONGEST_STRIDE) as u32,
    };
    let first = number(prng) as u32;
    let period = |place| first.wrapping_add(place * stride);
    (0..count as u32).map(period).collect()
}

/// With a command in so many of a hundred cases. Without one, and beyond p,
/// the values are there all the same.
pub fn entry(prng: &mut Prng, period: u32, decided: usize) -> Entry {
    Entry {
        period,
        view: number(prng) as u32,
        decided: match prng.chance(decided) {
            true => mark(prng),
            false => 0,
        },
        command: [(); 4].map(|()| number(prng)),
    }
}

/// Any mark but 0 is that of a command, also one whose lower bits are all 0.
fn mark(prng: &mut Prng) -> u32 {
    match prng.chance(70) {
        true => 1,
        false => prng.pick(&[2, 255, 256, 1 << 16, 1 << 31, u32::MAX]),
    }
}

/// Any i32, often at an end or where it gets one digit more; as 32 bits both
/// ends and -1 come to where a counter gets wide.
fn number(prng: &mut Prng) -> i32 {
    match prng.chance(25) {
        true => {
            let power = 10_i32.pow(prng.below(10) as u32);
            prng.pick(&[power - 1, power, 1 - power, -power])
        }
        false => value(prng),
    }
}

/// None for entries that are handed as such; else the words behind the last
/// one's, too few for an entry. At times they begin as another would.
fn left_over(prng: &mut Prng, entries: &[Entry]) -> Option<Vec<u32>> {
    if prng.chance(50) {
        return None;
    }
    let count = prng.below(ENTRY_WORDS);
    let words = match entries {
        [.., last] if prng.chance(50) => words_of(&Entry {
            period: last.period.wrapping_add(1),
            ..*last
        }),
        _ => [(); ENTRY_WORDS].map(|()| noise(prng) as u32),
    };
    Some(words[..count].to_vec())
}

/// Mostly long enough; at times just not, or for the page but not for any.
fn lent_length(prng: &mut Prng) -> usize {
    match prng.below(20) {
        0 => PAGE_AREA - 1,
        1 => PAGE_AREA - 1 - prng.below(100),
        2 => prng.pick(&[0, 1, 72, 73, 74, 146]),
        3 => prng.below(PAGE_AREA),
        _ => enough(prng),
    }
}

#[cfg(test)]
mod tests {
    use super::*;

    #[test]
    fn periods_are_as_many_as_asked_for_and_different() {
        let mut prng = Prng::new(4);
        for count in 0..=MOST_PERIODS {
            let different: HashSet<u32> = periods(&mut prng, count).into_iter().collect();
            assert_eq!(different.len(), count);
        }
    }
}
