//! Writing a page into an area lent for it.

use std::collections::BTreeMap;

use super::columns::{self, LINE, WIDTH};
use super::{check_commands, check_periods, Entry, PAGE_AREA};
use crate::fault::{planted, Fault};
use crate::refusal::Refusal;

/// Writes the page of any number of entries and gives its length; refuses by
/// 2, then 13, then 14. Bytes behind the page keep what they held, and all do
/// where it is refused.
pub fn write(p: usize, entries: &[Entry], area: &mut [u8]) -> Result<usize, Refusal> {
    if planted(Fault::PageAreaFirst) {
        check_area(area)?;
    }
    check_commands(p)?;
    if planted(Fault::PeriodsBeforeArea) {
        standing(entries)?;
    }
    check_area(area)?;
    let page = lines(p, &standing(entries)?);
    // 60 lines have 4,380 bytes: only with a fault planted may a page be
    // longer than its area.
    let place = area.get_mut(..page.len()).ok_or(Refusal::PageArea)?;
    place.copy_from_slice(&page);
    Ok(page.len())
}

/// Refusal 13: "area under 4,380 bytes".
fn check_area(area: &[u8]) -> Result<(), Refusal> {
    if area.len() < PAGE_AREA - usize::from(planted(Fault::ShortPageArea)) {
        return Err(Refusal::PageArea);
    }
    Ok(())
}

/// The entries that stand on the page, "in rising order"; refused by 14 where
/// there are "more than 60 distinct periods".
fn standing(entries: &[Entry]) -> Result<Vec<Entry>, Refusal> {
    let mut by_period = BTreeMap::new();
    for later in entries {
        let stands = by_period.entry(later.period).or_insert(*later);
        if gives_way(stands, later) {
            *stands = *later;
        }
        check_periods(by_period.len())?;
    }
    let mut rising: Vec<Entry> = by_period.into_values().collect();
    if planted(Fault::FallingOrder) {
        rising.reverse();
    }
    Ok(rising)
}

/// Of two entries of one period: "Equal periods appear as one line, the first
/// given; one without a command gives way to one with it."
fn gives_way(stands: &Entry, later: &Entry) -> bool {
    if planted(Fault::WithoutCommandStays) {
        return false;
    }
    if planted(Fault::LastGiven) {
        return stands.command.is_none() || later.command.is_some();
    }
    stands.command.is_none() && later.command.is_some()
}

fn lines(p: usize, entries: &[Entry]) -> Vec<u8> {
    entries.iter().flat_map(|entry| line(p, entry)).collect()
}

/// The line of an entry; what nothing is put over are "spaces to the end".
fn line(p: usize, entry: &Entry) -> [u8; LINE] {
    let mut line = [b' '; LINE];
    line[WIDTH] = b'\n';
    put(&mut line[columns::PERIOD], entry.period.into());
    put(&mut line[columns::view()], entry.view.into());
    match entry.command {
        // "a period without a command shows a hyphen"
        None => line[columns::hyphen()] = b'-',
        Some(command) => {
            for (j, &value) in command[..p].iter().enumerate() {
                put(&mut line[columns::command(j)], value.into());
            }
        }
    }
    line
}

/// Puts a number "right-aligned" into its columns. The longest period and view
/// have 10 digits, the longest command has 10 and a minus.
fn put(columns: &mut [u8], number: i64) {
    let digits = number.to_string();
    let first = columns.len() - digits.len();
    columns[first..].copy_from_slice(digits.as_bytes());
}
