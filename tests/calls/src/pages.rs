//! The comparison of shift pages read: whole and damaged, with what was read
//! written again.

use std::fmt;

use crate::page_areas::Entry;
use crate::page_calls::{enough, read_by_both, written_by_both, Read, Writing};
use crate::page_damage::{self, Made, DAMAGES};
use crate::prng::Prng;
use crate::report::{write_answers, write_row, Answers};
use crate::values::{commands, perhaps_other_commands};

#[derive(Debug, Default)]
pub struct Counts {
    read: Answers,
    written_back: usize,
    /// Of the pages read: lines with a command, and without.
    lines: [usize; 2],
    /// By damage: how many, and how many of these are still pages.
    damages: [(usize, usize); DAMAGES.len()],
}

/// The page of one number. The error says what differs.
pub fn compare(seed: u64, number: usize, counts: &mut Counts) -> Result<(), String> {
    let prng = &mut Prng::of_script(seed, number);
    let inside = commands(prng);
    let made = page_damage::make(prng, inside);
    let asked = perhaps_other_commands(prng, made.p);
    let read = read_by_both(asked, &made.bytes)?;
    if read.answer == 0 {
        write_back(prng, asked, read.entries(), &made.bytes)?;
        counts.written_back += 1;
    } else if made.is_whole() && asked == inside {
        let page = made.bytes.escape_ascii();
        return Err(format!("a whole page is refused: {page}"));
    }
    counts.count(&made, &read);
    Ok(())
}

/// What was read, written again, is what it was read from.
fn write_back(prng: &mut Prng, p: usize, entries: Vec<Entry>, bytes: &[u8]) -> Result<(), String> {
    let call = Writing {
        p,
        entries,
        left_over: None,
        lent: enough(prng),
    };
    let written = written_by_both(&call)?;
    match written.answer == 0 && written.page() == bytes {
        true => Ok(()),
        false => {
            let page = bytes.escape_ascii();
            Err(format!("{page} read, then written: {written:?}"))
        }
    }
}

impl Counts {
    fn count(&mut self, made: &Made, read: &Read) {
        self.read[read.answer as usize] += 1;
        let (count, still_page) = &mut self.damages[made.damage];
        *count += 1;
        if read.answer == 0 {
            *still_page += 1;
            for entry in read.entries() {
                self.lines[usize::from(entry.decided == 0)] += 1;
            }
        }
    }

    fn damaged_pages(&self) -> usize {
        let damaged = &self.damages[1..];
        damaged.iter().map(|(_, still_page)| still_page).sum()
    }
}

impl fmt::Display for Counts {
    fn fmt(&self, out: &mut fmt::Formatter<'_>) -> fmt::Result {
        write_answers(out, "pages read,", &self.read)?;
        write_row(out, "  written back", self.written_back)?;
        write_row(out, "  damaged, still pages", self.damaged_pages())?;
        write_row(out, "lines with a command", self.lines[0])?;
        write_row(out, "lines without a command", self.lines[1])?;
        writeln!(out, "{:<38}{:>9}{:>12}", "damage", "pages", "still pages")?;
        for (damage, (count, still_page)) in DAMAGES.iter().zip(&self.damages) {
            writeln!(out, "  {:<36}{count:>9}{still_page:>12}", damage.name)?;
        }
        Ok(())
    }
}

#[cfg(test)]
mod tests {
    use super::*;
    use crate::report::met;

    #[test]
    fn every_answer_and_every_damage_is_met() {
        let mut counts = Counts::default();
        for number in 1..=2_000 {
            compare(1, number, &mut counts).unwrap();
        }
        assert_eq!(met(&counts.read), [0, 2, 14]);
        assert!(counts.lines[0] > 0 && counts.lines[1] > 0);
        assert!(counts.damages.iter().all(|&(count, _)| count > 0));
    }
}
