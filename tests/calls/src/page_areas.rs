//! Entries of a shift page, in the areas of include/winder.h and of crate
//! steps, and as the second implementation has them.

use second::page;
pub use winder::{Entry, ENTRY_WORDS};

/// What a call that reads a page gives: seven words for each of its lines.
pub const PAGE_WORDS: usize = 60 * ENTRY_WORDS;

/// Period, view, mark of a command, and four values in two's complement.
pub fn words_of(entry: &Entry) -> [u32; ENTRY_WORDS] {
    let [first, second, third, fourth] = entry.command.map(|value| value as u32);
    let Entry {
        period,
        view,
        decided,
        ..
    } = *entry;
    [period, view, decided, first, second, third, fourth]
}

pub fn of_words(words: &[u32; ENTRY_WORDS]) -> Entry {
    let [period, view, decided, ref values @ ..] = *words;
    Entry {
        period,
        view,
        decided,
        command: values.map(|value| value as i32),
    }
}

/// The values under an entry without a command are 0.
pub fn of_second(entry: &page::Entry) -> Entry {
    Entry {
        period: entry.period,
        view: entry.view,
        decided: entry.command.is_some().into(),
        command: entry.command.unwrap_or_default(),
    }
}

/// Any mark but 0 is that of a command.
pub fn to_second(entry: &Entry) -> page::Entry {
    page::Entry {
        period: entry.period,
        view: entry.view,
        command: (entry.decided != 0).then_some(entry.command),
    }
}
