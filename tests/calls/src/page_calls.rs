//! Calls that write a shift page or read one, each by both implementations.

use std::fmt;

use second::page::PAGE_AREA;

use crate::areas::{PATTERN, PATTERN_32};
use crate::page_areas::{of_words, Entry, ENTRY_WORDS, PAGE_WORDS};
use crate::page_columns::LINE;
use crate::prng::Prng;
use crate::report::alike;
use crate::{counterpart, first};

/// The longest area lent: one line more than a page may have finds room.
pub const LONGEST: usize = PAGE_AREA + 220;

/// Longer than any area lent, so that a byte written after one shows.
const BUFFER: usize = LONGEST + LINE;

/// A call that writes a page.
#[derive(Debug)]
pub struct Writing {
    pub p: usize,
    pub entries: Vec<Entry>,
    /// None where the entries are handed as such; else they are handed as
    /// words, with these behind the last entry's.
    pub left_over: Option<Vec<u32>>,
    /// The length of the area.
    pub lent: usize,
}

/// What a call of writing leaves behind.
#[derive(PartialEq, Eq)]
pub struct Written {
    pub answer: u32,
    length: usize,
    buffer: [u8; BUFFER],
}

/// What a call of reading leaves behind.
#[derive(Debug, PartialEq, Eq)]
pub struct Read {
    pub answer: u32,
    count: usize,
    words: [u32; PAGE_WORDS],
}

pub fn written_by_both(call: &Writing) -> Result<Written, String> {
    let given = |write: fn(&_, &mut _, &mut _) -> u32| {
        let mut written = Written::before();
        let area = &mut written.buffer[..call.lent];
        written.answer = write(call, area, &mut written.length);
        written
    };
    let (first, second) = (given(first::write_page), given(counterpart::write_page));
    let written = alike(first, second, call)?;
    match written.answer == 0 || written.is_untouched() {
        true => Ok(written),
        false => Err(format!("refused, and yet there is {written:?}")),
    }
}

pub fn read_by_both(p: usize, bytes: &[u8]) -> Result<Read, String> {
    let given = |read: fn(_, &_, &mut _, &mut _) -> u32| {
        let mut given = Read::before();
        given.answer = read(p, bytes, &mut given.count, &mut given.words);
        given
    };
    let (first, second) = (given(first::read_page), given(counterpart::read_page));
    let call = format_args!("reading for {p}: {}", bytes.escape_ascii());
    let read = alike(first, second, &call)?;
    match read.answer == 0 || read.is_untouched() {
        true => Ok(read),
        false => Err(format!("refused, and yet there is {read:?}")),
    }
}

/// The length of an area that is long enough.
pub fn enough(prng: &mut Prng) -> usize {
    match prng.chance(40) {
        true => PAGE_AREA,
        false => PAGE_AREA + prng.below(LONGEST + 1 - PAGE_AREA),
    }
}

impl Written {
    /// Before a call; no call gives this length.
    fn before() -> Written {
        Written {
            answer: 0,
            length: usize::MAX,
            buffer: [PATTERN; BUFFER],
        }
    }

    fn is_untouched(&self) -> bool {
        self.length == usize::MAX && self.buffer == [PATTERN; BUFFER]
    }

    /// Where nothing was refused.
    pub fn page(&self) -> &[u8] {
        &self.buffer[..self.length]
    }
}

/// Of the buffer only the lines that are not as they were before the call.
impl fmt::Debug for Written {
    fn fmt(&self, out: &mut fmt::Formatter<'_>) -> fmt::Result {
        write!(out, "answer {}, length {}", self.answer, self.length)?;
        let is_written = |line: &&[u8]| line.iter().any(|&byte| byte != PATTERN);
        for line in self.buffer.chunks(LINE).filter(is_written) {
            write!(out, "\n    {}", line.escape_ascii())?;
        }
        Ok(())
    }
}

impl Read {
    /// Before a call; no call gives this count.
    fn before() -> Read {
        Read {
            answer: 0,
            count: usize::MAX,
            words: [PATTERN_32; PAGE_WORDS],
        }
    }

    fn is_untouched(&self) -> bool {
        self.count == usize::MAX && self.words == [PATTERN_32; PAGE_WORDS]
    }

    /// Where nothing was refused.
    pub fn entries(&self) -> Vec<Entry> {
        let (lines, _) = self.words.as_chunks::<ENTRY_WORDS>();
        lines.iter().take(self.count).map(of_words).collect()
    }
}
