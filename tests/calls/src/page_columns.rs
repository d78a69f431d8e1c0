//! Where everything stands on a line of a shift page, for those that damage
//! one. Columns are counted from 0.

use std::ops::Range;

/// The bytes of a line with its line feed, and the column of the latter.
pub const LINE: usize = 73;
pub const LINE_FEED: usize = 72;

pub const PERIOD: Range<usize> = 0..10;
pub const VIEW: Range<usize> = 11..21;

/// Where a line without a command shows it.
pub const HYPHEN: usize = 33;

const FIRST_COMMAND: usize = 22;

pub type Line = [u8; LINE];

/// Those of command j, counted from 0.
pub fn command(j: usize) -> Range<usize> {
    let first = FIRST_COMMAND + 12 * j;
    first..first + 12
}

/// From the first command to the line's end, whatever p is.
pub fn all_commands() -> Range<usize> {
    FIRST_COMMAND..LINE_FEED
}

/// Those behind p commands.
pub fn behind_commands(p: usize) -> Range<usize> {
    command(p).start..LINE_FEED
}

/// Those of the period, of the view and of p commands.
pub fn numbers(p: usize) -> Vec<Range<usize>> {
    let commands = (0..p).map(command);
    [PERIOD, VIEW].into_iter().chain(commands).collect()
}

/// What stands in these columns behind the spaces on their left.
pub fn word(line: &Line, columns: &Range<usize>) -> Vec<u8> {
    let is_space = |byte: &&u8| **byte == b' ';
    let columns = line[columns.clone()].iter();
    columns.skip_while(is_space).copied().collect()
}

/// Puts a word that is not longer into these columns, right-aligned.
pub fn put(line: &mut Line, columns: Range<usize>, word: &[u8]) {
    let columns = &mut line[columns];
    let (spaces, place) = columns.split_at_mut(columns.len() - word.len());
    spaces.fill(b' ');
    place.copy_from_slice(word);
}
