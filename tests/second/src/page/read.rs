//! Reading a page back, column by column. Whatever a line could hold otherwise
//! is refused, so that what is read is a page that some writing gives.

use super::columns::{self, LINE, WIDTH};
use super::{check_commands, check_periods, Entry};
use crate::fault::{planted, Fault};
use crate::law::Command;
use crate::refusal::Refusal;
use crate::script::number;

/// Reads the entries that stand on a page; refuses by 2, then by 14 for "a
/// page that no writing gives". A page without a line is that of no entries.
pub fn read(p: usize, bytes: &[u8]) -> Result<Vec<Entry>, Refusal> {
    check_commands(p)?;
    let lines = bytes.chunks_exact(LINE);
    if !lines.remainder().is_empty() {
        return Err(Refusal::Page);
    }
    check_periods(lines.len())?;
    let entries: Option<Vec<Entry>> = lines.map(|line| read_line(p, line)).collect();
    entries
        .filter(|entries| in_rising_order(entries))
        .ok_or(Refusal::Page)
}

/// "in rising order", and each period once.
fn in_rising_order(entries: &[Entry]) -> bool {
    let mut neighbours = entries.windows(2);
    neighbours.all(|pair| pair[0].period < pair[1].period) || planted(Fault::AnyOrderRead)
}

/// The entry of a line of 73 bytes; none where any column is not as it must
/// be.
fn read_line(p: usize, line: &[u8]) -> Option<Entry> {
    if line[WIDTH] != b'\n' || !has_spaces_between(p, line) {
        return None;
    }
    let counter = |columns: &[u8]| u32::try_from(right_aligned(columns)?).ok();
    Some(Entry {
        period: counter(&line[columns::PERIOD])?,
        view: counter(&line[columns::view()])?,
        command: read_commands(p, line)?,
    })
}

/// Whether the columns of no number hold spaces: those between period, view
/// and commands, and those "to the end".
fn has_spaces_between(p: usize, line: &[u8]) -> bool {
    let commands = columns::commands(p);
    let numbers = [columns::PERIOD, columns::view(), commands.clone()];
    let mut end = WIDTH;
    if planted(Fault::SpacesBehindRead) {
        end = commands.end;
    }
    let is_of_number = |column| numbers.iter().any(|columns| columns.contains(&column));
    (0..end).all(|column| line[column] == b' ' || is_of_number(column))
}

/// The commands, or none of them where the line shows the hyphen; without
/// either there is no reading.
fn read_commands(p: usize, line: &[u8]) -> Option<Option<Command>> {
    if shows_hyphen(p, line) {
        return Some(None);
    }
    let mut command = Command::default();
    for (j, value) in command[..p].iter_mut().enumerate() {
        *value = i32::try_from(right_aligned(&line[columns::command(j)])?).ok()?;
    }
    Some(Some(command))
}

/// "a period without a command shows a hyphen in the last column of the first
/// command", and nothing else in the columns of all commands.
fn shows_hyphen(p: usize, line: &[u8]) -> bool {
    let mut others = columns::commands(p).filter(|&column| column != columns::hyphen());
    line[columns::hyphen()] == b'-' && others.all(|column| line[column] == b' ')
}

/// The number that ends in the last of these columns, with spaces alone ahead
/// of it: in the one form in which writing puts it.
fn right_aligned(columns: &[u8]) -> Option<i64> {
    let first = columns.iter().position(|&byte| byte != b' ')?;
    let word = &columns[first..];
    if planted(Fault::NeedlessZeroRead) {
        return number(&without_needless_zeros(word));
    }
    number(word)
}

/// The word without the zeros ahead of another digit: what is read with the
/// planted fault of the needless zeros.
fn without_needless_zeros(word: &[u8]) -> Vec<u8> {
    let digits = word.strip_prefix(b"-").unwrap_or(word);
    let sign = &word[..word.len() - digits.len()];
    let zeros = digits.iter().take_while(|&&digit| digit == b'0').count();
    let needless = zeros.min(digits.len().saturating_sub(1));
    [sign, &digits[needless..]].concat()
}

#[cfg(test)]
mod tests {
    use super::*;

    #[test]
    fn numbers_end_in_the_last_column() {
        let good = [
            ("         0", 0),
            ("         7", 7),
            ("        70", 70),
            ("        -7", -7),
            ("4294967295", 4_294_967_295),
            ("9999999999", 9_999_999_999),
            ("-999999999", -999_999_999),
        ];
        for (columns, value) in good {
            assert_eq!(right_aligned(columns.as_bytes()), Some(value));
        }
        let bad = [
            "",
            "          ",
            "7         ",
            "        7 ",
            "      7  7",
            "        07",
            "        00",
            "        -0",
            "       -07",
            "        +7",
            "       - 7",
            "         -",
            "       --7",
            "        7-",
            "        \t7",
            "         x",
            "       7\r\n",
            "       1e2",
            "       1.0",
        ];
        for columns in bad {
            assert_eq!(right_aligned(columns.as_bytes()), None, "{columns:?}");
        }
    }

    #[test]
    fn needless_zeros_are_those_ahead_of_another_digit() {
        let cases = [
            ("0", "0"),
            ("7", "7"),
            ("-7", "-7"),
            ("70", "70"),
            ("007", "7"),
            ("-007", "-7"),
            ("000", "0"),
            ("-00", "-0"),
            ("-", "-"),
            ("0x", "x"),
        ];
        for (word, without) in cases {
            assert_eq!(without_needless_zeros(word.as_bytes()), without.as_bytes());
        }
    }
}
