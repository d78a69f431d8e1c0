//! Words of scripts and of what is printed, read by a check of its own.

use std::str::FromStr;

use second::law::Readings;

use crate::single_bits;

pub fn number<T: FromStr>(word: &str) -> Option<T> {
    word.parse().ok()
}

/// Numbers between commas.
pub fn values(field: &str) -> Option<Vec<i32>> {
    field.split(',').map(number).collect()
}

/// The row of a tick. "In the run of demand 3 a reading means its converted
/// value."
pub fn row<'a>(words: impl Iterator<Item = &'a str>) -> Option<Readings> {
    let mut row = Readings::default();
    for (j, word) in words.enumerate() {
        let place = row.values.get_mut(j)?;
        if let Some(value) = reading(word)? {
            *place = value;
            row.marks |= 1 << j;
        }
    }
    Some(row)
}

/// What a word stands for: a value, or a reading that is missing. None where
/// it is no reading's.
fn reading(word: &str) -> Option<Option<i32>> {
    match word.as_bytes() {
        b"-" => Some(None),
        [b'f', digits @ ..] => bits(digits).map(single_bits::converted),
        _ => number(word).map(Some),
    }
}

/// Eight digits of 0 to 9 and a to f, the highest first.
fn bits(digits: &[u8]) -> Option<u32> {
    let is_digit = |digit: &u8| matches!(digit, b'0'..=b'9' | b'a'..=b'f');
    if digits.len() != 8 || !digits.iter().all(is_digit) {
        return None;
    }
    u32::from_str_radix(std::str::from_utf8(digits).ok()?, 16).ok()
}

/// For tests: lines, and what the second implementation's rig prints for them
/// with the bench's group.
#[cfg(test)]
pub fn on_the_bench_group(lines: &str) -> (Vec<Vec<u8>>, Vec<u8>) {
    on_group(&crate::group::Group::bench(), lines)
}

/// The same with any group.
#[cfg(test)]
pub fn on_group(group: &crate::group::Group, lines: &str) -> (Vec<Vec<u8>>, Vec<u8>) {
    let input = format!("{}\n{lines}", group.first_line());
    let mut output = Vec::new();
    second::script::rig(input.as_bytes(), &mut output).unwrap();
    let lines = lines.lines().map(|line| line.as_bytes().to_vec());
    (lines.collect(), output)
}
