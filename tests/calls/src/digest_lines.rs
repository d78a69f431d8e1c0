//! Lines of digests, one for each thousand of what is numbered, and the files
//! that they are compared with.

use std::fs;

use crate::digest::Digest;

/// How many numbers have a digest in common.
const TOGETHER: usize = 1_000;

/// Adds what a seed has under a number. The error says what is wrong with it.
pub type Add = fn(u64, usize, &mut Digest) -> Result<(), String>;

/// For each thousand its first number, its last one and its digest.
pub fn lines(count: usize, seed: u64, add: Add) -> Result<Vec<String>, String> {
    let firsts = (1..=count).step_by(TOGETHER);
    let lines = firsts.map(|first| {
        let last = count.min(first + TOGETHER - 1);
        let mut digest = Digest::default();
        (first..=last).try_for_each(|number| add(seed, number, &mut digest))?;
        Ok(format!("{first} {last} {digest}"))
    });
    lines.collect()
}

pub fn print(lines: &[String]) {
    lines.iter().for_each(|line| println!("{line}"));
}

/// Compares the lines with those of a file. The error says what differs first.
pub fn compare(lines: &[String], file: &str) -> Result<(), String> {
    let stored = fs::read_to_string(file).map_err(|error| format!("{file}: {error}"))?;
    same(lines, &without_comment(&stored)).map_err(|difference| format!("{file}: {difference}"))
}

/// The lines of a file that are no comment.
pub fn without_comment(text: &str) -> Vec<&str> {
    text.lines().filter(|line| !line.starts_with('#')).collect()
}

fn same(made: &[String], stored: &[&str]) -> Result<(), String> {
    let mut pairs = made.iter().zip(stored);
    if let Some((made, stored)) = pairs.find(|(made, stored)| made != *stored) {
        return Err(format!("now {made:?}, stored {stored:?}"));
    }
    match made.len() == stored.len() {
        true => Ok(()),
        false => Err(format!("{} lines now, {} stored", made.len(), stored.len())),
    }
}

#[cfg(test)]
mod tests {
    use super::*;

    #[test]
    fn what_differs_is_told() {
        let made = ["1 1000 a", "1001 2000 b"].map(str::to_string);
        assert_eq!(same(&made, &["1 1000 a", "1001 2000 b"]), Ok(()));
        let other = same(&made, &["1 1000 a", "1001 2000 c", "2001 3000 d"]);
        assert!(other.unwrap_err().contains("1001 2000 b"));
        assert!(same(&made, &["1 1000 a"]).is_err());
        assert!(same(&made[..1], &["1 1000 a", "1001 2000 b"]).is_err());
    }
}
