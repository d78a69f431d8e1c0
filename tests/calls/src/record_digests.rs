//! What calls on records, and on replicas with tickets, leave, in digests: the
//! calls are compared with those of the code before them, whose digests are
//! stored.

use crate::digest_lines::{self, Add};
use crate::{records, tickets};

/// The calls, each with its name in a line.
const CALLS: [(&str, Add); 2] = [("records", records::add), ("tickets", tickets::add)];

/// Prints the lines.
pub fn print(count: usize, seed: u64) -> Result<(), String> {
    digest_lines::print(&lines(count, seed)?);
    Ok(())
}

/// Compares the lines with those of a file. The error says what differs first.
pub fn compare(count: usize, seed: u64, file: &str) -> Result<(), String> {
    digest_lines::compare(&lines(count, seed)?, file)?;
    println!("{count} calls on records and as many on replicas with tickets of seed {seed}, with those of their groups: as in {file}");
    Ok(())
}

fn lines(count: usize, seed: u64) -> Result<Vec<String>, String> {
    let mut lines = vec![];
    for (name, add) in CALLS {
        let of_calls = digest_lines::lines(count, seed, add)?;
        lines.extend(of_calls.iter().map(|line| format!("{name} {line}")));
    }
    Ok(lines)
}

#[cfg(test)]
mod tests {
    use super::*;
    use crate::digest::Digest;
    use crate::digest_lines::without_comment;

    const STORED: &str = include_str!("../records.digests");

    /// With those of the code before document 02's L9.
    #[test]
    fn records_and_calls_are_as_they_were() {
        for line in lines(2_000, 1).unwrap() {
            assert!(without_comment(STORED).contains(&line.as_str()), "{line}");
        }
    }

    #[test]
    fn each_number_adds_something_of_its_own() {
        for (name, add) in CALLS {
            let digest_of = |number| {
                let mut digest = Digest::default();
                add(1, number, &mut digest).map(|()| digest)
            };
            assert_eq!(digest_of(1), digest_of(1), "{name}");
            assert_ne!(digest_of(1), digest_of(2), "{name}");
            assert_ne!(digest_of(1).unwrap(), Digest::default(), "{name}");
        }
    }
}
