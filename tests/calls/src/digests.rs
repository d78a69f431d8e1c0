//! Frames as the first implementation reads them, a digest for each thousand:
//! a reader is compared with one that came before it, whose digests are stored.

use crate::areas::{Fields, Sizes};
use crate::damage::LONGEST;
use crate::digest::Digest;
use crate::digest_lines;
use crate::first;
use crate::frames::{handed_to_reader, read_by, written_by, Written};
use crate::prng::Prng;

/// Prints the lines.
pub fn print(count: usize, seed: u64) -> Result<(), String> {
    digest_lines::print(&lines(count, seed)?);
    Ok(())
}

/// Compares the lines with those of a file. The error says what differs first.
pub fn compare(count: usize, seed: u64, file: &str) -> Result<(), String> {
    digest_lines::compare(&lines(count, seed)?, file)?;
    println!("{count} frames of seed {seed}: read as in {file}");
    Ok(())
}

fn lines(count: usize, seed: u64) -> Result<Vec<String>, String> {
    digest_lines::lines(count, seed, |seed, number, digest| {
        Seen::new(seed, number).add_to(digest);
        Ok(())
    })
}

/// A frame handed to the reader, and all that came of it.
struct Seen {
    asked: Sizes,
    bytes: Vec<u8>,
    answer: u32,
    fields: Fields,
    /// Where nothing was refused: what was read, written again.
    again: Option<Written>,
}

impl Seen {
    fn new(seed: u64, number: usize) -> Seen {
        let handed = handed_to_reader(&mut Prng::of_script(seed, number));
        let (asked, bytes) = (handed.asked, handed.made.bytes);
        let (answer, fields) = read_by(first::read, asked, &bytes);
        let again = (answer == 0).then(|| written_by(first::write, asked, &fields, LONGEST));
        Seen {
            asked,
            bytes,
            answer,
            fields,
            again,
        }
    }

    fn add_to(&self, digest: &mut Digest) {
        let Sizes { n, m, p } = self.asked;
        [n, m, p, self.bytes.len()]
            .iter()
            .for_each(|&number| digest.add_number(number));
        digest.add(&self.bytes);
        digest.add(&self.answer.to_le_bytes());
        add_fields(digest, &self.fields);
        if let Some(written) = &self.again {
            digest.add_number(written.length);
            digest.add(&written.buffer);
        }
    }
}

/// Every byte of the fields, which is the pattern's where a refused call left
/// it.
fn add_fields(digest: &mut Digest, fields: &Fields) {
    digest.add(&fields.kind_and_sender);
    digest.add(fields.counters.map(u32::to_le_bytes).as_flattened());
    digest.add(fields.state.map(i32::to_le_bytes).as_flattened());
    digest.add(&fields.present);
    digest.add(fields.values.map(i32::to_le_bytes).as_flattened());
}

#[cfg(test)]
mod tests {
    use super::*;
    use crate::digest_lines::without_comment;

    const STORED: &str = include_str!("../frames.digests");

    #[test]
    fn the_first_thousands_are_read_as_stored() {
        let made = lines(2_000, 1).unwrap();
        assert_eq!(made, without_comment(STORED)[..2]);
    }

    fn digest_of(seen: &Seen) -> Digest {
        let mut digest = Digest::default();
        seen.add_to(&mut digest);
        digest
    }

    #[test]
    fn one_change_of_what_came_shows() {
        let changes: [fn(&mut Seen); 6] = [
            |seen| seen.answer ^= 1,
            |seen| seen.fields.kind_and_sender[1] ^= 1,
            |seen| seen.fields.counters[3] ^= 1 << 31,
            |seen| seen.fields.state[5] ^= 1 << 24,
            |seen| seen.fields.present[0] ^= 1,
            |seen| seen.fields.values[3] ^= 1,
        ];
        for (number, change) in (1..20).flat_map(|number| changes.map(|change| (number, change))) {
            let mut seen = Seen::new(1, number);
            let before = digest_of(&seen);
            change(&mut seen);
            assert_ne!(digest_of(&seen), before);
        }
    }
}
