//! The comparison of frames: read, written back, and written from fields.

use std::fmt;

use crate::areas::{pattern, Fields, Sizes, PATTERN};
use crate::damage::{self, Made, LONGEST};
use crate::prng::Prng;
use crate::report::{alike, write_answers, write_row, Answers};
use crate::values::{byte, counter, mark, noise, perhaps_outside, sizes, value};
use crate::{counterpart, first};

/// Longer than any area lent, so that a byte written after one shows.
const BUFFER: usize = LONGEST + 16;

/// What a call of writing leaves behind.
#[derive(Debug, PartialEq, Eq)]
pub struct Written {
    answer: u32,
    pub length: usize,
    pub buffer: [u8; BUFFER],
}

/// A frame, and the sizes that it is read for.
pub struct Handed {
    /// Those that the frame was made for.
    pub inside: Sizes,
    /// The same, or with one out of its range.
    pub asked: Sizes,
    pub made: Made,
}

type Read = fn(Sizes, &[u8], &mut Fields) -> u32;
type Write = fn(Sizes, &Fields, &mut [u8], &mut usize) -> u32;

#[derive(Debug, Default)]
pub struct Counts {
    frames: usize,
    /// By kind before damage; place 0 is unused.
    kinds: [usize; 5],
    read: Answers,
    written: Answers,
    written_back: usize,
    /// By damage: how many, and how many of these are well-formed.
    damages: [(usize, usize); damage::NAMES.len()],
}

/// The frames of one number. The error says what differs.
pub fn compare(seed: u64, number: usize, counts: &mut Counts) -> Result<(), String> {
    let prng = &mut Prng::of_script(seed, number);
    let Handed {
        inside,
        asked,
        made,
    } = handed_to_reader(prng);
    let (answer, fields) = read_by_both(asked, &made.bytes)?;
    counts.count_read(&made, answer);
    if answer == 0 {
        write_back(prng, asked, &fields, &made.bytes)?;
        counts.written_back += 1;
    } else if made.damage == 0 && asked == inside {
        return Err(format!("a whole frame is refused: {:?}", made.bytes));
    }
    let fields = any_fields(prng, inside.m);
    let length = area_length(prng);
    let written = written_by_both(asked, &fields, length)?;
    counts.written[written.answer as usize] += 1;
    Ok(())
}

/// What a number draws first: stored digests rest on it.
pub fn handed_to_reader(prng: &mut Prng) -> Handed {
    let inside = sizes(prng);
    let asked = perhaps_outside(prng, inside);
    let made = damage::make(prng, inside.n, inside.m);
    Handed {
        inside,
        asked,
        made,
    }
}

/// The answer, and the fields after the call; before it they hold a pattern.
pub fn read_by(read: Read, sizes: Sizes, bytes: &[u8]) -> (u32, Fields) {
    let mut fields = pattern();
    let answer = read(sizes, bytes, &mut fields);
    (answer, fields)
}

fn read_by_both(sizes: Sizes, bytes: &[u8]) -> Result<(u32, Fields), String> {
    let given = |read| read_by(read, sizes, bytes);
    let (first, second) = (given(first::read), given(counterpart::read));
    alike(first, second, &("read", sizes, bytes))
}

/// What was read, written again, is what it was read from.
fn write_back(prng: &mut Prng, sizes: Sizes, fields: &Fields, bytes: &[u8]) -> Result<(), String> {
    let length = 69 + prng.below(LONGEST - 68);
    let written = written_by_both(sizes, fields, length)?;
    match written.answer == 0 && written.buffer.get(..written.length) == Some(bytes) {
        true => Ok(()),
        false => Err(format!("{bytes:?} read, then written: {written:?}")),
    }
}

/// Writes into an area of this length.
pub fn written_by(write: Write, sizes: Sizes, fields: &Fields, length: usize) -> Written {
    let mut written = Written::default();
    let area = &mut written.buffer[..length];
    written.answer = write(sizes, fields, area, &mut written.length);
    written
}

fn written_by_both(sizes: Sizes, fields: &Fields, length: usize) -> Result<Written, String> {
    let given = |write| written_by(write, sizes, fields, length);
    let (first, second) = (given(first::write), given(counterpart::write));
    let written = alike(first, second, &("write", sizes, fields, length))?;
    match written.answer == 0 || written.is_untouched() {
        true => Ok(written),
        false => Err(format!("refused, and yet there is {written:?}")),
    }
}

impl Default for Written {
    /// Before a call; no call gives this length.
    fn default() -> Written {
        Written {
            answer: 0,
            length: usize::MAX,
            buffer: [PATTERN; BUFFER],
        }
    }
}

impl Written {
    fn is_untouched(&self) -> bool {
        self.length == usize::MAX && self.buffer == [PATTERN; BUFFER]
    }
}

/// Fields as a caller may hand them in: most can be a frame's for this m.
fn any_fields(prng: &mut Prng, m: usize) -> Fields {
    let kind = match prng.chance(5) {
        true => prng.pick(&[0, 5, 6, 255]),
        false => 1 + prng.below(4) as u8,
    };
    let mut fields = Fields {
        kind_and_sender: [kind, byte(prng)],
        counters: [(); 4].map(|()| counter(prng)),
        state: [(); 6].map(|()| value(prng)),
        present: [(); 4].map(|()| mark(prng)),
        values: [(); 4].map(|()| noise(prng)),
    };
    if !prng.chance(15) {
        fields.present[m..].fill(0);
    }
    if !prng.chance(15) {
        let absent = |j: &usize| fields.present[*j] == 0;
        (0..m).filter(absent).for_each(|j| fields.values[j] = 0);
    }
    fields
}

fn area_length(prng: &mut Prng) -> usize {
    match prng.below(10) {
        0 => 68,
        1 => 69,
        2 | 3 => prng.below(LONGEST + 1),
        _ => 69 + prng.below(LONGEST - 68),
    }
}

impl Counts {
    fn still_well_formed(&self) -> usize {
        self.damages[1..]
            .iter()
            .map(|(_, well_formed)| well_formed)
            .sum()
    }

    fn write_damages(&self, out: &mut fmt::Formatter<'_>) -> fmt::Result {
        writeln!(out, "{:<38}{:>9}{:>12}", "damage", "frames", "well-formed")?;
        for ((_, name), (count, well_formed)) in damage::NAMES.iter().zip(&self.damages) {
            writeln!(out, "  {name:<36}{count:>9}{well_formed:>12}")?;
        }
        Ok(())
    }

    fn count_read(&mut self, made: &Made, answer: u32) {
        self.frames += 1;
        self.kinds[usize::from(made.kind)] += 1;
        self.read[answer as usize] += 1;
        let (count, well_formed) = &mut self.damages[made.damage];
        *count += 1;
        *well_formed += usize::from(answer == 0);
    }
}

impl fmt::Display for Counts {
    fn fmt(&self, out: &mut fmt::Formatter<'_>) -> fmt::Result {
        write_row(out, "frames read", self.frames)?;
        write_row(out, "  Propose", self.kinds[1])?;
        write_row(out, "  Ack", self.kinds[2])?;
        write_row(out, "  Decide", self.kinds[3])?;
        write_row(out, "  Estimate", self.kinds[4])?;
        write_answers(out, "  read,", &self.read)?;
        write_row(out, "  written back", self.written_back)?;
        let damaged = self.still_well_formed();
        write_row(out, "  damaged, still well-formed", damaged)?;
        write_answers(out, "fields written,", &self.written)?;
        self.write_damages(out)
    }
}

#[cfg(test)]
mod tests {
    use super::*;
    use crate::report::met;

    #[test]
    fn every_answer_and_every_damage_is_met() {
        let mut counts = Counts::default();
        for number in 1..=2_000 {
            compare(1, number, &mut counts).unwrap();
        }
        assert_eq!(met(&counts.read), [0, 2, 8]);
        assert_eq!(met(&counts.written), [0, 2, 5, 8]);
        assert!(counts.damages.iter().all(|&(count, _)| count > 0));
    }
}
