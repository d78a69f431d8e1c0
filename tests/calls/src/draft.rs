//! A frame before it is bytes, so that each piece can be damaged alone.

use second::frame::ACK;

use crate::prng::Prng;
use crate::values::{byte, counter, value};

/// Length of the header and both pairs; the state's part starts there.
pub const START: usize = 28;

pub struct Draft {
    pub header: [u8; 20],
    /// Offset and length of each part, in turn; empty for an Ack.
    pub pairs: Vec<u16>,
    /// The state's part and the readings' part; empty for an Ack.
    pub parts: Vec<Vec<u8>>,
}

impl Draft {
    /// A whole frame of this kind, with any values.
    pub fn whole(prng: &mut Prng, kind: u8, n: usize, m: usize) -> Draft {
        let parts = match kind {
            ACK => vec![],
            _ => vec![state_part(prng, n), readings_part(prng, m)],
        };
        let mut draft = Draft {
            header: header(prng, kind, parts.len() as u8),
            pairs: vec![],
            parts,
        };
        draft.pair_anew();
        draft
    }

    /// Another sender, and other counters from the period on.
    pub fn set_header(&mut self, sender: u8, counters: [u32; 4]) {
        self.header[1] = sender;
        for (place, counter) in self.header[4..].chunks_exact_mut(4).zip(counters) {
            place.copy_from_slice(&counter.to_le_bytes());
        }
    }

    /// The pairs that fit the parts as they stand.
    pub fn pair_anew(&mut self) {
        self.pairs.clear();
        let mut at = START;
        for part in &self.parts {
            self.pairs.extend([at as u16, part.len() as u16]);
            at += part.len();
        }
    }

    pub fn bytes(&self) -> Vec<u8> {
        let pairs = self.pairs.iter().flat_map(|number| number.to_le_bytes());
        let parts = self.parts.iter().flatten().copied();
        self.header.into_iter().chain(pairs).chain(parts).collect()
    }
}

fn header(prng: &mut Prng, kind: u8, part_count: u8) -> [u8; 20] {
    let mut header = [0; 20];
    header[..3].copy_from_slice(&[kind, byte(prng), part_count]);
    for place in header[4..].chunks_exact_mut(4) {
        place.copy_from_slice(&counter(prng).to_le_bytes());
    }
    header
}

fn state_part(prng: &mut Prng, n: usize) -> Vec<u8> {
    (0..n).flat_map(|_| value(prng).to_le_bytes()).collect()
}

fn readings_part(prng: &mut Prng, m: usize) -> Vec<u8> {
    let marks = prng.below(1 << m);
    let mut part = vec![marks as u8];
    for j in 0..m {
        let present = marks >> j & 1 == 1;
        let value = if present { value(prng) } else { 0 };
        part.extend(value.to_le_bytes());
    }
    part
}

#[cfg(test)]
mod tests {
    use super::*;

    #[test]
    fn whole_frames_are_read_and_written_back_by_the_second() {
        let mut prng = Prng::new(1);
        for case in 0..96 {
            let (kind, n, m) = (1 + case % 4, 1 + case / 4 % 6, 1 + case / 24);
            let bytes = Draft::whole(&mut prng, kind, n.into(), m.into()).bytes();
            let frame = second::frame::read(n, m, &bytes).unwrap();
            let mut area = [0; 69];
            let length = second::frame::write(n, m, &frame, &mut area).unwrap();
            assert_eq!(area[..length], bytes);
        }
    }
}
