//! FNV-1a: bytes as one number of 64 bits.

use std::fmt;

const OFFSET_BASIS: u64 = 0xcbf2_9ce4_8422_2325;
const PRIME: u64 = 0x0100_0000_01b3;

/// The digest of the bytes so far.
#[derive(Clone, Debug, PartialEq, Eq)]
pub struct Digest(u64);

impl Default for Digest {
    /// Of no byte.
    fn default() -> Digest {
        Digest(OFFSET_BASIS)
    }
}

impl Digest {
    pub fn add(&mut self, bytes: &[u8]) {
        for &byte in bytes {
            self.0 = (self.0 ^ u64::from(byte)).wrapping_mul(PRIME);
        }
    }

    /// As eight bytes, so that a number never runs into the next one.
    pub fn add_number(&mut self, number: usize) {
        self.add(&(number as u64).to_le_bytes());
    }
}

impl fmt::Display for Digest {
    fn fmt(&self, out: &mut fmt::Formatter<'_>) -> fmt::Result {
        write!(out, "{:016x}", self.0)
    }
}

#[cfg(test)]
mod tests {
    use super::*;

    fn printed(bytes: &[u8]) -> String {
        let mut digest = Digest::default();
        digest.add(bytes);
        digest.to_string()
    }

    #[test]
    fn known_digests_of_fnv_1a() {
        assert_eq!(printed(b""), "cbf29ce484222325");
        assert_eq!(printed(b"a"), "af63dc4c8601ec8c");
        assert_eq!(printed(b"foobar"), "85944171f73967e8");
    }
}
