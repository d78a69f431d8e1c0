//! The second implementation's calls on records, with what the C calls are handed and by their names, and its reading of a frame. None is inlined, so
//! that callgrind has each by name.

use second::calls;
use second::frame::{self, Frame};
use second::law::Settings;
use second::refusal::Refusal;
use second::replica::{Areas, Quorums};

#[inline(never)]
pub fn make(settings: &Settings, boxes: u8, own: u8, quorums: Quorums, area: &mut [u8]) -> u32 {
    calls::make(boxes, own, quorums, *settings, area)
}

#[inline(never)]
pub fn tick(
    record: &mut [u8],
    kinds: &[u8; 4],
    bits: &[u32; 4],
    areas: Areas,
    lengths: &mut [usize; 2],
) -> u32 {
    calls::tick(record, kinds, bits, areas, lengths)
}

#[inline(never)]
pub fn give_up(record: &mut [u8], areas: Areas, lengths: &mut [usize; 2]) -> u32 {
    calls::give_up(record, areas, lengths)
}

#[inline(never)]
pub fn arrive(record: &mut [u8], bytes: &[u8], areas: Areas, lengths: &mut [usize; 2]) -> u32 {
    calls::arrive(record, bytes, areas, lengths)
}

#[inline(never)]
pub fn record(record: &[u8], area: &mut [u8]) -> u32 {
    calls::copy(record, area)
}

#[inline(never)]
pub fn r#return(record: &[u8], missed: u32, area: &mut [u8]) -> u32 {
    calls::return_to(record, missed, area)
}

#[inline(never)]
pub fn read_frame(n: u8, m: u8, bytes: &[u8]) -> Result<Frame, Refusal> {
    frame::read(n, m, bytes)
}
