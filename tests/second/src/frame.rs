//! Document 01, "Frames": the frames and the command as bytes. Byte 2 of the
//! command is document 02's, L7.
//!
//! "Reading or writing a frame as a call of its own needs only n and m: it
//! refuses by 2 for those, writing by 5 for its area, and both by 8, in that
//! order; 9 to 11 belong to a replica."

use crate::fault::{planted, Fault};
use crate::law::{self, Command, Readings, State};
use crate::refusal::Refusal;

pub const PROPOSE: u8 = 1;
pub const ACK: u8 = 2;
pub const DECIDE: u8 = 3;
pub const ESTIMATE: u8 = 4;

/// Byte 0 of a command.
const COMMAND: u8 = 5;

/// Where a command's bytes say whether it was limited.
pub(crate) const LIMITED_AT: usize = 2;

/// "the longest frame has 69"
pub const FRAME_AREA: usize = 69;
/// "command area under 24" is refused.
pub const COMMAND_AREA: usize = 24;

const HEADER: usize = 20;
const PAIR: usize = 4;
const VALUE: usize = 4;

/// What a frame says. An Ack has no parts: read, its state and readings are
/// all 0 without a mark; written, they are not looked at.
#[derive(Clone, Copy, Debug, Default, PartialEq, Eq)]
pub struct Frame {
    /// "1 Propose, 2 Ack, 3 Decide, 4 Estimate"
    pub kind: u8,
    pub sender: u8,
    pub period: u32,
    pub view: u32,
    pub base_view: u32,
    pub base_period: u32,
    pub state: State,
    pub readings: Readings,
}

/// Where the two parts of a frame lie: offset and length of each, "sorted by
/// offset, the state's part first; parts follow without gaps to the frame's
/// end".
struct Parts {
    state: (usize, usize),
    readings: (usize, usize),
}

impl Parts {
    fn of(n: usize, m: usize) -> Parts {
        let start = HEADER + 2 * PAIR;
        let (state_length, readings_length) = (VALUE * n, 1 + VALUE * m);
        Parts {
            state: (start, state_length),
            readings: (start + state_length, readings_length),
        }
    }

    fn frame_length(&self) -> usize {
        self.readings.0 + self.readings.1
    }

    /// The pairs as they stand in the frame after the header.
    fn pairs(&self) -> [u8; 2 * PAIR] {
        let numbers = [self.state.0, self.state.1, self.readings.0, self.readings.1];
        let mut bytes = [0; 2 * PAIR];
        for (place, number) in bytes.chunks_exact_mut(2).zip(numbers) {
            let number = u16::try_from(number).expect("at most 69");
            place.copy_from_slice(&number.to_le_bytes());
        }
        bytes
    }
}

/// "number of parts (Ack 0, others 2)"; none for what is no kind.
fn part_count(kind: u8) -> Option<u8> {
    match kind {
        ACK => Some(0),
        PROPOSE | DECIDE | ESTIMATE => Some(2),
        5 if planted(Fault::FifthKind) => Some(2),
        _ => None,
    }
}

/// Refusal 2 for a call that needs only n and m.
fn check_sizes(n: u8, m: u8) -> Result<(), Refusal> {
    law::check_sizes(n, m, 1)
}

/// Reads a frame; refuses by 2, then by 8.
pub fn read(n: u8, m: u8, bytes: &[u8]) -> Result<Frame, Refusal> {
    check_sizes(n, m)?;
    read_form(n, m, bytes).ok_or(Refusal::Form)
}

/// The frame, unless "length, kind, part count, byte 3, pairs, marks or
/// absent values" are "not as above".
fn read_form(n: u8, m: u8, bytes: &[u8]) -> Option<Frame> {
    let mut frame = read_header(bytes)?;
    if frame.kind == ACK {
        return (bytes.len() == HEADER).then_some(frame);
    }
    let mut parts = Parts::of(n.into(), m.into());
    if planted(Fault::Gap) && bytes.len() > parts.frame_length() {
        parts.readings.0 = bytes.len() - parts.readings.1;
    }
    if planted(Fault::LongerFrame) && bytes.len() > parts.frame_length() {
        return read_form(n, m, &bytes[..parts.frame_length()]);
    }
    if bytes.len() != parts.frame_length()
        || bytes[HEADER..parts.state.0] != parts.pairs() && !planted(Fault::Pairs)
    {
        return None;
    }
    // "State and readings are each read from their own part of the frame"
    frame.state = read_state(&bytes[parts.state.0..parts.readings.0]);
    frame.readings = read_readings(m, &bytes[parts.readings.0..])?;
    Some(frame)
}

/// The header's fields, if its length, kind, part count and byte 3 are right.
fn read_header(bytes: &[u8]) -> Option<Frame> {
    if bytes.len() < HEADER {
        return None;
    }
    let wrong_count = bytes[2] != part_count(bytes[0])? && !planted(Fault::PartCount);
    if wrong_count || bytes[3] != 0 && !planted(Fault::ByteThree) {
        return None;
    }
    let field = |at: usize| u32::from_le_bytes(four(&bytes[at..]));
    Some(Frame {
        kind: bytes[0],
        sender: bytes[1],
        period: field(4),
        view: field(8),
        base_view: field(12),
        base_period: field(16),
        ..Frame::default()
    })
}

/// "n i32 values", from a part of 4n bytes.
fn read_state(part: &[u8]) -> State {
    let mut state = State::default();
    read_values(part, &mut state);
    if planted(Fault::ByteOrder) {
        state = state.map(i32::swap_bytes);
    }
    state
}

/// "one byte of present marks (bit j for reading j, counted from 0) and m i32
/// values, 0 where absent. Marks at or above m are 0."
fn read_readings(m: u8, part: &[u8]) -> Option<Readings> {
    let mut readings = Readings {
        marks: part[0],
        ..Readings::default()
    };
    read_values(&part[1..], &mut readings.values);
    let read = readings.as_read(m);
    let marks_ok = readings.marks == read.marks || planted(Fault::MarkBeyondRead);
    let values_ok = readings.values == read.values || planted(Fault::AbsentValueRead);
    (marks_ok && values_ok).then_some(readings)
}

fn read_values(bytes: &[u8], values: &mut [i32]) {
    for (place, value) in bytes.chunks_exact(VALUE).zip(values) {
        *value = i32::from_le_bytes(four(place));
    }
}

/// The first four bytes; there are at least as many.
fn four(bytes: &[u8]) -> [u8; 4] {
    [bytes[0], bytes[1], bytes[2], bytes[3]]
}

/// Writes a frame and gives its length; refuses by 2, 5 (an area under 69
/// bytes, whatever the length of this frame), then 8. "Bytes behind anything
/// written keep what they held."
pub fn write(n: u8, m: u8, frame: &Frame, area: &mut [u8]) -> Result<usize, Refusal> {
    if planted(Fault::AreaFirst) && area.len() < FRAME_AREA {
        return Err(Refusal::Areas);
    }
    check_sizes(n, m)?;
    if area.len() < FRAME_AREA - usize::from(planted(Fault::ShortArea)) {
        return Err(Refusal::Areas);
    }
    if planted(Fault::RefusedHeader) {
        write_header(frame, 0, area);
    }
    let part_count = part_count(frame.kind).ok_or(Refusal::Form)?;
    if part_count != 0 && !can_be_written(m, &frame.readings) {
        return Err(Refusal::Form);
    }
    write_header(frame, part_count, area);
    if part_count == 0 {
        return Ok(HEADER);
    }
    let parts = Parts::of(n.into(), m.into());
    area[HEADER..parts.state.0].copy_from_slice(&parts.pairs());
    write_values(&frame.state[..n.into()], &mut area[parts.state.0..]);
    area[parts.readings.0] = frame.readings.marks;
    let values = &frame.readings.values[..m.into()];
    write_values(values, &mut area[parts.readings.0 + 1..]);
    if planted(Fault::BytesBehind) {
        area[parts.frame_length()..].fill(0);
    }
    Ok(parts.frame_length())
}

/// Readings: "what no frame can hold is refused, never silently dropped": no
/// mark at or above m and, below m, no value but 0 under an absent mark.
fn can_be_written(m: u8, readings: &Readings) -> bool {
    let absent_are_zero = (0..m.into()).all(|j| readings.is_present(j) || readings.values[j] == 0)
        || planted(Fault::AbsentValueWritten);
    absent_are_zero && (!readings.has_marks_beyond(m) || planted(Fault::MarkBeyondWritten))
}

fn write_header(frame: &Frame, part_count: u8, area: &mut [u8]) {
    area[0] = frame.kind;
    area[1] = frame.sender;
    area[2] = part_count;
    area[3] = 0;
    let fields = [frame.period, frame.view, frame.base_view, frame.base_period];
    for (place, field) in area[4..HEADER].chunks_exact_mut(4).zip(fields) {
        place.copy_from_slice(&field.to_le_bytes());
    }
}

fn write_values(values: &[i32], area: &mut [u8]) {
    for (place, value) in area.chunks_exact_mut(VALUE).zip(values) {
        place.copy_from_slice(&value.to_le_bytes());
    }
}

/// "Command: byte 0 is 5, byte 1 is p", byte 3 "zero, period at 4, p i32
/// values from 8. No sender." Document 02: "Byte 2 of the command is 1 if that
/// occurred in the update or the command it comes from, otherwise 0." Gives the
/// length; refuses by 2 for p and by 5 for an area under 24 bytes.
pub fn write_command(
    p: u8,
    period: u32,
    command: &Command,
    limited: bool,
    area: &mut [u8],
) -> Result<usize, Refusal> {
    law::check_sizes(1, 1, p)?;
    if area.len() < COMMAND_AREA {
        return Err(Refusal::Areas);
    }
    let mark = u8::from(limited && !planted(Fault::MarksLeftZero));
    area[..4].copy_from_slice(&[COMMAND, p, mark, 0]);
    area[4..8].copy_from_slice(&period.to_le_bytes());
    write_values(&command[..p.into()], &mut area[8..]);
    Ok(8 + VALUE * usize::from(p))
}

/// The values in a command's bytes, which `write_command` wrote.
pub fn command_values(bytes: &[u8]) -> Vec<i32> {
    let values = bytes[8..].chunks_exact(VALUE);
    values
        .map(|place| i32::from_le_bytes(four(place)))
        .collect()
}

/// Whether a command's bytes say that it was limited; none where byte 2 is
/// neither 0 nor 1, as in no command.
pub fn command_limited(bytes: &[u8]) -> Option<bool> {
    match bytes.get(LIMITED_AT)? {
        0 => Some(false),
        1 => Some(true),
        _ => None,
    }
}

#[cfg(test)]
mod tests {
    use super::*;

    fn propose() -> Frame {
        Frame {
            kind: PROPOSE,
            sender: 2,
            period: 7,
            view: 1,
            base_view: 1,
            base_period: 7,
            state: [1, -1, 256, i32::MIN, 0, 0],
            readings: Readings {
                marks: 0b10,
                values: [0, -2, 0, 0],
            },
        }
    }

    fn written(n: u8, m: u8, frame: &Frame) -> Vec<u8> {
        let mut area = [0xAA; 80];
        let length = write(n, m, frame, &mut area).unwrap();
        assert!(area[length..].iter().all(|&byte| byte == 0xAA));
        area[..length].to_vec()
    }

    #[test]
    fn p8_ack() {
        let ack = Frame {
            kind: ACK,
            sender: 2,
            period: 1,
            ..Frame::default()
        };
        let mut bytes = vec![2, 2, 0, 0, 1];
        bytes.extend([0; 15]);
        assert_eq!(written(1, 1, &ack), bytes);
        assert_eq!(read(1, 1, &bytes), Ok(ack));
    }

    #[test]
    fn propose_has_53_bytes_and_each_in_its_place() {
        let bytes = written(4, 2, &propose());
        let expected = [
            &[1, 2, 2, 0, 7, 0, 0, 0, 1, 0, 0, 0, 1, 0, 0, 0, 7, 0, 0, 0][..],
            &[28, 0, 16, 0, 44, 0, 9, 0],
            &[1, 0, 0, 0, 255, 255, 255, 255, 0, 1, 0, 0, 0, 0, 0, 128],
            &[2, 0, 0, 0, 0, 254, 255, 255, 255],
        ];
        assert_eq!(bytes, expected.concat());
        assert_eq!(bytes.len(), 53);
        assert_eq!(read(4, 2, &bytes), Ok(propose()));
    }

    #[test]
    fn longest_frame_has_69_bytes() {
        let mut frame = propose();
        frame.readings.values[0] = 0;
        assert_eq!(written(6, 4, &frame).len(), 69);
    }

    #[test]
    fn a_52_byte_propose_is_refused() {
        let mut bytes = written(4, 2, &propose());
        bytes.push(0);
        assert_eq!(read(4, 2, &bytes), Err(Refusal::Form));
        bytes.truncate(52);
        assert_eq!(read(4, 2, &bytes), Err(Refusal::Form));
        for length in 0..52 {
            assert_eq!(read(4, 2, &bytes[..length]), Err(Refusal::Form));
        }
    }

    #[test]
    fn every_changed_byte_of_the_form_is_refused() {
        let bytes = written(4, 2, &propose());
        let of_the_form = |at: usize, byte: u8| match at {
            // The other kinds with parts are frames as well.
            0 => ![1, 3, 4].contains(&byte),
            2 | 3 | 20..=27 => byte != bytes[at],
            // Marks: without its mark, −2 stands under an absent one.
            44 => byte & 0b10 == 0 || byte > 0b11,
            // The absent reading's value.
            45..=48 => byte != 0,
            _ => false,
        };
        for at in 0..bytes.len() {
            for byte in 0..=u8::MAX {
                let mut changed = bytes.clone();
                changed[at] = byte;
                let refused = read(4, 2, &changed) == Err(Refusal::Form);
                assert_eq!(refused, of_the_form(at, byte), "byte {at} as {byte}");
            }
        }
    }

    #[test]
    fn an_ack_with_parts_or_a_longer_one_is_refused() {
        let mut bytes = vec![ACK, 1];
        bytes.resize(20, 0);
        assert!(read(1, 1, &bytes).is_ok());
        bytes[2] = 2;
        assert_eq!(read(1, 1, &bytes), Err(Refusal::Form));
        bytes[2] = 0;
        bytes.push(0);
        assert_eq!(read(1, 1, &bytes), Err(Refusal::Form));
    }

    #[test]
    fn writing_refuses_by_2_then_5_then_8() {
        let mut bad = propose();
        bad.kind = 5;
        let mut short = [0; 68];
        let mut area = [0; 69];
        for (n, m) in [(0, 1), (7, 1), (1, 0), (1, 5)] {
            assert_eq!(write(n, m, &bad, &mut short), Err(Refusal::Sizes));
            assert_eq!(read(n, m, &[]), Err(Refusal::Sizes));
        }
        assert_eq!(write(1, 1, &bad, &mut short), Err(Refusal::Areas));
        assert_eq!(write(1, 1, &bad, &mut area), Err(Refusal::Form));
        assert_eq!(area, [0; 69]);
    }

    #[test]
    fn writing_refuses_readings_that_no_frame_holds() {
        let mut area = [0; 69];
        let mut frame = propose();
        // Its mark is bit 1, so m 1 has no place for it.
        assert_eq!(write(4, 1, &frame, &mut area), Err(Refusal::Form));
        frame.readings.values[0] = 1;
        assert_eq!(write(4, 2, &frame, &mut area), Err(Refusal::Form));
        // Of an Ack the parts are not looked at, nor are places beyond m.
        frame.kind = ACK;
        assert_eq!(write(4, 2, &frame, &mut area), Ok(20));
        frame = propose();
        frame.readings.values[2] = 1;
        assert_eq!(write(4, 2, &frame, &mut area), Ok(53));
    }

    #[test]
    fn command_bytes() {
        let mut area = [0xAA; 24];
        let length = write_command(2, 258, &[-1, 2, 3, 4], false, &mut area).unwrap();
        let expected = [5, 2, 0, 0, 2, 1, 0, 0, 255, 255, 255, 255, 2, 0, 0, 0];
        assert_eq!(area[..length], expected);
        assert_eq!(area[length..], [0xAA; 8]);
        assert_eq!(command_values(&area[..length]), [-1, 2]);
    }

    #[test]
    fn a_limited_command_differs_in_byte_2_alone() {
        let [plain, limited] = [false, true].map(|limited| {
            let mut area = [0xAA; 24];
            write_command(4, 258, &[-1, 2, 3, 4], limited, &mut area).unwrap();
            area
        });
        assert_eq!(command_limited(&plain), Some(false));
        assert_eq!(command_limited(&limited), Some(true));
        let mut marked = plain;
        marked[2] = 1;
        assert_eq!(marked, limited);
        for byte in 2..=u8::MAX {
            marked[2] = byte;
            assert_eq!(command_limited(&marked), None);
        }
        assert_eq!(command_limited(&marked[..2]), None);
    }

    #[test]
    fn a_command_is_refused_by_2_then_5_whether_limited_or_not() {
        for limited in [false, true] {
            let mut short = [0; 23];
            let mut write = |p| write_command(p, 1, &[0; 4], limited, &mut short);
            assert_eq!(write(1), Err(Refusal::Areas));
            assert_eq!(write(0), Err(Refusal::Sizes));
            assert_eq!(write(5), Err(Refusal::Sizes));
            assert_eq!(short, [0; 23]);
        }
    }
}
