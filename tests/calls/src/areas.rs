//! What calls take and give, in the areas of include/winder.h.

use second::frame::Frame;
use second::law::Readings;
pub use winder::Frame as Fields;

/// What an output area holds before a call, in every byte.
pub const PATTERN: u8 = 0xA5;

/// The same in every byte of a wider number.
pub const PATTERN_32: u32 = u32::from_ne_bytes([PATTERN; 4]);

/// n, m and p as a call names them, in their ranges or not.
#[derive(Clone, Copy, Debug, PartialEq, Eq)]
pub struct Sizes {
    pub n: usize,
    pub m: usize,
    pub p: usize,
}

impl Sizes {
    /// For the second implementation, whose sizes end at 255: any above comes
    /// to 255, which is out of range as well.
    pub fn narrow(self) -> [u8; 3] {
        [self.n, self.m, self.p].map(|size| u8::try_from(size).unwrap_or(u8::MAX))
    }
}

pub fn pattern() -> Fields {
    Fields {
        kind_and_sender: [PATTERN; 2],
        counters: [PATTERN_32; 4],
        state: [PATTERN_32 as i32; 6],
        present: [PATTERN; 4],
        values: [PATTERN_32 as i32; 4],
    }
}

pub fn of_frame(frame: &Frame) -> Fields {
    let mark = |j: usize| u8::from(frame.readings.is_present(j));
    Fields {
        kind_and_sender: [frame.kind, frame.sender],
        counters: [frame.period, frame.view, frame.base_view, frame.base_period],
        state: frame.state,
        present: [mark(0), mark(1), mark(2), mark(3)],
        values: frame.readings.values,
    }
}

pub fn to_frame(fields: &Fields) -> Frame {
    let [kind, sender] = fields.kind_and_sender;
    let [period, view, base_view, base_period] = fields.counters;
    Frame {
        kind,
        sender,
        period,
        view,
        base_view,
        base_period,
        state: fields.state,
        readings: row(&fields.present, &fields.values),
    }
}

/// A row of readings as the second implementation has it; any mark but 0 is
/// present.
pub fn row(present: &[u8; 4], values: &[i32; 4]) -> Readings {
    let places = present.iter().enumerate();
    Readings {
        marks: places.fold(0, |marks, (j, &mark)| marks | u8::from(mark != 0) << j),
        values: *values,
    }
}
