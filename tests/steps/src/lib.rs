//! The calls of crate steps, over the archive that `bash tools/build steps` makes: a replica's making and its steps on areas of numbers, and
//! reading a shift page, for the comparison of the two implementations alone. Every function here is safe.

mod declarations;

use declarations::{steps_arrive, steps_give_up, steps_make, steps_read_page, steps_tick};

/// The answer of a step that ignores its event. Done is 0, and a refusal is its number.
pub const IGNORED: u32 = 256;

/// The settings of a replica.
#[derive(Clone, Debug)]
pub struct Settings {
    /// N, the own number, a and b.
    pub group: [u8; 4],
    pub law: winder::Settings,
    pub start: [i32; 6],
}

/// What a replica holds. Any mark but 0 counts; a call gives back 0 and 1.
#[derive(Clone, Copy, Debug, PartialEq, Eq)]
pub struct Held {
    /// Period, view, base view and base period; base view and base period of the best estimate.
    pub counters: [u32; 6],
    /// The marks of view-change mode, of a decided period and of a best estimate; then the number of the best estimate's box.
    pub marks: [u8; 4],
    /// Place j for box j.
    pub heard: [u8; 10],
    pub state: [i32; 6],
    pub present: [u8; 4],
    pub values: [i32; 4],
    pub best_state: [i32; 6],
    pub best_present: [u8; 4],
    pub best_values: [i32; 4],
}

/// The areas lent to a step, and the lengths that it wrote to them.
pub struct Lent<'a> {
    pub frame: &'a mut [u8],
    pub command: &'a mut [u8],
    pub lengths: &'a mut [usize; 2],
}

/// Calls a function with the areas of the settings and of what is held, and then those of its own.
macro_rules! call {
    ($function:ident, $settings:expr, $held:expr $(, $more:expr)*) => {{
        let (Settings { group, law, start }, held) = ($settings, $held);
        unsafe {
            $function(
                group,
                &[law.n, law.m, law.p],
                &law.a,
                &law.l,
                &law.c,
                &law.k,
                &law.low,
                &law.high,
                start,
                &mut held.counters,
                &mut held.marks,
                &mut held.heard,
                &mut held.state,
                &mut held.present,
                &mut held.values,
                &mut held.best_state,
                &mut held.best_present,
                &mut held.best_values,
                $($more),*
            )
        }
    }};
}

/// The same with the lent areas after its own.
macro_rules! step {
    ($function:ident, $settings:expr, $held:expr, $lent:expr $(, $more:expr)*) => {{
        let Lent { frame, command, lengths } = $lent;
        let (frame_length, command_length) = (frame.len(), command.len());
        let (frame, command) = (frame.as_mut_ptr(), command.as_mut_ptr());
        call!(
            $function, $settings, $held $(, $more)*,
            frame, frame_length, command, command_length, lengths
        )
    }};
}

/// A fresh replica; refused, one that holds nothing.
pub fn make(settings: &Settings, held: &mut Held) -> u32 {
    call!(steps_make, settings, held)
}

/// A tick with four readings, each by its kind and 32 bits: 1 is a count in two's complement, 2 a single, any other kind is missing.
pub fn tick(
    settings: &Settings,
    held: &mut Held,
    kinds: &[u8; 4],
    bits: &[u32; 4],
    lent: Lent,
) -> u32 {
    step!(steps_tick, settings, held, lent, kinds, bits)
}

pub fn give_up(settings: &Settings, held: &mut Held, lent: Lent) -> u32 {
    step!(steps_give_up, settings, held, lent)
}

pub fn arrive(settings: &Settings, held: &mut Held, bytes: &[u8], lent: Lent) -> u32 {
    step!(
        steps_arrive,
        settings,
        held,
        lent,
        bytes.as_ptr(),
        bytes.len()
    )
}

/// The words of a page: seven for each of 60 lines.
pub const PAGE_WORDS: usize = 420;

/// Reads a shift page of p commands: the number of its lines, and seven words of each, 0 behind them.
pub fn read_page(p: usize, bytes: &[u8], count: &mut usize, words: &mut [u32; PAGE_WORDS]) -> u32 {
    let (mut lines, mut line) = (0, [0; 7]);
    let answer = read_line(p, bytes, 0, &mut lines, &mut line);
    if answer != 0 {
        return answer;
    }
    for (number, place) in words.chunks_exact_mut(7).enumerate() {
        line = [0; 7];
        if number < lines {
            read_line(p, bytes, number, &mut lines, &mut line);
        }
        place.copy_from_slice(&line);
    }
    *count = lines;
    0
}

/// The number of lines of a page, and the words of one of them. Gives 0 or a refusal's number.
pub fn read_line(
    p: usize,
    bytes: &[u8],
    line: usize,
    count: &mut usize,
    words: &mut [u32; 7],
) -> u32 {
    unsafe { steps_read_page(p, bytes.as_ptr(), bytes.len(), line, count, words) }
}
