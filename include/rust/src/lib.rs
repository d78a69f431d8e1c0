//! The calls of `include/winder.h`, which says what each of them does, over the archive that `bash tools/build winder` makes.
//!
//! Every function here is safe. What the header asks of a caller in C the types give: no reference is null, each area has its length, and an
//! area that a call writes overlaps no other area of that call.

mod declarations;

use declarations::{
    winder_arrive, winder_ask_arrive, winder_ask_give_up, winder_ask_tick, winder_command,
    winder_commit, winder_convert_single, winder_give_up, winder_make, winder_read_command,
    winder_read_frame, winder_record, winder_return, winder_tick, winder_ticketed_arrive,
    winder_ticketed_give_up, winder_ticketed_tick, winder_tickets, winder_update, winder_version,
    winder_write_frame, winder_write_page,
};

/// The version of these declarations: major version times 100, and minor version.
pub const VERSION: u32 = 300;

/// The version of the archive.
#[inline]
pub fn version() -> u32 {
    unsafe { winder_version() }
}

/// Converts a reading that is a single in newtons, by its bits (`f32::to_bits`). Gives the present mark, 1 or 0; the value is 0 where the
/// reading is missing.
#[inline]
pub fn convert_single(bits: u32, value: &mut i32) -> u8 {
    unsafe { winder_convert_single(bits, value) }
}

/// Sizes, tables in units of 1/65536, and limits. A(i,j) is `a[i * 6 + j]`, L(i,j) is `l[i * 4 + j]`, C(j,i) is `c[j * 6 + i]` and K(j,i)
/// is `k[j * 6 + i]`.
#[derive(Clone, Debug, PartialEq, Eq)]
pub struct Settings {
    pub n: usize,
    pub m: usize,
    pub p: usize,
    pub a: [i32; 36],
    pub l: [i32; 24],
    pub c: [i32; 24],
    pub k: [i32; 24],
    pub low: [i32; 4],
    pub high: [i32; 4],
}

/// The state after one period with these readings. `limited` becomes 1 where clamping changed e(j) of a present reading or x'(i), else 0. Gives 0
/// or a refusal's number.
#[inline]
pub fn update(
    settings: &Settings,
    present: &[u8; 4],
    values: &[i32; 4],
    state: &mut [i32; 6],
    limited: &mut u8,
) -> u32 {
    let Settings {
        n,
        m,
        p,
        a,
        l,
        c,
        k,
        low,
        high,
    } = settings;
    unsafe {
        winder_update(
            *n, *m, *p, a, l, c, k, low, high, present, values, state, limited,
        )
    }
}

/// The commands of a state. `limited` becomes 1 where its limits changed a command, else 0. Gives 0 or a refusal's number.
#[inline]
pub fn command(
    settings: &Settings,
    state: &[i32; 6],
    commands: &mut [i32; 4],
    limited: &mut u8,
) -> u32 {
    let Settings {
        n,
        m,
        p,
        a,
        l,
        c,
        k,
        low,
        high,
    } = settings;
    unsafe { winder_command(*n, *m, *p, a, l, c, k, low, high, state, commands, limited) }
}

/// What a frame says.
#[derive(Clone, Copy, Debug, PartialEq, Eq)]
pub struct Frame {
    pub kind_and_sender: [u8; 2],
    /// Period, view, base view and base period.
    pub counters: [u32; 4],
    pub state: [i32; 6],
    pub present: [u8; 4],
    pub values: [i32; 4],
}

/// Reads a frame of n states and m readings. Gives 0 or a refusal's number.
#[inline]
pub fn read_frame(n: usize, m: usize, bytes: &[u8], frame: &mut Frame) -> u32 {
    let Frame {
        kind_and_sender,
        counters,
        state,
        present,
        values,
    } = frame;
    unsafe {
        winder_read_frame(
            n,
            m,
            bytes.as_ptr(),
            bytes.len(),
            kind_and_sender,
            counters,
            state,
            present,
            values,
        )
    }
}

/// Writes a frame of n states and m readings to the start of an area. Gives 0 or a refusal's number.
#[inline]
pub fn write_frame(n: usize, m: usize, frame: &Frame, area: &mut [u8], length: &mut usize) -> u32 {
    let Frame {
        kind_and_sender,
        counters,
        state,
        present,
        values,
    } = frame;
    unsafe {
        winder_write_frame(
            n,
            m,
            kind_and_sender,
            counters,
            state,
            present,
            values,
            area.as_mut_ptr(),
            area.len(),
            length,
        )
    }
}

/// Reads a command of p values. `limited` becomes its byte 2: 1 where clamping or limits changed a value in the update or the command that it
/// comes from, else 0. Gives 0 or a refusal's number.
#[inline]
pub fn read_command(
    p: usize,
    bytes: &[u8],
    period: &mut u32,
    commands: &mut [i32; 4],
    limited: &mut u8,
) -> u32 {
    unsafe { winder_read_command(p, bytes.as_ptr(), bytes.len(), period, commands, limited) }
}

/// The words that an entry of a shift page takes.
pub const ENTRY_WORDS: usize = 7;

/// The longest shift page, which a page area must have room for whatever the page has.
pub const PAGE_AREA: usize = 4380;

/// An entry of a shift page: a period, the view in it, and a command unless `decided` is 0. Of the values as many count as the page has
/// commands.
#[repr(C)]
#[derive(Clone, Copy, Debug, Default, PartialEq, Eq)]
pub struct Entry {
    pub period: u32,
    pub view: u32,
    pub decided: u32,
    pub command: [i32; 4],
}

/// Writes a shift page of p commands to the start of an area. Gives 0 or a refusal's number.
#[inline]
pub fn write_page(p: usize, entries: &[Entry], area: &mut [u8], length: &mut usize) -> u32 {
    const { assert!(size_of::<Entry>() == ENTRY_WORDS * size_of::<u32>()) };
    // An entry is seven words of 32 bits with nothing between them.
    let words = unsafe {
        core::slice::from_raw_parts(entries.as_ptr().cast(), entries.len() * ENTRY_WORDS)
    };
    write_page_words(p, words, area, length)
}

/// The same, with the words of the entries as they are handed to the call. Words that are left over are no entry.
#[inline]
pub fn write_page_words(p: usize, words: &[u32], area: &mut [u8], length: &mut usize) -> u32 {
    unsafe {
        winder_write_page(
            p,
            words.as_ptr(),
            words.len(),
            area.as_mut_ptr(),
            area.len(),
            length,
        )
    }
}

/// The length of a record.
pub const RECORD: usize = 616;

/// The most periods that a box may have missed.
pub const MISSED_MAX: u32 = 10000;

/// What a step gives where the event was ignored.
pub const IGNORED: u32 = 256;

/// A fresh replica of box `own` in a group of `boxes`, of which `to_decide` are needed to decide and `to_propose` are heard before a new
/// coordinator proposes: its record, at the start of an area. Gives 0 or a refusal's number.
#[inline]
pub fn make(
    settings: &Settings,
    start: &[i32; 6],
    boxes: u8,
    own: u8,
    to_decide: u8,
    to_propose: u8,
    replica: &mut [u8],
) -> u32 {
    let Settings {
        n,
        m,
        p,
        a,
        l,
        c,
        k,
        low,
        high,
    } = settings;
    let (area, length) = (replica.as_mut_ptr(), replica.len());
    unsafe {
        winder_make(
            *n, *m, *p, a, l, c, k, low, high, start, boxes, own, to_decide, to_propose, area,
            length,
        )
    }
}

/// The areas that a step is lent, and the lengths that it writes to the frame area and the command area.
#[derive(Debug)]
pub struct Lent<'a> {
    pub frame: &'a mut [u8],
    pub command: &'a mut [u8],
    pub lengths: &'a mut [usize; 2],
}

/// A tick of the replica whose record this is, with readings by their kinds (0 missing, 1 a count, 2 a single) and bits. Gives 0, `IGNORED`
/// or a refusal's number, as the other steps do.
#[inline]
pub fn tick(replica: &mut [u8], kinds: &[u8; 4], bits: &[u32; 4], lent: Lent) -> u32 {
    unsafe {
        winder_tick(
            replica.as_mut_ptr(),
            replica.len(),
            kinds,
            bits,
            lent.frame.as_mut_ptr(),
            lent.frame.len(),
            lent.command.as_mut_ptr(),
            lent.command.len(),
            lent.lengths,
        )
    }
}

/// The view is given up.
#[inline]
pub fn give_up(replica: &mut [u8], lent: Lent) -> u32 {
    unsafe {
        winder_give_up(
            replica.as_mut_ptr(),
            replica.len(),
            lent.frame.as_mut_ptr(),
            lent.frame.len(),
            lent.command.as_mut_ptr(),
            lent.command.len(),
            lent.lengths,
        )
    }
}

/// Bytes that arrived as a frame.
#[inline]
pub fn arrive(replica: &mut [u8], bytes: &[u8], lent: Lent) -> u32 {
    unsafe {
        winder_arrive(
            replica.as_mut_ptr(),
            replica.len(),
            bytes.as_ptr(),
            bytes.len(),
            lent.frame.as_mut_ptr(),
            lent.frame.len(),
            lent.command.as_mut_ptr(),
            lent.command.len(),
            lent.lengths,
        )
    }
}

/// The record of a replica, at the start of another area. Gives 0 or a refusal's number.
#[inline]
pub fn record(replica: &[u8], area: &mut [u8]) -> u32 {
    unsafe {
        winder_record(
            replica.as_ptr(),
            replica.len(),
            area.as_mut_ptr(),
            area.len(),
        )
    }
}

/// The replica that returns from a stored record after so many missed periods, at the start of an area. Gives 0 or a refusal's number.
#[inline]
pub fn return_from(stored: &[u8], missed: u32, replica: &mut [u8]) -> u32 {
    unsafe {
        winder_return(
            stored.as_ptr(),
            stored.len(),
            missed,
            replica.as_mut_ptr(),
            replica.len(),
        )
    }
}

/// The length of a replica with tickets.
pub const TICKETED: usize = 752;

/// A replica with tickets, none given yet, of the record of one that was made or has returned: at the start of an area. Gives 0 or a
/// refusal's number.
#[inline]
pub fn tickets(replica: &[u8], area: &mut [u8]) -> u32 {
    unsafe {
        winder_tickets(
            replica.as_ptr(),
            replica.len(),
            area.as_mut_ptr(),
            area.len(),
        )
    }
}

/// The areas that an ask is lent, the lengths that it writes to the frame area and the command area, and its ticket.
#[derive(Debug)]
pub struct LentToAsk<'a> {
    /// For the record of the replica after the step.
    pub area: &'a mut [u8],
    pub frame: &'a mut [u8],
    pub command: &'a mut [u8],
    pub lengths: &'a mut [usize; 2],
    pub ticket: &'a mut [u64; 1],
}

/// What a tick of a replica with tickets would give. Gives 0, `IGNORED` or a refusal's number, as the other asks do.
#[inline]
pub fn ask_tick(replica: &mut [u8], kinds: &[u8; 4], bits: &[u32; 4], lent: LentToAsk) -> u32 {
    unsafe {
        winder_ask_tick(
            replica.as_mut_ptr(),
            replica.len(),
            kinds,
            bits,
            lent.area.as_mut_ptr(),
            lent.area.len(),
            lent.frame.as_mut_ptr(),
            lent.frame.len(),
            lent.command.as_mut_ptr(),
            lent.command.len(),
            lent.lengths,
            lent.ticket,
        )
    }
}

/// What the view given up would give.
#[inline]
pub fn ask_give_up(replica: &mut [u8], lent: LentToAsk) -> u32 {
    unsafe {
        winder_ask_give_up(
            replica.as_mut_ptr(),
            replica.len(),
            lent.area.as_mut_ptr(),
            lent.area.len(),
            lent.frame.as_mut_ptr(),
            lent.frame.len(),
            lent.command.as_mut_ptr(),
            lent.command.len(),
            lent.lengths,
            lent.ticket,
        )
    }
}

/// What bytes that arrived as a frame would give.
#[inline]
pub fn ask_arrive(replica: &mut [u8], bytes: &[u8], lent: LentToAsk) -> u32 {
    unsafe {
        winder_ask_arrive(
            replica.as_mut_ptr(),
            replica.len(),
            bytes.as_ptr(),
            bytes.len(),
            lent.area.as_mut_ptr(),
            lent.area.len(),
            lent.frame.as_mut_ptr(),
            lent.frame.len(),
            lent.command.as_mut_ptr(),
            lent.command.len(),
            lent.lengths,
            lent.ticket,
        )
    }
}

/// The step of the ask that gave this ticket is made. Gives 0 or a refusal's number.
#[inline]
pub fn commit(replica: &mut [u8], ticket: u64) -> u32 {
    unsafe { winder_commit(replica.as_mut_ptr(), replica.len(), ticket) }
}

/// A tick of a replica with tickets, without an ask. Gives 0, `IGNORED` or a refusal's number, as the two steps after it do.
#[inline]
pub fn ticketed_tick(replica: &mut [u8], kinds: &[u8; 4], bits: &[u32; 4], lent: Lent) -> u32 {
    unsafe {
        winder_ticketed_tick(
            replica.as_mut_ptr(),
            replica.len(),
            kinds,
            bits,
            lent.frame.as_mut_ptr(),
            lent.frame.len(),
            lent.command.as_mut_ptr(),
            lent.command.len(),
            lent.lengths,
        )
    }
}

/// The view of a replica with tickets is given up.
#[inline]
pub fn ticketed_give_up(replica: &mut [u8], lent: Lent) -> u32 {
    unsafe {
        winder_ticketed_give_up(
            replica.as_mut_ptr(),
            replica.len(),
            lent.frame.as_mut_ptr(),
            lent.frame.len(),
            lent.command.as_mut_ptr(),
            lent.command.len(),
            lent.lengths,
        )
    }
}

/// Bytes that arrived as a frame at a replica with tickets.
#[inline]
pub fn ticketed_arrive(replica: &mut [u8], bytes: &[u8], lent: Lent) -> u32 {
    unsafe {
        winder_ticketed_arrive(
            replica.as_mut_ptr(),
            replica.len(),
            bytes.as_ptr(),
            bytes.len(),
            lent.frame.as_mut_ptr(),
            lent.frame.len(),
            lent.command.as_mut_ptr(),
            lent.command.len(),
            lent.lengths,
        )
    }
}
