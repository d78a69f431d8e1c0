//! The functions of `include/winder.h`, in its order. A slice goes as its address and its length.

extern "C" {
    pub fn winder_version() -> u32;

    pub fn winder_convert_single(bits: u32, value: &mut i32) -> u8;

    pub fn winder_update(
        n: usize,
        m: usize,
        p: usize,
        a: &[i32; 36],
        l: &[i32; 24],
        c: &[i32; 24],
        k: &[i32; 24],
        low: &[i32; 4],
        high: &[i32; 4],
        present: &[u8; 4],
        values: &[i32; 4],
        state: &mut [i32; 6],
        limited: &mut u8,
    ) -> u32;

    pub fn winder_command(
        n: usize,
        m: usize,
        p: usize,
        a: &[i32; 36],
        l: &[i32; 24],
        c: &[i32; 24],
        k: &[i32; 24],
        low: &[i32; 4],
        high: &[i32; 4],
        state: &[i32; 6],
        commands: &mut [i32; 4],
        limited: &mut u8,
    ) -> u32;

    pub fn winder_read_frame(
        n: usize,
        m: usize,
        bytes: *const u8,
        bytes_length: usize,
        kind_and_sender: &mut [u8; 2],
        counters: &mut [u32; 4],
        state: &mut [i32; 6],
        present: &mut [u8; 4],
        values: &mut [i32; 4],
    ) -> u32;

    pub fn winder_write_frame(
        n: usize,
        m: usize,
        kind_and_sender: &[u8; 2],
        counters: &[u32; 4],
        state: &[i32; 6],
        present: &[u8; 4],
        values: &[i32; 4],
        area: *mut u8,
        area_length: usize,
        length: &mut usize,
    ) -> u32;

    pub fn winder_read_command(
        p: usize,
        bytes: *const u8,
        bytes_length: usize,
        period: &mut u32,
        commands: &mut [i32; 4],
        limited: &mut u8,
    ) -> u32;

    pub fn winder_write_page(
        p: usize,
        entries: *const u32,
        entries_length: usize,
        area: *mut u8,
        area_length: usize,
        length: &mut usize,
    ) -> u32;

    pub fn winder_make(
        n: usize,
        m: usize,
        p: usize,
        a: &[i32; 36],
        l: &[i32; 24],
        c: &[i32; 24],
        k: &[i32; 24],
        low: &[i32; 4],
        high: &[i32; 4],
        start: &[i32; 6],
        boxes: u8,
        own: u8,
        to_decide: u8,
        to_propose: u8,
        replica: *mut u8,
        replica_length: usize,
    ) -> u32;

    pub fn winder_tick(
        replica: *mut u8,
        replica_length: usize,
        kinds: &[u8; 4],
        bits: &[u32; 4],
        frame: *mut u8,
        frame_length: usize,
        command: *mut u8,
        command_length: usize,
        lengths: &mut [usize; 2],
    ) -> u32;

    pub fn winder_give_up(
        replica: *mut u8,
        replica_length: usize,
        frame: *mut u8,
        frame_length: usize,
        command: *mut u8,
        command_length: usize,
        lengths: &mut [usize; 2],
    ) -> u32;

    pub fn winder_arrive(
        replica: *mut u8,
        replica_length: usize,
        bytes: *const u8,
        bytes_length: usize,
        frame: *mut u8,
        frame_length: usize,
        command: *mut u8,
        command_length: usize,
        lengths: &mut [usize; 2],
    ) -> u32;

    pub fn winder_record(
        replica: *const u8,
        replica_length: usize,
        area: *mut u8,
        area_length: usize,
    ) -> u32;

    pub fn winder_return(
        stored: *const u8,
        stored_length: usize,
        missed: u32,
        replica: *mut u8,
        replica_length: usize,
    ) -> u32;

    pub fn winder_tickets(
        replica: *const u8,
        replica_length: usize,
        area: *mut u8,
        area_length: usize,
    ) -> u32;

    pub fn winder_ask_tick(
        replica: *mut u8,
        replica_length: usize,
        kinds: &[u8; 4],
        bits: &[u32; 4],
        area: *mut u8,
        area_length: usize,
        frame: *mut u8,
        frame_length: usize,
        command: *mut u8,
        command_length: usize,
        lengths: &mut [usize; 2],
        ticket: &mut [u64; 1],
    ) -> u32;

    pub fn winder_ask_give_up(
        replica: *mut u8,
        replica_length: usize,
        area: *mut u8,
        area_length: usize,
        frame: *mut u8,
        frame_length: usize,
        command: *mut u8,
        command_length: usize,
        lengths: &mut [usize; 2],
        ticket: &mut [u64; 1],
    ) -> u32;

    pub fn winder_ask_arrive(
        replica: *mut u8,
        replica_length: usize,
        bytes: *const u8,
        bytes_length: usize,
        area: *mut u8,
        area_length: usize,
        frame: *mut u8,
        frame_length: usize,
        command: *mut u8,
        command_length: usize,
        lengths: &mut [usize; 2],
        ticket: &mut [u64; 1],
    ) -> u32;

    pub fn winder_commit(replica: *mut u8, replica_length: usize, ticket: u64) -> u32;

    pub fn winder_ticketed_tick(
        replica: *mut u8,
        replica_length: usize,
        kinds: &[u8; 4],
        bits: &[u32; 4],
        frame: *mut u8,
        frame_length: usize,
        command: *mut u8,
        command_length: usize,
        lengths: &mut [usize; 2],
    ) -> u32;

    pub fn winder_ticketed_give_up(
        replica: *mut u8,
        replica_length: usize,
        frame: *mut u8,
        frame_length: usize,
        command: *mut u8,
        command_length: usize,
        lengths: &mut [usize; 2],
    ) -> u32;

    pub fn winder_ticketed_arrive(
        replica: *mut u8,
        replica_length: usize,
        bytes: *const u8,
        bytes_length: usize,
        frame: *mut u8,
        frame_length: usize,
        command: *mut u8,
        command_length: usize,
        lengths: &mut [usize; 2],
    ) -> u32;
}
