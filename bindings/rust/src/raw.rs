//! The libraries' functions and structs, as bindings/c/woldladle.h declares them.

pub const SWITCH: usize = 150;
pub const STORE: usize = 25_340;
pub const OPENS: usize = 642;
pub const PLACES: usize = 64;
pub const CHAIN: usize = 10;
pub const POSITIONS: usize = 3;

/// The answer of the last start or step.
#[repr(C)]
#[derive(Clone, Copy, Default)]
pub struct Session {
    pub refusal: u8,
    pub operation: u32,
    pub count: u32,
    pub values: [u32; 8],
    pub freshness: u32,
    pub marks: u32,
    pub waiting: usize,
}

#[repr(C)]
#[derive(Clone, Copy, Default)]
pub struct Packet {
    pub own: [u64; 3],
}

extern "C" {
    pub fn woldladle_start(
        session: &mut Session,
        switch: *mut u32,
        store: *mut u32,
        opens: *mut u32,
        record: *const u8,
        length: usize,
    );
    pub fn woldladle_step(
        session: &mut Session,
        switch: *mut u32,
        store: *mut u32,
        opens: *mut u32,
        packets: *mut Packet,
        places: usize,
        record: *const u8,
        length: usize,
    );
    pub fn woldladle_line(
        number: u64,
        refusal: u8,
        operation: u32,
        count: u32,
        values: *const u32,
        freshness: u32,
        waiting: usize,
        marks: u32,
        out: *mut u8,
        length: usize,
    ) -> usize;
    pub fn woldladle_write_record(
        tag: u8,
        first: u32,
        second: u32,
        out: *mut u8,
        length: usize,
    ) -> u8;
    pub fn woldladle_write_context(
        objects: *const u16,
        count: usize,
        out: *mut u8,
        length: usize,
    ) -> u8;
    pub fn woldladle_record_length(tag: u8) -> u16;
    pub fn woldladle_value(store: *const u32, replica: u8, object: u32) -> u32;
    pub fn woldladle_stamp(store: *const u32, replica: u8, object: u32) -> u64;
    pub fn woldladle_chain(store: *const u32, out: *mut u8) -> u8;
    pub fn woldladle_positions(store: *const u32, replica: u8, out: *mut u32) -> u8;
    pub fn woldladle_draw(seed: u32, n: u64, steps: u64, out: *mut u8, length: usize) -> i64;
    pub fn woldladle_shorten(input: *const u8, length: usize, out: *mut u8, room: usize) -> i64;
    pub fn woldladle_run(input: *const u8, length: usize, out: *mut u8, room: usize) -> usize;
}
