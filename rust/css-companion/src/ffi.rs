//! The calls and structs of `css_companion.h`.
use std::ffi::c_void;

#[repr(C)]
pub(crate) struct Handle {
    pub(crate) live: bool,
    pub(crate) age: u64,
    pub(crate) at: *mut c_void,
}

#[repr(C)]
#[derive(Clone, Copy, Default)]
pub(crate) struct Span {
    pub(crate) lo: i64,
    pub(crate) hi: i64,
}

#[repr(C)]
#[derive(Clone, Copy, Default)]
pub(crate) struct Rate {
    pub(crate) units_per_tick: u32,
    pub(crate) units_per_second: u32,
}

#[repr(C)]
#[derive(Clone, Copy, Default)]
pub(crate) struct Readings {
    pub(crate) from: u64,
    pub(crate) to: u64,
}

#[repr(C)]
pub(crate) struct Bound {
    pub(crate) content: i64,
    pub(crate) wall: u64,
    pub(crate) infinite: bool,
}

#[repr(C)]
#[derive(Clone, Copy, Debug, Default, PartialEq, Eq)]
pub(crate) struct Answer {
    t1: u64,
    t2: u64,
    t3: u64,
    t4: u64,
    precision: u64,
    error: u32,
}

extern "C" {
    pub(crate) fn css_companion_version() -> u32;
    pub(crate) fn css_companion_new(
        c: *mut Handle,
        selector: *const u8,
        selector_len: usize,
        stem: *const u8,
        stem_len: usize,
        error: u32,
        precision: u64,
    ) -> u32;
    pub(crate) fn css_companion_age(c: *const Handle) -> u64;
    pub(crate) fn css_companion_free(c: *mut Handle);
    pub(crate) fn css_companion_slept(c: *mut Handle) -> u32;
    pub(crate) fn css_companion_ask(c: *mut Handle, reading: u64, request: *mut [u8; 32]) -> u32;
    pub(crate) fn css_companion_land(c: *mut Handle, datagram: *const u8, len: usize, reading: u64) -> u32;
    pub(crate) fn css_companion_wall(c: *mut Handle, reading: u64, wall: *mut Span) -> u32;
    pub(crate) fn css_companion_agreed(c: *mut Handle, reading: u64, wall: *mut Span) -> u32;
    pub(crate) fn css_companion_cii(c: *mut Handle, text: *const u8, len: usize) -> u32;
    pub(crate) fn css_companion_cii_field(
        c: *mut Handle,
        property: u32,
        out: *mut u8,
        room: usize,
        used: *mut usize,
    ) -> u32;
    pub(crate) fn css_companion_fault(c: *mut Handle, out: *mut u8, room: usize, used: *mut usize) -> u32;
    pub(crate) fn css_companion_cii_state(c: *mut Handle, out: *mut u8, room: usize, used: *mut usize) -> u32;
    pub(crate) fn css_companion_timeline(
        c: *mut Handle,
        number: usize,
        rate: *mut Rate,
        out: *mut u8,
        room: usize,
        used: *mut usize,
    ) -> u32;
    pub(crate) fn css_companion_setup(c: *mut Handle, out: *mut u8, room: usize, used: *mut usize) -> u32;
    pub(crate) fn css_companion_control(c: *mut Handle, text: *const u8, len: usize) -> u32;
    pub(crate) fn css_companion_ts_closed(c: *mut Handle) -> u32;
    pub(crate) fn css_companion_presentation(
        earliest: *const Bound,
        latest: *const Bound,
        out: *mut u8,
        room: usize,
        used: *mut usize,
    ) -> u32;
    pub(crate) fn css_companion_position(c: *mut Handle, reading: u64, position: *mut crate::Position) -> u32;
    pub(crate) fn css_companion_lead(c: *mut Handle, reading: u64, tick: i64, lead: *mut Span) -> u32;
    pub(crate) fn css_companion_when(c: *mut Handle, tick: i64, readings: *mut Readings) -> u32;
    pub(crate) fn css_companion_until(c: *mut Handle, width: u64, reading: *mut u64) -> u32;
    pub(crate) fn css_companion_next(
        c: *mut Handle,
        width: u64,
        tick: i64,
        ask: *mut u64,
        look: *mut u64,
    ) -> u32;
    pub(crate) fn css_companion_snapshot(c: *mut Handle, snapshot: *mut crate::Snapshot) -> u32;
    pub(crate) fn css_snapshot_position(
        snapshot: *const crate::Snapshot,
        reading: u64,
        position: *mut crate::Position,
    ) -> u32;
    pub(crate) fn css_companion_report(
        c: *mut Handle,
        number: u64,
        reading: u64,
        out: *mut u8,
        room: usize,
        used: *mut usize,
    ) -> u32;
}
