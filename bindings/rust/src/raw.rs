//! The calls and structs of `afdx.h`, which says what each does. The wrapper in this crate keeps their rules.
#![allow(missing_docs)]

use std::os::raw::c_void;

/// `afdx_end_system` and `afdx_port`. All zeroes is an empty one.
#[repr(C)]
#[derive(Debug)]
pub struct Handle {
    pub at: *mut c_void,
    pub held: u8,
    pub mark: u64,
}

/// `afdx_counts`.
#[repr(C)]
#[derive(Clone, Copy, Debug, Default, PartialEq, Eq)]
pub struct Counts {
    /// Frames that at least one network accepted.
    pub frames: u64,
    /// The sum of their lengths in bytes.
    pub bytes: u64,
    /// The messages whose last frame is among them.
    pub messages: u64,
    /// The time of the last frame in microseconds, 0 before the first.
    pub last: u64,
}

/// `afdx_released`.
#[repr(C)]
#[derive(Clone, Copy, Debug, Default, PartialEq, Eq)]
pub struct Released {
    /// The identifier of the virtual link.
    pub vl: u16,
    /// The sub-VL, from 0.
    pub sub: u8,
    /// The sequence number.
    pub number: u8,
}

extern "C" {
    pub fn afdx_open(out: *mut Handle, text: *const u8, length: usize) -> u8;
    pub fn afdx_open_table(out: *mut Handle, table: *const u8, length: usize) -> u8;
    pub fn afdx_memory(table: *const u8, length: usize, bytes: *mut usize) -> u8;
    pub fn afdx_explain(text: *const u8, length: usize, buffer: *mut u8, size: usize, written: *mut usize) -> u8;
    pub fn afdx_port_of(it: *mut Handle, id: u16, out: *mut Handle) -> u8;
    pub fn afdx_ports(it: *const Handle, ids: *mut u16, room: usize, count: *mut usize) -> u8;
    pub fn afdx_links(it: *const Handle, ids: *mut u16, room: usize, count: *mut usize) -> u8;
    pub fn afdx_send(port: *mut Handle, message: *const u8, length: usize) -> u8;
    pub fn afdx_accepted(port: *const Handle, count: *mut u64) -> u8;
    pub fn afdx_poll(it: *mut Handle, now: u64, standing: *mut u8) -> u8;
    pub fn afdx_next_due(it: *const Handle, at: *mut u64) -> u8;
    pub fn afdx_frames(it: *const Handle, network: u8, count: *mut usize) -> u8;
    pub fn afdx_frame(it: *const Handle, network: u8, k: usize, buffer: *mut u8, size: usize, length: *mut usize) -> u8;
    pub fn afdx_release(it: *const Handle, network: u8, k: usize, out: *mut Released) -> u8;
    pub fn afdx_fail(it: *mut Handle, network: u8) -> u8;
    pub fn afdx_close(it: *mut Handle, vl: u16, sub: u8, total: *mut u64) -> u8;
    pub fn afdx_link_counts(it: *const Handle, vl: u16, counts: *mut Counts) -> u8;
    pub fn afdx_give_back(it: *mut Handle, port: *mut Handle) -> u8;
    pub fn afdx_gather(it: *mut Handle) -> u8;
    pub fn afdx_is_done(it: *const Handle, done: *mut u8) -> u8;
    pub fn afdx_free(it: *mut Handle) -> u8;
    pub fn afdx_free_port(port: *mut Handle) -> u8;
    pub fn afdx_version_number() -> u32;
}
