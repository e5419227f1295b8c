//! The functions of the archive, as include/cekarum.h declares them. The interface's number stands in their names, so that an
//! archive of another interface does not link.
use core::ffi::c_char;

/// The interface whose names stand here: the header's CEKARUM_INTERFACE.
pub const INTERFACE: u32 = 2;

extern "C" {
    pub fn cekarum_interface_2_start(device: *mut u64, settings: *const u64) -> u64;
    pub fn cekarum_interface_2_join(device: *mut u64, zone: u64, rank: u64, time: u64) -> u64;
    pub fn cekarum_interface_2_leave(device: *mut u64, zone: u64, time: u64) -> u64;
    pub fn cekarum_interface_2_lost(device: *mut u64, zone: u64, time: u64) -> u64;
    pub fn cekarum_interface_2_back(device: *mut u64, zone: u64, time: u64) -> u64;
    pub fn cekarum_interface_2_override(device: *mut u64, reason: u64, direction: u64, time: u64) -> u64;
    pub fn cekarum_interface_2_clear(device: *mut u64, time: u64) -> u64;
    pub fn cekarum_interface_2_move(device: *mut u64, time: u64) -> u64;
    pub fn cekarum_interface_2_ask(device: *const u64, values: *mut i64);
    pub fn cekarum_interface_2_plan(device: *const u64, rows: *mut i64, room: u64, count: *mut u64) -> u64;
    pub fn cekarum_interface_2_plain_plan(device: *const u64, rows: *mut crate::Row, room: u64, count: *mut u64) -> u64;
    pub fn cekarum_interface_2_frame(
        device: *mut u64,
        zone: u64,
        time: u64,
        input: *const u8,
        input_length: u64,
        out: *mut u8,
        out_length: u64,
        written: *mut u64,
    ) -> u64;
    pub fn cekarum_interface_2_receive(
        receiver: *mut u64,
        room: *mut u8,
        room_length: u64,
        scrap: *const u8,
        scrap_length: u64,
        counts: *mut u64,
    ) -> u64;
    pub fn cekarum_interface_2_tick(front: *mut u64, tick: u64, seconds: *mut i64) -> u64;
    pub fn cekarum_interface_2_read_request(input: *const u8, input_length: u64, words: *mut u64, values: *mut i64) -> u64;
    pub fn cekarum_interface_2_write_request(
        words: *const u64,
        values: *const i64,
        out: *mut u8,
        out_length: u64,
        written: *mut u64,
    ) -> u64;
    pub fn cekarum_interface_2_read_response(
        command: u64,
        input: *const u8,
        input_length: u64,
        words: *mut u64,
        values: *mut i64,
    ) -> u64;
    pub fn cekarum_interface_2_write_response(
        command: u64,
        words: *const u64,
        values: *const i64,
        out: *mut u8,
        out_length: u64,
        written: *mut u64,
    ) -> u64;
    pub fn cekarum_interface_2_report(
        inputs: *const u64,
        attributes: *const u16,
        attribute_count: u64,
        pairs: *mut u64,
        room: u64,
        count: *mut u64,
    ) -> u64;
    pub fn cekarum_interface_2_read_measurement(input: *const u8, input_length: u64, words: *mut u64) -> u64;
    pub fn cekarum_interface_2_write_measurement(words: *const u64, out: *mut u8, out_length: u64, written: *mut u64) -> u64;
    pub fn cekarum_interface_2_power_flow(words: *const u64) -> u64;
    pub fn cekarum_interface_2_dc_flow(words: *const u64) -> u64;
    pub fn cekarum_interface_2_phase_flow(words: *const u64, phase: u64) -> u64;

    /// The first character of a text that ends with a zero.
    pub static cekarum_made_by: c_char;
}
