//! Cekarum for Rust: the control kernel for one energy endpoint, as safe types over the calls of `include/cekarum.h`.
//!
//! The kernel is an archive, `libcekarum.a`, whose functions are proved against their contracts; this crate is not proved. It has
//! no dependencies, takes no memory and needs no `std`. Every call ends with an answer, for every number and every byte it is
//! given, and a refusal changes nothing that was lent, with the exceptions that the calls name.
//!
//! ```
//! use cekarum::{ByDirection, Device, Directions, Settings};
//!
//! let mut device = Device::started(&Settings {
//!     directions: Directions::Both,
//!     accepts_limits: true,
//!     maximum: ByDirection { consumption: Some(43_000_000), production: None },
//!     ..Settings::default()
//! })?;
//! device.join(3, 1, 100)?;
//! assert_eq!(device.ask().limit.consumption, None);
//! # Ok::<(), cekarum::Refusal>(())
//! ```
#![no_std]
#![deny(missing_docs, unsafe_op_in_unsafe_fn)]

mod device;
mod measurement;
mod messages;
#[allow(missing_docs)]
mod raw;
mod receiver;
mod refusal;
mod report;
mod ticks;
mod values;

pub use device::{Answer, Device, OverrideReason, Settings};
pub use measurement::{Flow, Measurement};
pub use messages::{Command, CommandKind, Field, Outcome, RejectReason, Request, Response};
pub use raw::INTERFACE;
pub use receiver::{Received, Receiver};
pub use refusal::Refusal;
pub use report::{report, Inputs, Pair};
pub use ticks::Ticks;
pub use values::{ByDirection, ControlState, Direction, Directions, Row, Values};

/// Words of a device.
pub const WORDS: usize = 191;
/// Bytes of the longest frame, prefix and payload.
pub const FRAME_MAX: usize = 2052;
/// Bytes of the longest response frame.
pub const RESPONSE_MAX: usize = 49;
/// Bytes of the longest request frame that is written.
pub const REQUEST_MAX: usize = 62;
/// Rows of the longest plan.
pub const ROWS_MAX: usize = 80;
/// Pairs of the longest report.
pub const PAIRS_MAX: usize = 48;
/// Bytes of the longest payload of Measurement that is written.
pub const MEASUREMENT_MAX: usize = 326;
/// The last second the clock can show.
pub const LAST_SECOND: u64 = (1 << 40) - 1;

/// One line that says what the archive is: version, commit, target, toolchain, and whether it is proved.
pub fn made_by() -> &'static str {
    // The archive has a text there that ends with a zero, and nobody writes to it.
    let text = unsafe { core::ffi::CStr::from_ptr(core::ptr::addr_of!(raw::cekarum_made_by)) };
    text.to_str().unwrap_or("")
}

/// The front of a lent slice that a call has filled, or its refusal.
fn filled<T>(number: u64, room: &mut [T], count: u64) -> Result<&[T], Refusal> {
    Refusal::of(number)?;
    Ok(&room[..count as usize])
}
