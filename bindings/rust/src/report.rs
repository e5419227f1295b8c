//! The conformance report.
use crate::{filled, raw, Directions, Refusal};

/// What a report is made of, beside the attribute list.
#[derive(Clone, Copy, Debug, Default, PartialEq, Eq)]
pub struct Inputs {
    /// Endpoint type, 0 to 10.
    pub endpoint: u64,
    /// Feature map, 11 bits.
    pub map: u64,
    /// 1 to 3.
    pub phases: u64,
    /// As in the settings.
    pub directions: Directions,
    /// Whether limits are accepted.
    pub accepts_limits: bool,
    /// Whether current limits are accepted.
    pub accepts_current_limits: bool,
    /// Whether setpoints are accepted.
    pub accepts_setpoints: bool,
    /// Whether the process state is another than NONE.
    pub has_process: bool,
}

/// A breach.
#[repr(C)]
#[derive(Clone, Copy, Debug, Default, PartialEq, Eq)]
pub struct Pair {
    /// The group of document 01, 1 to 6.
    pub group: u64,
    /// The bit or the attribute.
    pub number: u64,
}

/// Every breach, once, ascending. `PAIRS_MAX` pairs of room are always enough. Refuses: 16, 17, 15.
pub fn report<'a>(inputs: &Inputs, attributes: &[u16], pairs: &'a mut [Pair]) -> Result<&'a [Pair], Refusal> {
    let words: [u64; 8] = [
        inputs.endpoint,
        inputs.map,
        inputs.phases,
        inputs.directions as u64,
        inputs.accepts_limits.into(),
        inputs.accepts_current_limits.into(),
        inputs.accepts_setpoints.into(),
        inputs.has_process.into(),
    ];
    let (mut count, room) = (0, 2 * pairs.len() as u64);
    let number = unsafe {
        raw::cekarum_interface_2_report(
            words.as_ptr(),
            attributes.as_ptr(),
            attributes.len() as u64,
            pairs.as_mut_ptr().cast(),
            room,
            &mut count,
        )
    };
    filled(number, pairs, count)
}
