//! A board that has only a tick counter.
use crate::{raw, Refusal};

/// Turns the readings of one counter, which counts milliseconds in 32 bits, into the seconds that a device's calls take.
#[derive(Clone, Copy, Debug, Default, PartialEq, Eq)]
pub struct Ticks {
    words: [u64; 4],
}

impl Ticks {
    /// Before the first reading.
    pub const fn new() -> Ticks {
        Ticks { words: [0; 4] }
    }

    /// Takes a reading, at least one in 2^31 ms, and gives the seconds since the first. Refuses: 5 for a step back, and past the
    /// last second.
    pub fn read(&mut self, tick: u32) -> Result<u64, Refusal> {
        let mut seconds = -1;
        let number = unsafe { raw::cekarum_interface_2_tick(self.words.as_mut_ptr(), tick.into(), &mut seconds) };
        Refusal::of(number)?;
        Ok(seconds as u64)
    }
}
