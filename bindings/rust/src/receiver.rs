//! Frames that come in scraps.
use crate::{raw, Refusal, FRAME_MAX};

/// Where one connection stands in its stream of frames, and room for one.
#[derive(Clone, Debug)]
pub struct Receiver {
    words: [u64; 3],
    room: [u8; FRAME_MAX],
}

/// How far a scrap was taken.
#[derive(Clone, Copy, Debug, PartialEq, Eq)]
pub struct Received<'a> {
    /// Bytes of the scrap that were taken; call again with the others.
    pub taken: usize,
    /// The frame that is whole now.
    pub frame: Option<&'a [u8]>,
}

impl Receiver {
    /// That of a new connection.
    pub const fn new() -> Receiver {
        Receiver { words: [0; 3], room: [0; FRAME_MAX] }
    }

    /// Takes what the network brought, of every length, up to the end of one frame. Refuses: 1 for a length of 0 or above 2,048,
    /// and then for every later call: the connection is closed, and another begins with a new receiver.
    pub fn receive(&mut self, scrap: &[u8]) -> Result<Received<'_>, Refusal> {
        let mut counts = [0; 2];
        let number = unsafe {
            raw::cekarum_interface_2_receive(
                self.words.as_mut_ptr(),
                self.room.as_mut_ptr(),
                FRAME_MAX as u64,
                scrap.as_ptr(),
                scrap.len() as u64,
                counts.as_mut_ptr(),
            )
        };
        Refusal::of(number)?;
        let frame = (counts[1] > 0).then_some(&self.room[..counts[1] as usize]);
        Ok(Received { taken: counts[0] as usize, frame })
    }
}

impl Default for Receiver {
    fn default() -> Receiver {
        Receiver::new()
    }
}
