//! The device: its settings, its calls, what holds and what will change.
use crate::raw;
use crate::{filled, ByDirection, Direction, Directions, Refusal, Row, Values, WORDS};

/// The word for a contractual maximum that is none.
const NONE: u64 = u64::MAX;

/// What a device starts with. Powers are in mW, 0 to 2^63 - 1.
///
/// The default is what a refused start leaves: it accepts nothing, consumption only, one phase, and a failsafe of 7,200 s.
#[derive(Clone, Copy, Debug, PartialEq, Eq)]
pub struct Settings {
    /// The directions that the device supports.
    pub directions: Directions,
    /// Whether SetLimit is accepted.
    pub accepts_limits: bool,
    /// Whether SetSetpoint is accepted.
    pub accepts_setpoints: bool,
    /// The smallest consumption limit that can be set.
    pub minimum: u64,
    /// The contractual maxima: a higher limit is stored as this.
    pub maximum: ByDirection<Option<u64>>,
    /// The largest that a limit is while zones are joined and no link is up.
    pub failsafe: ByDirection<u64>,
    /// 7,200 to 86,400 s.
    pub failsafe_duration: u64,
    /// Whether the device is an energy manager.
    pub energy_manager: bool,
    /// Its phases, 1 to 3.
    pub phases: u64,
    /// Whether SetCurrentLimits is accepted.
    pub accepts_current_limits: bool,
}

impl Default for Settings {
    fn default() -> Settings {
        Settings {
            directions: Directions::Consumption,
            accepts_limits: false,
            accepts_setpoints: false,
            minimum: 0,
            maximum: ByDirection { consumption: None, production: None },
            failsafe: ByDirection { consumption: 0, production: 0 },
            failsafe_duration: 7200,
            energy_manager: false,
            phases: 1,
            accepts_current_limits: false,
        }
    }
}

impl Settings {
    fn words(&self) -> [u64; 12] {
        // A maximum that happens to be the word for none is out of range like those beside it.
        let maximum = |some: Option<u64>| some.map_or(NONE, |maximum| maximum.min(NONE - 1));
        [
            self.directions as u64,
            self.accepts_limits.into(),
            self.accepts_setpoints.into(),
            self.minimum,
            maximum(self.maximum.consumption),
            maximum(self.maximum.production),
            self.failsafe.consumption,
            self.failsafe.production,
            self.failsafe_duration,
            self.energy_manager.into(),
            self.phases,
            self.accepts_current_limits.into(),
        ]
    }
}

/// Why a device overrides its limits.
#[derive(Clone, Copy, Debug, PartialEq, Eq, Hash)]
pub enum OverrideReason {
    /// Consumption only.
    SelfProtection = 0,
    /// Consumption only.
    Safety = 1,
    /// Either direction.
    LegalRequirement = 2,
    /// An energy manager's consumption.
    UncontrolledLoad = 3,
    /// An energy manager's production.
    UncontrolledProducer = 4,
}

/// What became of a frame, and the response that goes back to its zone: one may stand beside a refusal too.
#[derive(Clone, Copy, Debug, PartialEq, Eq)]
pub struct Answer<'a> {
    /// Whether the frame was accepted.
    pub outcome: Result<(), Refusal>,
    /// The response frame, at the front of what was lent; empty where there is none.
    pub response: &'a [u8],
}

/// One energy endpoint. Calls that are accepted move its clock to their time; asks and plans are made at that second.
#[derive(Clone, Debug, PartialEq, Eq)]
pub struct Device {
    words: [u64; WORDS],
}

impl Device {
    /// Room for a device, for a `static`. Start it before all else.
    pub const fn unstarted() -> Device {
        Device { words: [0; WORDS] }
    }

    /// A fresh device with its clock at 0. Refuses: 16.
    pub fn started(settings: &Settings) -> Result<Device, Refusal> {
        let mut device = Device::unstarted();
        device.start(settings)?;
        Ok(device)
    }

    /// Makes the device fresh, whatever it held. Refuses: 16; the device is then fresh too, with `Settings::default()`.
    pub fn start(&mut self, settings: &Settings) -> Result<(), Refusal> {
        let words = settings.words();
        Refusal::of(unsafe { raw::cekarum_interface_2_start(self.words.as_mut_ptr(), words.as_ptr()) })
    }

    /// Joins a zone, link up, with no values; rank 1 is the highest, 3 the lowest. Refuses: 5, 6, 7, 8.
    pub fn join(&mut self, zone: u64, rank: u64, time: u64) -> Result<(), Refusal> {
        Refusal::of(unsafe { raw::cekarum_interface_2_join(self.words.as_mut_ptr(), zone, rank, time) })
    }

    /// Removes a zone and all its values. Refuses: 5, 9.
    pub fn leave(&mut self, zone: u64, time: u64) -> Result<(), Refusal> {
        Refusal::of(unsafe { raw::cekarum_interface_2_leave(self.words.as_mut_ptr(), zone, time) })
    }

    /// A zone's link went down. When no link is up any more, the failsafe begins. Refuses: 5, 9, 7.
    pub fn lost(&mut self, zone: u64, time: u64) -> Result<(), Refusal> {
        Refusal::of(unsafe { raw::cekarum_interface_2_lost(self.words.as_mut_ptr(), zone, time) })
    }

    /// A zone's link is up again. Refuses: 5, 9, 7.
    pub fn back(&mut self, zone: u64, time: u64) -> Result<(), Refusal> {
        Refusal::of(unsafe { raw::cekarum_interface_2_back(self.words.as_mut_ptr(), zone, time) })
    }

    /// Sets the override, or replaces it. Refuses: 5, 18.
    pub fn set_override(&mut self, reason: OverrideReason, direction: Direction, time: u64) -> Result<(), Refusal> {
        let words = self.words.as_mut_ptr();
        Refusal::of(unsafe { raw::cekarum_interface_2_override(words, reason as u64, direction as u64, time) })
    }

    /// Clears the override. Refuses: 5, 7.
    pub fn clear_override(&mut self, time: u64) -> Result<(), Refusal> {
        Refusal::of(unsafe { raw::cekarum_interface_2_clear(self.words.as_mut_ptr(), time) })
    }

    /// Moves the clock to this second and nothing else. Refuses: 5.
    pub fn move_clock(&mut self, time: u64) -> Result<(), Refusal> {
        Refusal::of(unsafe { raw::cekarum_interface_2_move(self.words.as_mut_ptr(), time) })
    }

    /// What holds at the device's own second.
    pub fn ask(&self) -> Values {
        Values::of(&self.numbers())
    }

    /// The same as the kernel's numbers: the control state, then the ten values; -1 is absent.
    pub fn numbers(&self) -> [i64; 11] {
        let mut values = [-1; 11];
        unsafe { raw::cekarum_interface_2_ask(self.words.as_ptr(), values.as_mut_ptr()) };
        values
    }

    /// Every later second at which what holds changes if only the clock moves, in order. `ROWS_MAX` rows are always enough.
    /// Refuses: 15.
    pub fn plan<'a>(&self, rows: &'a mut [Row]) -> Result<&'a [Row], Refusal> {
        let (mut count, room) = (0, 12 * rows.len() as u64);
        let number = unsafe { raw::cekarum_interface_2_plan(self.words.as_ptr(), rows.as_mut_ptr().cast(), room, &mut count) };
        filled(number, rows, count)
    }

    /// The rows of `plan`, made the slow way for a test bench. Refuses: 15.
    pub fn plain_plan<'a>(&self, rows: &'a mut [Row]) -> Result<&'a [Row], Refusal> {
        let (mut count, room) = (0, rows.len() as u64);
        let number = unsafe { raw::cekarum_interface_2_plain_plan(self.words.as_ptr(), rows.as_mut_ptr(), room, &mut count) };
        filled(number, rows, count)
    }

    /// Applies one frame (four bytes of length, then the payload) that came from a zone, and writes the response to the front of
    /// `out`; `RESPONSE_MAX` bytes are always enough. Refuses, in this order: 1, 2, 3, 4, 3, 5, 9, 10, 11, 12, 13, 14, 15.
    pub fn frame<'a>(&mut self, zone: u64, time: u64, frame: &[u8], out: &'a mut [u8]) -> Answer<'a> {
        let mut written = 0;
        let number = unsafe {
            raw::cekarum_interface_2_frame(
                self.words.as_mut_ptr(),
                zone,
                time,
                frame.as_ptr(),
                frame.len() as u64,
                out.as_mut_ptr(),
                out.len() as u64,
                &mut written,
            )
        };
        Answer { outcome: Refusal::of(number), response: &out[..written as usize] }
    }

    /// The device as words, to be kept over a restart of the box with the same archive.
    pub const fn words(&self) -> &[u64; WORDS] {
        &self.words
    }

    /// The device of words that were kept. Calls answer for all words, also for those that no device ever had.
    pub const fn from_words(words: [u64; WORDS]) -> Device {
        Device { words }
    }
}
