//! Messages, for the other side of the wire.
use crate::values::{number, present};
use crate::{filled, raw, ByDirection, ControlState, Direction, Refusal};

const ENDPOINT: u64 = 1;
const FEATURE: u64 = 5;

/// What a field of SetLimit or SetCurrentLimits is.
#[derive(Clone, Copy, Debug, Default, PartialEq, Eq, Hash)]
pub enum Field {
    /// The zone's value stays.
    #[default]
    Absent,
    /// The zone's value is removed.
    Null,
    /// The zone's value becomes this, in mW or mA.
    Number(i64),
}

impl Field {
    const fn kind(self) -> u64 {
        match self {
            Field::Absent => 0,
            Field::Null => 1,
            Field::Number(_) => 2,
        }
    }

    const fn value(self) -> i64 {
        match self {
            Field::Number(value) => value,
            _ => 0,
        }
    }

    const fn of(kind: u64, value: i64) -> Field {
        match kind {
            0 => Field::Absent,
            1 => Field::Null,
            _ => Field::Number(value),
        }
    }

    const fn number(self) -> Option<i64> {
        match self {
            Field::Number(value) => Some(value),
            _ => None,
        }
    }
}

/// A command. Durations are in seconds, and 0 is until replaced; causes are passed over by the device.
#[derive(Clone, Copy, Debug, PartialEq, Eq)]
pub enum Command {
    /// Limits of power, in mW.
    SetLimit {
        /// What each direction's limit becomes.
        limit: ByDirection<Field>,
        /// How long it holds.
        duration: u32,
        /// Why it is sent.
        cause: u8,
    },
    /// Removes the zone's limit of a direction, or both.
    ClearLimit(Option<Direction>),
    /// Setpoints of power, in mW.
    SetSetpoint {
        /// What each direction's setpoint becomes; none leaves it.
        setpoint: ByDirection<Option<i64>>,
        /// How long it holds; without a duration 3,600 s.
        duration: Option<u32>,
        /// Why it is sent.
        cause: u8,
    },
    /// Removes the zone's setpoint of a direction, or both.
    ClearSetpoint(Option<Direction>),
    /// Limits of the current of one direction, in mA by phase (A, B, C).
    SetCurrentLimits {
        /// The direction.
        direction: Direction,
        /// What each phase's limit becomes.
        current: [Field; 3],
        /// How long it holds.
        duration: u32,
        /// Why it is sent.
        cause: u8,
    },
    /// Removes the zone's current limits of a direction, or both.
    ClearCurrentLimits(Option<Direction>),
}

/// Which command a response is for.
#[derive(Clone, Copy, Debug, PartialEq, Eq, Hash)]
pub enum CommandKind {
    /// SetLimit.
    SetLimit = 1,
    /// ClearLimit.
    ClearLimit = 2,
    /// SetSetpoint.
    SetSetpoint = 3,
    /// ClearSetpoint.
    ClearSetpoint = 4,
    /// SetCurrentLimits.
    SetCurrentLimits = 5,
    /// ClearCurrentLimits.
    ClearCurrentLimits = 6,
}

impl Command {
    /// Which command it is.
    pub const fn kind(&self) -> CommandKind {
        match self {
            Command::SetLimit { .. } => CommandKind::SetLimit,
            Command::ClearLimit(_) => CommandKind::ClearLimit,
            Command::SetSetpoint { .. } => CommandKind::SetSetpoint,
            Command::ClearSetpoint(_) => CommandKind::ClearSetpoint,
            Command::SetCurrentLimits { .. } => CommandKind::SetCurrentLimits,
            Command::ClearCurrentLimits(_) => CommandKind::ClearCurrentLimits,
        }
    }
}

/// A request as words and values, in the order in which the header's struct has its members.
#[derive(Default)]
struct Flat {
    words: [u64; 14],
    values: [i64; 5],
}

const DURATION: usize = 6;
const CAUSE: usize = 7;
const DIRECTED: usize = 8;
const DIRECTION: usize = 9;
const OMITTED: usize = 13;

/// Where a field's kind stands among the words, and its value among the values.
const FIELDS: [(usize, usize); 5] = [(4, 0), (5, 1), (10, 2), (11, 3), (12, 4)];
const CONSUMPTION: usize = 0;
const PRODUCTION: usize = 1;
const PHASES: usize = 2;

impl Flat {
    fn put(&mut self, field: usize, what: Field) {
        let (kind, value) = FIELDS[field];
        self.words[kind] = what.kind();
        self.values[value] = what.value();
    }

    fn get(&self, field: usize) -> Field {
        let (kind, value) = FIELDS[field];
        Field::of(self.words[kind], self.values[value])
    }

    fn put_times(&mut self, duration: u32, cause: u8) {
        self.words[DURATION] = duration.into();
        self.words[CAUSE] = cause.into();
    }

    fn put_aim(&mut self, aim: Option<Direction>) {
        self.words[DIRECTED] = aim.is_some().into();
        self.words[DIRECTION] = aim.map_or(0, |direction| direction as u64);
    }

    fn direction(&self) -> Direction {
        if self.words[DIRECTION] == 0 {
            Direction::Consumption
        } else {
            Direction::Production
        }
    }

    fn aim(&self) -> Option<Direction> {
        (self.words[DIRECTED] != 0).then_some(self.direction())
    }

    fn put_command(&mut self, command: &Command) {
        match *command {
            Command::SetLimit { limit, duration, cause } => {
                self.put(CONSUMPTION, limit.consumption);
                self.put(PRODUCTION, limit.production);
                self.put_times(duration, cause);
            }
            Command::SetSetpoint { setpoint, duration, cause } => {
                self.put(CONSUMPTION, setpoint.consumption.map_or(Field::Absent, Field::Number));
                self.put(PRODUCTION, setpoint.production.map_or(Field::Absent, Field::Number));
                self.put_times(duration.unwrap_or(0), cause);
                self.words[OMITTED] = duration.is_none().into();
            }
            Command::SetCurrentLimits { direction, current, duration, cause } => {
                self.words[DIRECTION] = direction as u64;
                for (phase, field) in current.into_iter().enumerate() {
                    self.put(PHASES + phase, field);
                }
                self.put_times(duration, cause);
            }
            Command::ClearLimit(aim) | Command::ClearSetpoint(aim) | Command::ClearCurrentLimits(aim) => self.put_aim(aim),
        }
    }

    /// The command of words that were read, which name none above 6.
    fn command(&self) -> Command {
        let (duration, cause) = (self.words[DURATION] as u32, self.words[CAUSE] as u8);
        let (consumption, production) = (self.get(CONSUMPTION), self.get(PRODUCTION));
        match self.words[3] {
            1 => Command::SetLimit { limit: ByDirection { consumption, production }, duration, cause },
            2 => Command::ClearLimit(self.aim()),
            3 => Command::SetSetpoint {
                setpoint: ByDirection { consumption: consumption.number(), production: production.number() },
                duration: (self.words[OMITTED] == 0).then_some(duration),
                cause,
            },
            4 => Command::ClearSetpoint(self.aim()),
            5 => Command::SetCurrentLimits {
                direction: self.direction(),
                current: [self.get(PHASES), self.get(PHASES + 1), self.get(PHASES + 2)],
                duration,
                cause,
            },
            _ => Command::ClearCurrentLimits(self.aim()),
        }
    }
}

/// A request to endpoint 1, feature 5.
#[derive(Clone, Copy, Debug, PartialEq, Eq)]
pub struct Request {
    /// The message's number, which the response has again.
    pub id: u32,
    /// What is asked for.
    pub command: Command,
}

impl Request {
    /// Reads a frame without applying it. Refuses: 1, 2, 3 (envelope), 4, 3 (parameters).
    pub fn read(frame: &[u8]) -> Result<Request, Refusal> {
        let mut flat = Flat::default();
        let (words, values) = (flat.words.as_mut_ptr(), flat.values.as_mut_ptr());
        Refusal::of(unsafe { raw::cekarum_interface_2_read_request(frame.as_ptr(), frame.len() as u64, words, values) })?;
        Ok(Request { id: flat.words[0] as u32, command: flat.command() })
    }

    /// Writes the frame to the front of `out`; `REQUEST_MAX` bytes are always enough. Refuses: 15. Negative values and a Set
    /// command that names nothing are written: a device refuses them with 13.
    pub fn write<'a>(&self, out: &'a mut [u8]) -> Result<&'a [u8], Refusal> {
        let mut flat = Flat::default();
        flat.words[..4].copy_from_slice(&[self.id.into(), ENDPOINT, FEATURE, self.command.kind() as u64]);
        flat.put_command(&self.command);
        let (words, values, mut written) = (flat.words.as_ptr(), flat.values.as_ptr(), 0);
        let (room, length) = (out.as_mut_ptr(), out.len() as u64);
        let number = unsafe { raw::cekarum_interface_2_write_request(words, values, room, length, &mut written) };
        filled(number, out, written)
    }
}

/// Why a SetLimit was not applied as it was asked for.
#[derive(Clone, Copy, Debug, PartialEq, Eq, Hash)]
pub enum RejectReason {
    /// Below the minimum.
    BelowMinimum = 0,
    /// Above the contractual maximum: applied as that.
    AboveContractual = 1,
    /// A negative value, or nothing named.
    InvalidValue = 2,
    /// An override is set.
    DeviceOverride = 3,
    /// Limits are not accepted, or not in that direction.
    NotSupported = 4,
}

impl RejectReason {
    /// The reason of a number that was read, which is none above 4; -1 is absent.
    const fn of(number: i64) -> Option<RejectReason> {
        match number {
            0 => Some(RejectReason::BelowMinimum),
            1 => Some(RejectReason::AboveContractual),
            2 => Some(RejectReason::InvalidValue),
            3 => Some(RejectReason::DeviceOverride),
            4 => Some(RejectReason::NotSupported),
            _ => None,
        }
    }
}

/// The result in a response. What its command does not have is passed over when written and empty when read.
#[derive(Clone, Copy, Debug, Default, PartialEq, Eq)]
pub struct Outcome {
    /// Whether the command was applied; true but for SetLimit.
    pub applied: bool,
    /// SetLimit: the control state.
    pub state: ControlState,
    /// SetLimit and SetSetpoint: the effective limits or setpoints, in mW.
    pub effective: ByDirection<Option<u64>>,
    /// SetLimit: the reason.
    pub reason: Option<RejectReason>,
    /// SetCurrentLimits: the effective currents of its direction, in mA by phase.
    pub currents: [Option<u64>; 3],
}

/// A response. The result stands at status 0, and for SetLimit also at 11 to 14.
#[derive(Clone, Copy, Debug, PartialEq, Eq)]
pub struct Response {
    /// The request's number.
    pub id: u32,
    /// 0, 4, 5, 9 to 14.
    pub status: Result<(), Refusal>,
    /// What the command led to.
    pub result: Option<Outcome>,
}

impl Response {
    /// Reads the response to a command. Refuses: 1, 2, 3.
    pub fn read(command: CommandKind, frame: &[u8]) -> Result<Response, Refusal> {
        let (mut words, mut values) = ([0; 5], [-1; 6]);
        let (input, length) = (frame.as_ptr(), frame.len() as u64);
        let (to_words, to_values) = (words.as_mut_ptr(), values.as_mut_ptr());
        Refusal::of(unsafe { raw::cekarum_interface_2_read_response(command as u64, input, length, to_words, to_values) })?;
        let outcome = Outcome {
            applied: words[3] != 0,
            state: ControlState::of(words[4] as i64),
            effective: ByDirection { consumption: present(values[0]), production: present(values[1]) },
            reason: RejectReason::of(values[2]),
            currents: [present(values[3]), present(values[4]), present(values[5])],
        };
        Ok(Response { id: words[0] as u32, status: Refusal::of(words[1]), result: (words[2] != 0).then_some(outcome) })
    }

    /// Writes the response to a command to the front of `out`; `RESPONSE_MAX` bytes are always enough. Refuses: 3 for a value out
    /// of range, a status that is none, a result that is missing or does not stand there; 15.
    pub fn write<'a>(&self, command: CommandKind, out: &'a mut [u8]) -> Result<&'a [u8], Refusal> {
        let has = self.result.unwrap_or_default();
        let status = self.status.err().map_or(0, Refusal::number);
        let words = [self.id.into(), status, self.result.is_some().into(), has.applied.into(), has.state as u64];
        let values = [
            number(has.effective.consumption),
            number(has.effective.production),
            has.reason.map_or(-1, |reason| reason as i64),
            number(has.currents[0]),
            number(has.currents[1]),
            number(has.currents[2]),
        ];
        let (room, length, mut written) = (out.as_mut_ptr(), out.len() as u64, 0);
        let (words, values) = (words.as_ptr(), values.as_ptr());
        let number = unsafe { raw::cekarum_interface_2_write_response(command as u64, words, values, room, length, &mut written) };
        filled(number, out, written)
    }
}
