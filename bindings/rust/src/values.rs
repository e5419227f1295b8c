//! What holds at a second, as an ask and a plan's rows give it.
use core::ops::{Index, IndexMut};

/// Which way power flows: into the box, or out of it.
#[derive(Clone, Copy, Debug, PartialEq, Eq, Hash)]
pub enum Direction {
    /// Into the box.
    Consumption = 0,
    /// Out of the box.
    Production = 1,
}

/// The directions that a device supports.
#[derive(Clone, Copy, Debug, Default, PartialEq, Eq, Hash)]
pub enum Directions {
    /// Consumption alone.
    #[default]
    Consumption = 0,
    /// Production alone.
    Production = 1,
    /// Both.
    Both = 2,
}

/// A thing for each direction.
#[derive(Clone, Copy, Debug, Default, PartialEq, Eq, Hash)]
pub struct ByDirection<T> {
    /// That of consumption.
    pub consumption: T,
    /// That of production.
    pub production: T,
}

impl<T> Index<Direction> for ByDirection<T> {
    type Output = T;
    fn index(&self, direction: Direction) -> &T {
        match direction {
            Direction::Consumption => &self.consumption,
            Direction::Production => &self.production,
        }
    }
}

impl<T> IndexMut<Direction> for ByDirection<T> {
    fn index_mut(&mut self, direction: Direction) -> &mut T {
        match direction {
            Direction::Consumption => &mut self.consumption,
            Direction::Production => &mut self.production,
        }
    }
}

/// The control state that a device reports.
#[derive(Clone, Copy, Debug, Default, PartialEq, Eq, Hash)]
pub enum ControlState {
    /// No zone has a say.
    #[default]
    Autonomous = 0,
    /// A zone's link is up, and no limit holds.
    Controlled = 1,
    /// A limit holds.
    Limited = 2,
    /// Zones are joined and no link is up.
    Failsafe = 3,
    /// An override is set.
    Override = 4,
}

impl ControlState {
    /// The state of the kernel's number, which gives none above 4.
    pub(crate) const fn of(number: i64) -> ControlState {
        match number {
            0 => ControlState::Autonomous,
            1 => ControlState::Controlled,
            2 => ControlState::Limited,
            3 => ControlState::Failsafe,
            _ => ControlState::Override,
        }
    }
}

/// A value of the kernel's number, where -1 is absent.
pub(crate) fn present(number: i64) -> Option<u64> {
    u64::try_from(number).ok()
}

/// The number of a value; one that the kernel cannot hold becomes one that it refuses.
pub(crate) fn number(value: Option<u64>) -> i64 {
    value.map_or(-1, |value| i64::try_from(value).unwrap_or(i64::MIN))
}

/// The control state and the ten values: limits and setpoints in mW, current limits in mA by phase (A, B, C).
#[derive(Clone, Copy, Debug, Default, PartialEq, Eq)]
pub struct Values {
    /// The control state.
    pub state: ControlState,
    /// The limits that hold.
    pub limit: ByDirection<Option<u64>>,
    /// The setpoints that hold.
    pub setpoint: ByDirection<Option<u64>>,
    /// The current limits that hold.
    pub current: [ByDirection<Option<u64>>; 3],
}

impl Values {
    pub(crate) fn of(numbers: &[i64; 11]) -> Values {
        let pair = |place: usize| ByDirection { consumption: present(numbers[place]), production: present(numbers[place + 1]) };
        Values { state: ControlState::of(numbers[0]), limit: pair(1), setpoint: pair(3), current: [pair(5), pair(7), pair(9)] }
    }
}

/// A row of a plan: a second, and what holds from then on. It has the layout of the header's `cekarum_row`.
#[repr(C)]
#[derive(Clone, Copy, Debug, Default, PartialEq, Eq)]
pub struct Row {
    second: u64,
    numbers: [i64; 11],
}

impl Row {
    /// A row to be filled.
    pub const EMPTY: Row = Row { second: 0, numbers: [-1; 11] };

    /// The second from which the values hold.
    pub const fn second(&self) -> u64 {
        self.second
    }

    /// What holds from that second on.
    pub fn values(&self) -> Values {
        Values::of(&self.numbers)
    }

    /// The control state and the ten values as the kernel's numbers; -1 is absent.
    pub const fn numbers(&self) -> &[i64; 11] {
        &self.numbers
    }
}
