//! What the box measures: the Measurement feature.
use crate::{filled, raw, Refusal};

const PLACES: usize = 36;
type Words = [u64; 2 * PLACES];

/// A number as the kernel's two words: 1 and n for n, 2 and n for -1 - n.
trait Number: Copy {
    fn words(self) -> [u64; 2];
    fn of(mark: u64, n: u64) -> Self;
}

macro_rules! numbers {
    ($($unsigned:ty)*; $($signed:ty)*) => {
        $(impl Number for $unsigned {
            fn words(self) -> [u64; 2] {
                [1, self.into()]
            }
            fn of(_: u64, n: u64) -> Self {
                n as Self
            }
        })*
        $(impl Number for $signed {
            fn words(self) -> [u64; 2] {
                let value = i64::from(self);
                if value < 0 { [2, !value as u64] } else { [1, value as u64] }
            }
            fn of(mark: u64, n: u64) -> Self {
                (if mark == 2 { !n } else { n }) as Self
            }
        })*
    };
}

numbers! { u64 u32 u8; i64 i16 }

/// One place, or three of them, from a place on.
trait Cells: Sized {
    const COUNT: usize;
    fn put(&self, words: &mut [u64]);
    fn get(words: &[u64]) -> Self;
}

impl<T: Number> Cells for Option<T> {
    const COUNT: usize = 1;
    fn put(&self, words: &mut [u64]) {
        words[..2].copy_from_slice(&self.map_or([0, 0], T::words));
    }
    fn get(words: &[u64]) -> Self {
        (words[0] != 0).then(|| T::of(words[0], words[1]))
    }
}

impl<T: Number> Cells for [Option<T>; 3] {
    const COUNT: usize = 3;
    fn put(&self, words: &mut [u64]) {
        for (cell, two) in self.iter().zip(words.chunks_mut(2)) {
            cell.put(two);
        }
    }
    fn get(words: &[u64]) -> Self {
        core::array::from_fn(|i| Option::get(&words[2 * i..]))
    }
}

macro_rules! measurement {
    ($($(#[$doc:meta])* $name:ident: $type:ty,)*) => {
        /// The attributes of document 002 that are there. Power and current: positive flows in, negative flows out.
        #[derive(Clone, Copy, Debug, Default, PartialEq, Eq)]
        pub struct Measurement {
            $($(#[$doc])* pub $name: $type,)*
        }

        const _: () = assert!(0 $(+ <$type as Cells>::COUNT)* == PLACES);

        impl Measurement {
            fn words(&self) -> Words {
                let mut words = [0; 2 * PLACES];
                let mut place = 0;
                $(
                    self.$name.put(&mut words[2 * place..]);
                    place += <$type as Cells>::COUNT;
                )*
                debug_assert!(place == PLACES);
                words
            }

            fn of(words: &Words) -> Measurement {
                let mut place = 0;
                $(
                    let $name = <$type as Cells>::get(&words[2 * place..]);
                    place += <$type as Cells>::COUNT;
                )*
                debug_assert!(place == PLACES);
                Measurement { $($name,)* }
            }
        }
    };
}

measurement! {
    /// 1, mW.
    ac_active_power: Option<i64>,
    /// 2, mVAR.
    ac_reactive_power: Option<i64>,
    /// 3, mVA.
    ac_apparent_power: Option<u64>,
    /// 10, mW by phase.
    ac_active_power_per_phase: [Option<i64>; 3],
    /// 11, mVAR by phase.
    ac_reactive_power_per_phase: [Option<i64>; 3],
    /// 12, mVA by phase.
    ac_apparent_power_per_phase: [Option<i64>; 3],
    /// 20, mA by phase.
    ac_current_per_phase: [Option<i64>; 3],
    /// 21, mV by phase, phase to neutral.
    ac_voltage_per_phase: [Option<u32>; 3],
    /// 22, mV by pair: AB, BC, CA.
    ac_voltage_phase_to_phase_pair: [Option<u32>; 3],
    /// 23, mHz.
    ac_frequency: Option<u32>,
    /// 24, thousandths, -1,000 to 1,000.
    power_factor: Option<i16>,
    /// 30, mWh.
    ac_energy_consumed: Option<u64>,
    /// 31, mWh.
    ac_energy_produced: Option<u64>,
    /// 40, mW.
    dc_power: Option<i64>,
    /// 41, mA.
    dc_current: Option<i64>,
    /// 42, mV.
    dc_voltage: Option<u32>,
    /// 43, mWh.
    dc_energy_in: Option<u64>,
    /// 44, mWh.
    dc_energy_out: Option<u64>,
    /// 50, percent, 0 to 100.
    state_of_charge: Option<u8>,
    /// 51, percent, 0 to 100.
    state_of_health: Option<u8>,
    /// 52, mWh.
    state_of_energy: Option<u64>,
    /// 53, mWh.
    useable_capacity: Option<u64>,
    /// 54.
    cycle_count: Option<u32>,
    /// 60, hundredths of a degree Celsius.
    temperature: Option<i16>,
}

/// Which way power flows.
#[derive(Clone, Copy, Debug, PartialEq, Eq, Hash)]
pub enum Flow {
    /// It was not measured.
    Absent = 0,
    /// It is 0.
    None = 1,
    /// Into the box.
    In = 2,
    /// Out of the box.
    Out = 3,
}

impl Flow {
    /// The flow of the kernel's number, which gives none above 3.
    const fn of(number: u64) -> Flow {
        match number {
            0 => Flow::Absent,
            1 => Flow::None,
            2 => Flow::In,
            _ => Flow::Out,
        }
    }
}

impl Measurement {
    /// Reads a payload, which is a map alone, without the four bytes of a frame. Refuses: 1, 2, 3.
    pub fn read(payload: &[u8]) -> Result<Measurement, Refusal> {
        let mut words = [0; 2 * PLACES];
        let (input, length) = (payload.as_ptr(), payload.len() as u64);
        Refusal::of(unsafe { raw::cekarum_interface_2_read_measurement(input, length, words.as_mut_ptr()) })?;
        Ok(Measurement::of(&words))
    }

    /// Writes the payload to the front of `out`; `MEASUREMENT_MAX` bytes are always enough. Refuses: 3 for a number out of its
    /// range, 15.
    pub fn write<'a>(&self, out: &'a mut [u8]) -> Result<&'a [u8], Refusal> {
        let (words, mut written) = (self.words(), 0);
        let (room, length) = (out.as_mut_ptr(), out.len() as u64);
        let number = unsafe { raw::cekarum_interface_2_write_measurement(words.as_ptr(), room, length, &mut written) };
        filled(number, out, written)
    }

    /// The flow of `ac_active_power`.
    pub fn power_flow(&self) -> Flow {
        Flow::of(unsafe { raw::cekarum_interface_2_power_flow(self.words().as_ptr()) })
    }

    /// The flow of `dc_power`.
    pub fn dc_flow(&self) -> Flow {
        Flow::of(unsafe { raw::cekarum_interface_2_dc_flow(self.words().as_ptr()) })
    }

    /// The flow of a phase (A 0, B 1, C 2) of `ac_active_power_per_phase`; of no other phase: it is absent.
    pub fn phase_flow(&self, phase: u64) -> Flow {
        Flow::of(unsafe { raw::cekarum_interface_2_phase_flow(self.words().as_ptr(), phase) })
    }
}
