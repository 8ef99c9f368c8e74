//! The bench meter: its record, its making, one second of it, and what the bench sets
//! (01, "The bench meter's record"; 02, CR 3).

mod answer;
mod protection;
mod season;
mod store;

pub use answer::answer;
pub use protection::{Level, Protection};
pub use season::{Season, Switches};
pub use store::{empty_store, PLACES, PLACE_BYTES, STORE_BYTES};

use super::calendar::{Moment, LAST};
use super::refusal::Refusal;
use super::shown::kilowatt_hours;
use super::{interval_valid, key_legal};

/// From the factory eight bytes 30 hex (01, "Protection").
pub const FACTORY_PASSWORD: [u8; 8] = [0x30; 8];

/// From the factory all is shown (002, section 4.12; design, "Decided" 7).
const FACTORY_MASK: [u8; 6] = [0xFF; 6];

/// What is always shown: parameter 1 (bit 0), parameter 32 (bit 31) and direction E+ (01, "Display mask").
const ALWAYS_SHOWN: [u8; 6] = [0x01, 0, 0, 0x80, 0, 0x01];

/// Pulses K, the weight Ke of a count in milliwatt-hours, and a reserve kept as written (01, "Telemetry").
#[derive(Clone, Copy, Debug, PartialEq, Eq)]
pub struct Telemetry {
    pub k: u32,
    pub ke: u16,
    pub reserve: u16,
}

impl Telemetry {
    /// K x Ke from 40,000 to 5,000,000; no division, so nothing is cut.
    pub fn in_range(self) -> bool {
        (40_000..=5_000_000).contains(&(u64::from(self.k) * u64::from(self.ke)))
    }
}

/// The ratios of the current and voltage transformers before the meter (02, CR 3).
#[derive(Clone, Copy, Debug, PartialEq, Eq)]
pub struct Ratios {
    pub ki: u32,
    pub ku: u32,
}

impl Ratios {
    /// At first 1 each.
    pub const NONE: Ratios = Ratios { ki: 1, ku: 1 };

    fn product(self) -> u64 {
        u64::from(self.ki) * u64::from(self.ku)
    }

    /// Whole numbers from 1, product at most 1,000,000.
    pub fn in_range(self) -> bool {
        self.ki >= 1 && self.ku >= 1 && self.product() <= 1_000_000
    }
}

/// Three phase powers, which belong together as one reading (01, "Powers").
#[derive(Clone, Copy, Debug, PartialEq)]
pub struct Phases {
    pub a: f32,
    pub b: f32,
    pub c: f32,
}

impl Phases {
    /// (A + B) + C, each sum rounded once to 32 bits.
    pub fn total(self) -> f32 {
        (self.a + self.b) + self.c
    }

    /// Only finite figures from -1,000,000 to 1,000,000.
    pub fn in_range(self) -> bool {
        [self.a, self.b, self.c].iter().all(|power| (-1_000_000.0..=1_000_000.0).contains(power))
    }
}

const NO_POWER: Phases = Phases { a: 0.0, b: 0.0, c: 0.0 };

/// All that the meter remembers, but for the slices themselves.
#[derive(Clone, Debug, PartialEq)]
pub struct Record {
    pub address: u8,
    pub minutes: u8,
    pub telemetry: Telemetry,
    pub clock: Moment,
    pub season: Season,
    pub switches: Switches,
    pub mask: [u8; 6],
    pub active: Phases,
    pub reactive: Phases,
    pub protection: Protection,
    pub main_password: [u8; 8],
    pub auxiliary_password: [u8; 8],
    /// The store's next place in turn.
    pub next: usize,
    pub ratios: Ratios,
}

/// A new record; a setting out of range is 27 (01, table).
pub fn make(address: u8, minutes: u8, telemetry: Telemetry, clock: Moment, season: Season) -> Result<Record, Refusal> {
    let record = Record {
        address,
        minutes,
        telemetry,
        clock,
        season,
        switches: Switches::AUTOMATIC,
        mask: FACTORY_MASK,
        active: NO_POWER,
        reactive: NO_POWER,
        protection: Protection::SHUT,
        main_password: FACTORY_PASSWORD,
        auxiliary_password: FACTORY_PASSWORD,
        next: 0,
        ratios: Ratios::NONE,
    };
    if record.sound() {
        Ok(record)
    } else {
        Err(Refusal::OutOfRange)
    }
}

impl Record {
    /// Whether the record stands inside its ranges; outside them a frame gets 28.
    pub fn sound(&self) -> bool {
        self.address != 0
            && interval_valid(self.minutes)
            && self.telemetry.in_range()
            && self.clock.valid()
            && self.switches.sound()
            && self.active.in_range()
            && self.reactive.in_range()
            && self.protection.sound()
            && self.next < PLACES
            && self.ratios.in_range()
    }

    /// One call is one second; protection ticks on where the clock stands still (01, "Clock").
    pub fn second(&mut self) {
        self.protection.second();
        if self.clock != LAST {
            (self.clock, self.season) = self.switches.reach(self.clock.next_second(), self.season);
        }
    }

    /// The bench sets the three powers of parameter 8 (active) or 9 (reactive).
    pub fn set_power(&mut self, parameter: u8, phases: Phases) -> Result<(), Refusal> {
        if !phases.in_range() {
            return Err(Refusal::OutOfRange);
        }
        match parameter {
            8 => self.active = phases,
            9 => self.reactive = phases,
            _ => return Err(Refusal::OutOfRange),
        }
        Ok(())
    }

    /// The bench sets both ratios (02, CR 3).
    pub fn set_ratios(&mut self, ratios: Ratios) -> Result<(), Refusal> {
        if !ratios.in_range() {
            return Err(Refusal::OutOfRange);
        }
        self.ratios = ratios;
        Ok(())
    }

    /// A register's counts as the display shows them: N x Ke x KI x KU / 1,000,000 kilowatt-hours, as a float's bits.
    pub fn as_shown(&self, counts: u16) -> u32 {
        kilowatt_hours(u64::from(counts) * u64::from(self.telemetry.ke) * self.ratios.product())
    }

    /// The bench puts a slice in (01, "Slices").
    pub fn put_slice(
        &mut self,
        store: &mut [u8],
        month: u8,
        day: u8,
        number: u8,
        counts: [u16; 4],
    ) -> Result<(), Refusal> {
        if !key_legal(month, day, number, self.minutes) {
            return Err(Refusal::OutOfRange);
        }
        self.next = store::put(store, self.next, [month, day, number], counts);
        Ok(())
    }

    /// What the display shows: the mask as written, and the forced parts (01, "Display mask").
    pub fn shown(&self) -> [u8; 6] {
        std::array::from_fn(|at| self.mask[at] | ALWAYS_SHOWN[at])
    }
}

#[cfg(test)]
mod tests {
    use super::*;

    #[test]
    fn totals_are_two_rounded_sums() {
        // 16,777,216 is 2^24; the spacing of 32-bit floats there is 2, so each 1 is lost on its own.
        let phases = Phases { a: 16_777_216.0, b: 1.0, c: 1.0 };
        assert_eq!(phases.total(), 16_777_216.0);
    }

    #[test]
    fn powers_are_finite_and_bounded() {
        let of = |a| Phases { a, b: 0.0, c: 0.0 };
        assert!(of(1_000_000.0).in_range() && of(-1_000_000.0).in_range());
        assert!(!of(1_000_000.1).in_range() && !of(f32::NAN).in_range() && !of(f32::INFINITY).in_range());
    }

    #[test]
    fn ratios_from_1_and_their_product() {
        let fits = |ki, ku| Ratios { ki, ku }.in_range();
        assert!(fits(1, 1) && fits(1_000_000, 1) && fits(1, 1_000_000) && fits(1_000, 1_000) && fits(999_999, 1));
        assert!(!fits(0, 1) && !fits(1, 0) && !fits(0, 0) && !fits(1_000_001, 1) && !fits(1_001, 1_000));
        // 2^16 x 2^16 is 0 in 32 bits, and (2^32 - 1) x (2^32 - 1) is 1
        assert!(!fits(65_536, 65_536) && !fits(u32::MAX, u32::MAX) && !fits(1, u32::MAX));
    }
}
