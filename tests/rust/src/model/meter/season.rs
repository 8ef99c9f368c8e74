//! Summer and winter season and the dates that switch them (01, "Seasons"; 002, section 4.6).

use crate::model::calendar::{last_sunday, Moment};

#[derive(Clone, Copy, Debug, PartialEq, Eq)]
pub enum Season {
    Winter,
    Summer,
}

/// The dates written by hand, if any: only the choice is stored.
#[derive(Clone, Copy, Debug, PartialEq, Eq)]
pub struct Switches {
    /// parameter 27, the switch to summer season
    pub summer: Option<Moment>,
    /// parameter 28, the switch to winter season
    pub winter: Option<Moment>,
}

const FIRST_HOUR_END: Moment = Moment { year: 0, month: 1, day: 1, hour: 1, minute: 0, second: 0 };
const LAST_HOUR: Moment = Moment { year: 99, month: 12, day: 31, hour: 23, minute: 0, second: 0 };

/// A valid time, but not in the first hour of 2000 nor in the last of 2099.
pub fn writable(date: Moment) -> bool {
    date.valid() && date >= FIRST_HOUR_END && date < LAST_HOUR
}

fn last_sunday_at(year: u8, month: u8, hour: u8) -> Moment {
    Moment { year, month, day: last_sunday(year, month), hour, minute: 0, second: 0 }
}

impl Switches {
    pub const AUTOMATIC: Switches = Switches { summer: None, winter: None };

    pub fn sound(self) -> bool {
        self.summer.is_none_or(writable) && self.winter.is_none_or(writable)
    }

    /// Parameter 27 as it reads in that year: by hand, or 02:00:00 on the last Sunday of March.
    pub fn to_summer(self, year: u8) -> Moment {
        self.summer.unwrap_or_else(|| last_sunday_at(year, 3, 2))
    }

    /// Parameter 28 as it reads in that year: by hand, or 03:00:00 on the last Sunday of October.
    pub fn to_winter(self, year: u8) -> Moment {
        self.winter.unwrap_or_else(|| last_sunday_at(year, 10, 3))
    }

    /// What the second that would reach `next` gives: a date acts only in the other season,
    /// so the hour is not taken back a second time.
    pub fn reach(self, next: Moment, season: Season) -> (Moment, Season) {
        match season {
            Season::Summer if next == self.to_winter(next.year) => (next.hour_earlier(), Season::Winter),
            Season::Winter if next == self.to_summer(next.year) => (next.hour_later(), Season::Summer),
            _ => (next, season),
        }
    }
}

#[cfg(test)]
mod tests {
    use super::*;

    fn at(year: u8, month: u8, day: u8, hour: u8) -> Moment {
        Moment { year, month, day, hour, minute: 0, second: 0 }
    }

    #[test]
    fn p7_and_p8_as_nights() {
        let auto = Switches::AUTOMATIC;
        for (year, march, october) in [(6, 26, 29), (24, 31, 27)] {
            let spring = auto.reach(at(year, 3, march, 2), Season::Winter);
            assert_eq!(spring, (at(year, 3, march, 3), Season::Summer));
            let autumn = auto.reach(at(year, 10, october, 3), Season::Summer);
            assert_eq!(autumn, (at(year, 10, october, 2), Season::Winter));
            let again = auto.reach(at(year, 10, october, 3), Season::Winter);
            assert_eq!(again, (at(year, 10, october, 3), Season::Winter));
        }
    }

    #[test]
    fn an_hour_at_each_end_is_not_writable() {
        assert!(!writable(at(0, 1, 1, 0)) && writable(at(0, 1, 1, 1)));
        assert!(!writable(at(99, 12, 31, 23)) && writable(at(99, 12, 31, 22)));
    }
}
