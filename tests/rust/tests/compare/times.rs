//! Dates and times, most of them near the places where something happens.

use crate::random::Random;
use metlazuel_check::model::calendar::{last_sunday, month_length, Moment, LAST};
use metlazuel_check::model::meter::Record;

/// A valid time of 2000 to 2099.
pub fn any_time(random: &mut Random) -> Moment {
    let (year, month) = (random.within(0, 99), random.within(1, 12));
    Moment {
        year,
        month,
        day: random.within(1, month_length(year, month)),
        hour: random.within(0, 23),
        minute: random.within(0, 59),
        second: random.within(0, 59),
    }
}

/// A few seconds before the hour on a night that switches the season, or as near to another night.
fn season_night(random: &mut Random) -> Moment {
    let (year, month) = (random.within(0, 99), random.pick(&[3, 3, 3, 10, 10, 10, 2, 9]));
    Moment {
        year,
        month,
        day: last_sunday(year, month) - random.pick(&[0, 0, 0, 0, 1, 7]),
        hour: random.pick(&[0, 1, 1, 2, 2, 3]),
        minute: 59,
        second: random.within(50, 59),
    }
}

fn end_of_time(random: &mut Random) -> Moment {
    Moment { second: random.within(50, 59), minute: random.pick(&[0, 58, 59, 59]), ..LAST }
}

fn end_of_month(random: &mut Random) -> Moment {
    let time = any_time(random);
    let second = random.within(55, 59);
    Moment { day: month_length(time.year, time.month), hour: 23, minute: 59, second, ..time }
}

/// A valid time for the clock of a record, at times just before one of its own dates.
pub fn clock_time(random: &mut Random, record: &Record) -> Moment {
    let year = record.clock.year;
    match random.below(8) {
        0 | 1 => season_night(random),
        2 => end_of_time(random),
        3 => end_of_month(random),
        4 => before(random, record.switches.to_summer(year)),
        5 => before(random, record.switches.to_winter(year)),
        _ => any_time(random),
    }
}

/// A valid time without a record.
pub fn first_time(random: &mut Random) -> Moment {
    match random.below(4) {
        0 => season_night(random),
        1 => end_of_time(random),
        2 => end_of_month(random),
        _ => any_time(random),
    }
}

fn before(random: &mut Random, date: Moment) -> Moment {
    Moment::from_seconds(date.seconds().saturating_sub(random.below(12) as u32))
}

/// A date for a season, many of them soon reached by the clock, some in the hours that are refused.
pub fn season_date(random: &mut Random, clock: Moment) -> Moment {
    match random.below(8) {
        0 => any_time(random),
        1 => edge(random),
        2 => season_night(random),
        _ => after(clock, random.below(40) as u32),
    }
}

fn after(time: Moment, seconds: u32) -> Moment {
    Moment::from_seconds((time.seconds() + seconds).min(LAST.seconds()))
}

/// About the end of the first hour of 2000 and the beginning of the last of 2099.
fn edge(random: &mut Random) -> Moment {
    let first = Moment { year: 0, month: 1, day: 1, hour: 1, minute: 0, second: 0 };
    let last = Moment { hour: 23, minute: 0, second: 0, ..LAST };
    let near = random.pick(&[first, last]);
    Moment::from_seconds(near.seconds() - 3 + random.below(6) as u32)
}

/// The time with one field that may be out of its range.
pub fn spoiled(random: &mut Random, time: Moment) -> Moment {
    let mut bytes = time.bytes();
    bytes[random.below(6)] = random.pick(&[0, 12, 13, 23, 24, 28, 29, 30, 31, 32, 59, 60, 99, 100, 255]);
    Moment::from_bytes(&bytes)
}
