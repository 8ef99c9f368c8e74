//! Dates and times of 2000 to 2099 (01, "Clock"). A year is kept as year - 2000, as on the wire.

/// A date and time; the order of the fields makes the derived order that of time.
#[derive(Clone, Copy, Debug, PartialEq, Eq, PartialOrd, Ord)]
pub struct Moment {
    pub year: u8,
    pub month: u8,
    pub day: u8,
    pub hour: u8,
    pub minute: u8,
    pub second: u8,
}

/// 2099-12-31 23:59:59, where the clock stands still.
pub const LAST: Moment = Moment { year: 99, month: 12, day: 31, hour: 23, minute: 59, second: 59 };

const DAY_SECONDS: u32 = 86_400;
const HOUR_SECONDS: u32 = 3_600;

/// Leap years of 2000 to 2099 are those that four divides (2000 is one by the rule of 400).
fn leap(year: u8) -> bool {
    year % 4 == 0
}

pub fn month_length(year: u8, month: u8) -> u8 {
    match month {
        4 | 6 | 9 | 11 => 30,
        2 if leap(year) => 29,
        2 => 28,
        _ => 31,
    }
}

pub fn date_valid(year: u8, month: u8, day: u8) -> bool {
    year <= 99 && (1..=12).contains(&month) && day >= 1 && day <= month_length(year, month)
}

/// Days from 2000-01-01, which is day 0.
pub fn day_number(year: u8, month: u8, day: u8) -> u32 {
    let years = 365 * u32::from(year) + u32::from(year).div_ceil(4);
    let months: u32 = (1..month).map(|m| u32::from(month_length(year, m))).sum();
    years + months + u32::from(day) - 1
}

/// The date that many days after 2000-01-01.
pub fn date_of(mut days: u32) -> (u8, u8, u8) {
    let mut year = 0;
    while days >= year_length(year) {
        days -= year_length(year);
        year += 1;
    }
    let mut month = 1;
    while days >= u32::from(month_length(year, month)) {
        days -= u32::from(month_length(year, month));
        month += 1;
    }
    (year, month, days as u8 + 1)
}

fn year_length(year: u8) -> u32 {
    if leap(year) {
        366
    } else {
        365
    }
}

/// 0 is Sunday; 2000-01-01 was a Saturday.
pub fn weekday(year: u8, month: u8, day: u8) -> u8 {
    ((day_number(year, month, day) + 6) % 7) as u8
}

/// The day of the month's last Sunday: as many days before its end as its last day is past Sunday.
pub fn last_sunday(year: u8, month: u8) -> u8 {
    let end = month_length(year, month);
    end - weekday(year, month, end)
}

impl Moment {
    pub fn valid(self) -> bool {
        date_valid(self.year, self.month, self.day) && self.hour < 24 && self.minute < 60 && self.second < 60
    }

    /// Second, minute, hour, day, month, year - 2000, in binary (01, "Clock").
    pub fn bytes(self) -> [u8; 6] {
        [self.second, self.minute, self.hour, self.day, self.month, self.year]
    }

    pub fn from_bytes(bytes: &[u8]) -> Moment {
        Moment { second: bytes[0], minute: bytes[1], hour: bytes[2], day: bytes[3], month: bytes[4], year: bytes[5] }
    }

    /// Seconds from 2000-01-01 00:00:00.
    pub fn seconds(self) -> u32 {
        let of_day = u32::from(self.hour) * HOUR_SECONDS + u32::from(self.minute) * 60 + u32::from(self.second);
        day_number(self.year, self.month, self.day) * DAY_SECONDS + of_day
    }

    pub fn from_seconds(seconds: u32) -> Moment {
        let (year, month, day) = date_of(seconds / DAY_SECONDS);
        let of_day = seconds % DAY_SECONDS;
        Moment {
            year,
            month,
            day,
            hour: (of_day / HOUR_SECONDS) as u8,
            minute: (of_day / 60 % 60) as u8,
            second: (of_day % 60) as u8,
        }
    }

    /// The next second; within a minute without the calendar, as most seconds are.
    pub fn next_second(self) -> Moment {
        if self.second < 59 {
            Moment { second: self.second + 1, ..self }
        } else {
            Moment::from_seconds(self.seconds() + 1)
        }
    }

    pub fn hour_later(self) -> Moment {
        Moment::from_seconds(self.seconds() + HOUR_SECONDS)
    }

    pub fn hour_earlier(self) -> Moment {
        Moment::from_seconds(self.seconds() - HOUR_SECONDS)
    }
}

#[cfg(test)]
mod tests {
    use super::*;

    #[test]
    fn p7() {
        assert_eq!((last_sunday(6, 3), last_sunday(6, 10)), (26, 29));
    }

    #[test]
    fn p8() {
        assert_eq!((last_sunday(24, 3), last_sunday(24, 10)), (31, 27));
    }

    #[test]
    fn the_century_has_36525_days() {
        assert_eq!(day_number(99, 12, 31), 36_524);
        assert!((0..36_525).all(|n| {
            let (year, month, day) = date_of(n);
            date_valid(year, month, day) && day_number(year, month, day) == n
        }));
    }

    #[test]
    fn seconds_carry() {
        let eve = Moment { year: 23, month: 12, day: 31, hour: 23, minute: 59, second: 59 };
        assert_eq!(eve.next_second(), Moment { year: 24, month: 1, day: 1, hour: 0, minute: 0, second: 0 });
        assert_eq!(Moment::from_seconds(LAST.seconds()), LAST);
    }

    #[test]
    fn february() {
        assert!(date_valid(0, 2, 29) && date_valid(24, 2, 29) && !date_valid(23, 2, 29) && !date_valid(24, 2, 30));
        assert!(!date_valid(24, 0, 1) && !date_valid(24, 13, 1) && !date_valid(24, 1, 0) && !date_valid(100, 1, 1));
    }
}
