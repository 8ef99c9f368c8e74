//! The clock over the whole century: each night that switches the season, and each midnight.

use crate::dialogue::call;
use crate::layout::RECORD_BYTES;
use crate::run::Group;
use crate::settings::Settings;
use crate::twin::{made, Call, Twin};
use metlazuel_check::model::calendar::{date_of, last_sunday, Moment};
use metlazuel_check::model::crc::sealed;
use metlazuel_check::model::meter::Telemetry;

const DAYS: u32 = 36_525;
const SEASONS: [u8; 2] = [0, 1];
/// More than an hour and the few seconds before it.
const NIGHT: usize = 3_700;

fn meter(group: &mut Group, case: u64, clock: Moment, season: u8) -> Twin {
    let telemetry = Telemetry { k: 400, ke: 100, reserve: 0 };
    let settings = Settings { address: 1, minutes: 30, telemetry, clock, season };
    let (answer, twin) = made(&settings, &[0xA5; RECORD_BYTES]);
    group.call(case, answer, || format!("{settings:?}"));
    twin.expect("settings in their ranges")
}

/// The dates that parameters 27 and 28 read.
fn read_dates(group: &mut Group, case: u64, twin: &mut Twin) {
    for parameter in [27, 28] {
        let frame = sealed(vec![1, 3, parameter, 0, 0, 0]);
        call(group, case, twin, &Call::Frame(frame, vec![0xA5; 64]));
    }
}

fn seconds(group: &mut Group, case: u64, twin: &mut Twin, passed: usize) {
    for _ in 0..passed {
        call(group, case, twin, &Call::Second);
    }
}

/// Both nights of each year, in either season.
#[test]
fn season_nights() {
    let mut group = Group::new("season nights of the century");
    for year in 0..100 {
        for (month, hour, season) in [3, 10].into_iter().flat_map(|m| [(m, 1, 0), (m, 1, 1), (m, 2, 0), (m, 2, 1)]) {
            let clock = Moment { year, month, day: last_sunday(year, month), hour, minute: 59, second: 55 };
            let mut twin = meter(&mut group, year.into(), clock, season);
            read_dates(&mut group, year.into(), &mut twin);
            seconds(&mut group, year.into(), &mut twin, NIGHT);
        }
    }
    group.end(&[0]);
}

#[test]
fn midnights() {
    let mut group = Group::new("midnights of the century");
    for number in 0..DAYS {
        let (year, month, day) = date_of(number);
        let clock = Moment { year, month, day, hour: 23, minute: 59, second: 58 };
        for season in SEASONS {
            let mut twin = meter(&mut group, number.into(), clock, season);
            seconds(&mut group, number.into(), &mut twin, 3);
        }
    }
    group.end(&[0]);
}
