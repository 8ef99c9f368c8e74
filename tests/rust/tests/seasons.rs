//! The two season days in the log (02, CR 5), for 15 and 30 minutes and every year from 2000 to 2099: the hour that the March day
//! lacks, the hour that the October day has twice, and that no other day has either.

#[path = "compare/by_hand.rs"]
#[allow(dead_code)]
mod by_hand;

use by_hand::{image_of, Row, HEADER_BYTES};
use metlazuel_check::model::crc::sealed;
use metlazuel_check::model::log::{self, Ask, Cell, Figures, Header, Log};
use metlazuel_check::model::refusal::Refusal::{NotInLog, OutOfRange, Unsound};
use metlazuel_check::model::{count_bytes, slots};
use std::ops::Range;

const MARCH: u8 = 3;
const OCTOBER: u8 = 10;
const COUNTS: [u16; 4] = [12, 0, 3, 0];
/// Bytes that are no cell: an empty one with counts, and a fourth kind.
const NO_CELLS: [Row; 2] = [[1, 0, 0, 0, 0, 0, 0, 0, 9, 0], [3, 0, 0, 0, 0, 0, 0, 0, 0, 0]];

/// The last Sunday of March or of October, reckoned from the year alone.
fn season_day(year: u8, month: u8) -> u8 {
    let shift = if month == MARCH { 5 } else { 2 };
    31 - (year + year / 4 + shift) % 7
}

/// The slots from 02:00 up to 03:00, as the request names them.
fn hour(minutes: u8) -> Range<u8> {
    match minutes {
        15 => 8..12,
        _ => 4..6,
    }
}

fn day_of(year: u8, month: u8, day: u8, minutes: u8, seasons: u8) -> Header {
    Header { year, month, day, days: 1, minutes, ke: 100, seasons }
}

/// The season day of a year between its neighbours.
fn about(year: u8, month: u8, minutes: u8, seasons: u8) -> Header {
    Header { days: 3, ..day_of(year, month, season_day(year, month) - 1, minutes, seasons) }
}

fn fresh(header: Header) -> Log {
    log::fresh(header).expect("a header in its ranges")
}

/// An ask for an interval and a reply with these counts.
fn measure(log: &mut Log, day: u8, slot: u8, counts: [u16; 4]) {
    let mut open = None;
    assert!(log::ask(&log.image, &mut open, Ask { address: 1, day, slot }).is_ok());
    let reply = sealed([&[1, 3, 36, 0][..], &count_bytes(counts)].concat());
    assert_eq!(log::take(&mut log.image, &mut log.figures, &mut open, &reply), Ok(()));
}

/// A day's report, which is that of the walk over its cells.
fn report(log: &Log, day: u8) -> Figures {
    let figures = log::report(&log.image, &log.figures, day).expect("a day of the log");
    assert_eq!(log::walk(&log.image, day), Ok(figures));
    figures
}

/// A cell of the log's first day.
fn put(image: &mut [u8], slot: u8, cell: Row) {
    by_hand::put(image, slot.into(), cell);
}

fn years_and_minutes() -> impl Iterator<Item = (u8, u8)> {
    (0..100).flat_map(|year| [(year, 15), (year, 30)])
}

#[test]
fn the_days_of_the_marked_examples() {
    assert_eq!((season_day(6, MARCH), season_day(6, OCTOBER)), (26, 29));
    assert_eq!((season_day(24, MARCH), season_day(24, OCTOBER)), (31, 27));
}

#[test]
fn the_header_byte() {
    let header = day_of(24, 3, 31, 30, 0);
    assert_eq!(fresh(header).image[..14], [b'G', b'E', b'L', 3, 0, 24, 3, 31, 1, 30, 100, 0, 0, 0]);
    assert_eq!(
        fresh(Header { seasons: 1, ..header }).image[..14],
        [b'G', b'E', b'L', 3, 0, 24, 3, 31, 1, 30, 100, 0, 1, 0]
    );
    for seasons in 2..=255 {
        assert_eq!(log::fresh(Header { seasons, ..header }), Err(OutOfRange));
    }
    for (at, byte) in [(3, 1), (3, 2), (3, 4), (4, 1), (12, 2), (12, 255), (13, 1)] {
        let mut image = fresh(header).image;
        image[at] = byte;
        assert_eq!(log::header(&image), Err(Unsound), "byte {at} is {byte}");
    }
}

/// Of the three days just the slots of that hour on the Sunday are outside: for an ask, a reply, a lapse and the cell.
#[test]
fn the_march_hour_is_outside() {
    for (year, minutes) in years_and_minutes() {
        for seasons in [0, 1] {
            let Log { image, figures } = fresh(about(year, MARCH, minutes, seasons));
            for (day, slot) in (0..3).flat_map(|day| (0..=slots(minutes)).map(move |slot| (day, slot))) {
                let missing = seasons == 1 && day == 1 && hour(minutes).contains(&slot);
                outside(&image, &figures, day, slot, missing || slot == slots(minutes));
            }
        }
    }
}

fn outside(image: &[u8], figures: &[u32], day: u8, slot: u8, expected: bool) {
    let ask = Ask { address: 1, day, slot };
    let mut open = None;
    assert_eq!(log::ask(image, &mut open, ask) == Err(NotInLog), expected);
    assert_eq!(open.is_none(), expected);
    assert_eq!(log::cell(image, day, slot), if expected { Err(NotInLog) } else { Ok(Cell::Gap) });
    // 22 comes before the form of the reply, and the ask stays as it was
    let (mut copy, mut numbers, mut open) = (image.to_vec(), figures.to_vec(), Some(ask));
    assert_eq!(log::take(&mut copy, &mut numbers, &mut open, &[]) == Err(NotInLog), expected);
    assert_eq!((copy.as_slice(), numbers.as_slice(), open), (image, figures, Some(ask)));
    assert_eq!(log::lapse(&mut copy, &mut open) == Err(NotInLog), expected);
    assert_eq!((copy.as_slice() == image, open.is_some()), (expected, expected));
}

#[test]
fn a_reply_to_an_ask_in_the_march_hour() {
    for (year, minutes) in years_and_minutes() {
        for slot in hour(minutes) {
            let mut log = fresh(about(year, MARCH, minutes, 1));
            let (before, ask) = (log.clone(), Some(Ask { address: 1, day: 1, slot }));
            let mut open = ask;
            let reply = sealed([&[1, 3, 36, 0][..], &count_bytes(COUNTS)].concat());
            assert_eq!(log::take(&mut log.image, &mut log.figures, &mut open, &reply), Err(NotInLog));
            assert_eq!((log, open), (before, ask));
        }
    }
}

/// Gaps that never were are not reported, and no gap is found in the hour; 01:45 or 01:30 and 03:00 are there.
#[test]
fn the_march_hour_is_no_gap() {
    for (year, minutes) in years_and_minutes() {
        let log = fresh(about(year, MARCH, minutes, 1));
        let (all, missing) = (u32::from(slots(minutes)), hour(minutes).len() as u32);
        let gaps = [0, 1, 2].map(|day| report(&log, day));
        assert_eq!(gaps, [all, all - missing, all].map(|gaps| [gaps, 0, 0, 0, 0, 0, 0, 0]));
        let Range { start, end } = hour(minutes);
        for from in 0..=slots(minutes) {
            let next = if (start..end).contains(&from) { end } else { from };
            assert_eq!(log::next_gap(&log.image, 1, from), Ok((from < slots(minutes)).then_some(next)));
            assert_eq!(log::next_gap(&log.image, 0, from), Ok((from < slots(minutes)).then_some(from)));
        }
        let without = fresh(about(year, MARCH, minutes, 0));
        assert_eq!(report(&without, 1), [all, 0, 0, 0, 0, 0, 0, 0]);
        assert_eq!(log::next_gap(&without.image, 1, start), Ok(Some(start)));
    }
}

/// Whatever stands in a cell of the missing hour, the walks pass over it; only a file is not made of it, but of a gap without lapses.
#[test]
fn bytes_in_the_march_hour() {
    let measured = [2, 12, 0, 0, 0, 3, 0, 0, 0, 0];
    let empty = [1, 0, 0, 0, 0, 0, 0, 0, 0, 0];
    let lapsed = [0, 0, 0, 0, 0, 0, 0, 0, 0, 1];
    for (year, minutes) in years_and_minutes() {
        let sound = fresh(day_of(year, MARCH, season_day(year, MARCH), minutes, 1));
        let file = log::write_file(&sound.image).expect("a sound log");
        assert_eq!(log::read_file(&file).as_ref(), Ok(&sound));
        for slot in hour(minutes) {
            for bytes in [measured, empty, lapsed, NO_CELLS[0], NO_CELLS[1]] {
                let Log { mut image, figures } = sound.clone();
                put(&mut image, slot, bytes);
                assert_eq!(log::walk(&image, 0), Ok(report(&sound, 0)));
                assert_eq!(log::next_gap(&image, 0, slot), Ok(Some(hour(minutes).end)));
                outside(&image, &figures, 0, slot, true);
                assert_eq!(log::write_file(&image), Err(Unsound));
            }
        }
    }
}

/// Before and after that hour a cell is read as on any day.
#[test]
fn bytes_beside_the_march_hour() {
    for (year, minutes) in years_and_minutes() {
        for slot in [hour(minutes).start - 1, hour(minutes).end] {
            let mut log = fresh(day_of(year, MARCH, season_day(year, MARCH), minutes, 1));
            measure(&mut log, 0, slot, COUNTS);
            let gaps = u32::from(slots(minutes)) - hour(minutes).len() as u32 - 1;
            assert_eq!(report(&log, 0), [gaps, 0, 1, 12, 0, 3, 0, 0]);
            assert!(log::write_file(&log.image).is_ok());
            put(&mut log.image, slot, NO_CELLS[0]);
            assert_eq!(log::walk(&log.image, 0), Err(Unsound));
            assert_eq!(log::cell(&log.image, 0, slot), Err(Unsound));
        }
    }
}

/// All slots of the three days are asked for and measured; on the Sunday those of the hour are counted once more.
#[test]
fn the_october_hour_is_doubled() {
    for (year, minutes) in years_and_minutes() {
        for seasons in [0, 1] {
            let mut log = fresh(about(year, OCTOBER, minutes, seasons));
            for (day, slot) in (0..3).flat_map(|day| (0..slots(minutes)).map(move |slot| (day, slot))) {
                measure(&mut log, day, slot, [1, 2, 3, 4]);
            }
            let all = u32::from(slots(minutes));
            let doubled = u32::from(seasons) * hour(minutes).len() as u32;
            for (day, doubled) in [(0, 0), (1, doubled), (2, 0)] {
                assert_eq!(report(&log, day), [0, 0, all, all, 2 * all, 3 * all, 4 * all, doubled]);
            }
        }
    }
}

/// Each slot of the October day measured alone: 02:00 up to 03:00 counts, 03:00 does not.
#[test]
fn one_measured_slot_of_the_october_day() {
    for (year, minutes) in years_and_minutes() {
        for slot in 0..slots(minutes) {
            let mut log = fresh(day_of(year, OCTOBER, season_day(year, OCTOBER), minutes, 1));
            measure(&mut log, 0, slot, COUNTS);
            let doubled = u32::from(hour(minutes).contains(&slot));
            assert_eq!(report(&log, 0), [u32::from(slots(minutes)) - 1, 0, 1, 12, 0, 3, 0, doubled]);
        }
    }
}

/// Only the measured ones of that hour count: not a gap, not an empty one.
#[test]
fn empties_and_gaps_of_the_october_hour() {
    for (year, minutes) in years_and_minutes() {
        let mut log = fresh(day_of(year, OCTOBER, season_day(year, OCTOBER), minutes, 1));
        let Range { start, end } = hour(minutes);
        measure(&mut log, 0, start, [0; 4]);
        let row = report(&log, 0);
        assert_eq!((row[1], row[7]), (1, 0));
        measure(&mut log, 0, end - 1, COUNTS);
        let row = report(&log, 0);
        assert_eq!((row[1], row[2], row[7]), (1, 1, 1));
        put(&mut log.image, start, NO_CELLS[1]);
        assert_eq!(log::walk(&log.image, 0), Err(Unsound), "on this day the hour's cells are read");
    }
}

/// The Sunday before, as every other day of the century, has all its slots and none of them twice: logs of up to 62 days from
/// the first and the middle of each month, with every cell measured.
#[test]
fn no_other_day_of_the_century() {
    for (year, minutes) in years_and_minutes() {
        for (month, first) in (1..=12).flat_map(|month| [(month, 1), (month, 15)]) {
            let days = match (year, month, first) {
                (99, 11, 1) => 61,
                (99, 11, _) => 47,
                (99, 12, 1) => 31,
                (99, 12, _) => 17,
                _ => 62,
            };
            let header = Header { days, ..day_of(year, month, first, minutes, 1) };
            let rows = vec![[2, 1, 0, 0, 0, 0, 0, 0, 0, 7]; usize::from(days) * usize::from(slots(minutes))];
            let image = image_of(&fresh(header).image[..HEADER_BYTES], &rows);
            for day in 0..days {
                let (measured, doubled) = measured_and_doubled(header.date(day), minutes);
                let expected = [0, 0, measured, measured, 0, 0, 0, doubled];
                assert_eq!(log::walk(&image, day), Ok(expected), "{:?}", header.date(day));
            }
        }
    }
}

/// Of a day without gaps.
fn measured_and_doubled((year, month, day): (u8, u8, u8), minutes: u8) -> (u32, u32) {
    let (all, twice) = (u32::from(slots(minutes)), hour(minutes).len() as u32);
    match month {
        MARCH if day == season_day(year, MARCH) => (all - twice, 0),
        OCTOBER if day == season_day(year, OCTOBER) => (all, twice),
        _ => (all, 0),
    }
}

#[test]
fn the_sunday_before() {
    for (year, minutes) in years_and_minutes() {
        for month in [MARCH, OCTOBER] {
            let header = day_of(year, month, season_day(year, month) - 7, minutes, 1);
            let mut log = fresh(header);
            for slot in 0..slots(minutes) {
                measure(&mut log, 0, slot, COUNTS);
            }
            let all = u32::from(slots(minutes));
            assert_eq!(report(&log, 0), [0, 0, all, 12 * all, 0, 3 * all, 0, 0]);
            assert_eq!(log::read_file(&log::write_file(&log.image).expect("a sound log")), Ok(log));
        }
    }
}
