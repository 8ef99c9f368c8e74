//! The season days of every year from 2000 to 2099, each between its neighbours, for 15 and 30 minutes, with and without seasons: every
//! slot asked for, looked up, answered for and lapsed, every day reported, and files with every kind of cell about the hour from 02:00.

use crate::asks::{compare, write_both, Call, Logs};
use crate::by_hand::{image_of, Row};
use crate::logs::{
    cell_both, file_bytes, file_length, gap_both, image_front, read_both, report_both, start, walked, ABOUT_THE_HOUR,
};
use crate::random::Random;
use crate::run::Group;
use metlazuel_check::model::calendar::last_sunday;
use metlazuel_check::model::count_bytes;
use metlazuel_check::model::crc::sealed;
use metlazuel_check::model::log::{Ask, Header, ROW};

const DAYS: u8 = 3;
const SUNDAY: u8 = 1;
const REQUEST_BYTES: usize = 8;
const GAP: Row = [0; 10];
/// A gap, an empty and a measured cell, without lapses and with some, and bytes that are none.
const KINDS: [Row; 10] = [
    GAP,
    [1, 0, 0, 0, 0, 0, 0, 0, 0, 0],
    [2, 12, 0, 0, 0, 3, 0, 0, 0, 0],
    [0, 0, 0, 0, 0, 0, 0, 0, 0, 1],
    [1, 0, 0, 0, 0, 0, 0, 0, 0, 254],
    [2, 12, 0, 0, 0, 3, 0, 0, 0, 255],
    [0, 0, 0, 0, 0, 0, 0, 0, 1, 0],
    [1, 1, 0, 0, 0, 0, 0, 0, 0, 7],
    [2, 0, 0, 0, 0, 0, 0, 0, 0, 0],
    [3, 0, 0, 0, 0, 0, 0, 0, 0, 0],
];
/// Those of them that are cells.
const CELLS: usize = 6;

/// The three days about each season day, as headers, with the year as the case.
fn headers() -> impl Iterator<Item = (u64, Header)> {
    let days = (0..100).flat_map(|year| [(year, 3), (year, 10)]);
    let kinds = [(15, 0), (15, 1), (30, 0), (30, 1)];
    days.flat_map(move |day| kinds.map(|kind| (day, kind))).map(|((year, month), (minutes, seasons))| {
        let day = last_sunday(year, month) - SUNDAY;
        (year.into(), Header { year, month, day, days: DAYS, minutes, ke: 100, seasons })
    })
}

/// A log of gaps, empties and measured cells, also where a slot does not exist.
fn log_of(header: &Header, random: &mut Random) -> Vec<u8> {
    let rows: Vec<Row> = (0..cells(header)).map(|_| random.pick(&KINDS[..CELLS])).collect();
    image_of(&image_front(header), &rows)
}

fn cells(header: &Header) -> usize {
    usize::from(DAYS) * usize::from(header.slots())
}

/// All gaps but for one slot of the Sunday.
fn rows_with(header: &Header, slot: u8, row: Row) -> Vec<Row> {
    let mut rows = vec![GAP; cells(header)];
    rows[usize::from(SUNDAY) * usize::from(header.slots()) + usize::from(slot)] = row;
    rows
}

#[test]
fn slots_of_the_century() {
    let mut group = Group::new("slots of the season days");
    for (case, header) in headers() {
        let log = log_of(&header, &mut Random::of(group.seed, case));
        let figures = walked(&log);
        for day in 0..=DAYS {
            let call = || format!("day {day}, from {:?}", start(&log));
            group.call(case, report_both(&log, &figures, day, ROW), call);
            group.call(case, report_both(&log, &figures, day, ROW - 1), call);
            group.call(case, report_both(&log, &figures[1..], day, ROW), call);
            for slot in 0..=header.slots() {
                group.call(case, cell_both(&log, day, slot), call);
                group.call(case, gap_both(&log, day, slot), call);
                asked_and_answered(&mut group, case, &log, Ask { address: 1, day, slot });
            }
        }
    }
    group.end(&[0, 1, 22, 25]);
}

/// An ask with none open, and a reply and a lapse with the ask open whether it could be or not.
fn asked_and_answered(group: &mut Group, case: u64, log: &[u8], ask: Ask) {
    compare(group, case, &mut Logs::of(log, None), &Call::Ask(ask, REQUEST_BYTES));
    let reply = sealed([&[1, 3, 36, 0][..], &count_bytes([13, 0, 3, 0])].concat());
    compare(group, case, &mut Logs::of(log, Some(ask)), &Call::Reply(reply));
    compare(group, case, &mut Logs::of(log, Some(ask)), &Call::Lapse);
}

/// Each slot about the hour with each kind of cell and no cell: read from files of each version, written, reported, passed over, lapsed.
#[test]
fn cells_about_the_hour() {
    let mut group = Group::new("cells about the season hour");
    let (first, last) = ABOUT_THE_HOUR;
    for (case, header) in headers() {
        for (slot, kind) in (first..=last).flat_map(|slot| KINDS.map(|kind| (slot, kind))) {
            let (mut front, rows) = (image_front(&header), rows_with(&header, slot, kind));
            let log = image_of(&front, &rows);
            let call = || format!("slot {slot} with {kind:?}, from {:?}", start(&log));
            group.call(case, write_both(&log, file_length(&log)), call);
            group.call(case, report_both(&log, &walked(&log), SUNDAY, ROW), call);
            group.call(case, gap_both(&log, SUNDAY, slot), call);
            let ask = Ask { address: 1, day: SUNDAY, slot };
            compare(&mut group, case, &mut Logs::of(&log, Some(ask)), &Call::Lapse);
            for version in 1..=3 {
                front[3] = version;
                let file = sealed(file_bytes(&front, &rows));
                group.call(case, read_both(&file, log.len(), ROW * usize::from(DAYS)), call);
            }
        }
    }
    group.end(&[0, 22, 28, 32, 35]);
}
