//! Kinds that share a byte: each value of it, with counts and without, before each call for each of its four cells; and each kind that a
//! file's byte can have.

use crate::asks::{compare, write_both, Call, Logs};
use crate::by_hand::{image_of, Row, CELL_BYTES, HEADER_BYTES};
use crate::logs::{cell_both, file_bytes, file_length, gap_both, image_front, read_both, report_both, start, walked};
use crate::run::Group;
use metlazuel_check::model::count_bytes;
use metlazuel_check::model::crc::sealed;
use metlazuel_check::model::log::{Ask, Header, ROW};

const HEADER: Header = Header { year: 24, month: 5, day: 17, days: 1, minutes: 30, ke: 100, seasons: 1 };
const CELLS: usize = 48;
const REQUEST_BYTES: usize = 8;

/// Empty cells, but for the four that share a byte: these kinds, with a count of 12 or without.
fn log_with(kinds: u8, byte: usize, counted: bool) -> Vec<u8> {
    let mut rows = [[1, 0, 0, 0, 0, 0, 0, 0, 0, 7]; CELLS];
    for row in &mut rows[4 * byte..4 * byte + 4] {
        row[1] = if counted { 12 } else { 0 };
    }
    let mut log = image_of(&image_front(&HEADER), &rows);
    log[HEADER_BYTES + byte] = kinds;
    log
}

#[test]
fn kinds_of_a_byte() {
    let mut group = Group::new("kinds that share a byte");
    for (kinds, byte) in (0..=255).flat_map(|kinds| [(kinds, 0), (kinds, 5), (kinds, 11)]) {
        for log in [log_with(kinds, byte, false), log_with(kinds, byte, true)] {
            let call = || format!("kinds {kinds:#010b} in byte {byte}, from {:?}", start(&log));
            group.call(kinds.into(), write_both(&log, file_length(&log)), call);
            group.call(kinds.into(), report_both(&log, &walked(&log), 0, ROW), call);
            for slot in (4 * byte as u8..).take(4) {
                group.call(kinds.into(), cell_both(&log, 0, slot), call);
                group.call(kinds.into(), gap_both(&log, 0, slot), call);
                every_call(&mut group, kinds.into(), &log, Ask { address: 1, day: 0, slot });
            }
        }
    }
    group.end(&[0, 25, 28]);
}

/// An ask with none open; then a lapse and replies of zeros, of 12 and of 13 with it open.
fn every_call(group: &mut Group, case: u64, log: &[u8], ask: Ask) {
    compare(group, case, &mut Logs::of(log, None), &Call::Ask(ask, REQUEST_BYTES));
    compare(group, case, &mut Logs::of(log, Some(ask)), &Call::Lapse);
    for eplus in [0, 12, 13] {
        let reply = sealed([&[1, 3, 36, 0][..], &count_bytes([eplus, 0, 0, 0])].concat());
        compare(group, case, &mut Logs::of(log, Some(ask)), &Call::Reply(reply));
    }
}

#[test]
fn kinds_of_a_file() {
    let mut group = Group::new("kinds of a file");
    for (kind, cell) in (0..=255).flat_map(|kind| (0..CELLS).map(move |cell| (kind, cell))) {
        for (version, count) in (1..=3).flat_map(|version| [(version, 0), (version, 1)]) {
            let (mut front, mut rows): (Vec<u8>, Vec<Row>) = (image_front(&HEADER), vec![[0; CELL_BYTES]; CELLS]);
            (front[3], front[12]) = (version, 0);
            (rows[cell][0], rows[cell][8]) = (kind, count);
            let answer = read_both(&sealed(file_bytes(&front, &rows)), 14 + CELLS / 4 + 9 * CELLS, ROW);
            group.call(kind.into(), answer, || format!("kind {kind} in cell {cell} of version {version}"));
        }
    }
    group.end(&[0, 35]);
}
