//! Kinds first, then columns (02, CR 9): where each bit and byte of a log in memory stands, that a call changes those of its own cell alone,
//! which cells are none, and that files are as they were.

#[path = "compare/by_hand.rs"]
#[allow(dead_code)]
mod by_hand;
#[path = "compare/random.rs"]
#[allow(dead_code)]
mod random;

use by_hand::{image_of, put, rows_of, Row};
use metlazuel_check::model::crc::sealed;
use metlazuel_check::model::log::{self, Ask, Cell, Header, Log};
use metlazuel_check::model::refusal::Refusal::*;
use metlazuel_check::model::{count_bytes, slots};
use random::Random;

const MAY: Header = Header { year: 24, month: 5, day: 17, days: 1, minutes: 30, ke: 100, seasons: 0 };
const FRONT: [u8; 14] = [0x47, 0x45, 0x4C, 3, 0, 24, 5, 17, 1, 30, 100, 0, 0, 0];
const SEED: u64 = 9;

fn fresh(header: Header) -> Log {
    log::fresh(header).expect("a header in its ranges")
}

fn reply(counts: [u16; 4]) -> Vec<u8> {
    sealed([&[1, 3, 36, 0][..], &count_bytes(counts)].concat())
}

fn file_of(front: &[u8], rows: &[Row]) -> Vec<u8> {
    sealed([front, &rows.concat()].concat())
}

/// Bytes of zero but for these.
fn zeros_but(length: usize, others: &[(usize, u8)]) -> Vec<u8> {
    let mut bytes = vec![0; length];
    others.iter().for_each(|(at, byte)| bytes[*at] = *byte);
    bytes
}

/// A day of half hours, each part by its own bytes.
#[test]
fn a_log_byte_by_byte() {
    let mut rows = [[0; 10]; 48];
    rows[0] = [2, 12, 0, 0, 0, 3, 0, 0, 0, 1];
    rows[1] = [1, 0, 0, 0, 0, 0, 0, 0, 0, 255];
    rows[3] = [2, 0x02, 0x01, 0x04, 0x03, 0x06, 0x05, 0x08, 0x07, 0];
    rows[6] = [0, 0, 0, 0, 0, 0, 0, 0, 0, 4];
    rows[47] = [2, 0xFF, 0xFF, 0, 0, 0, 0, 1, 0, 9];
    // the earlier cell in the lower bits: measured, empty, gap, measured; and the last one alone in the upper bits of its byte
    let kinds = zeros_but(12, &[(0, 0b10_00_01_10), (11, 0b10_00_00_00)]);
    let eplus = zeros_but(96, &[(0, 12), (6, 0x02), (7, 0x01), (94, 0xFF), (95, 0xFF)]);
    let eminus = zeros_but(96, &[(6, 0x04), (7, 0x03)]);
    let rplus = zeros_but(96, &[(0, 3), (6, 0x06), (7, 0x05)]);
    let rminus = zeros_but(96, &[(6, 0x08), (7, 0x07), (94, 1)]);
    let lapses = zeros_but(48, &[(0, 1), (1, 255), (6, 4), (47, 9)]);
    let image = [FRONT.to_vec(), kinds, eplus, eminus, rplus, rminus, lapses].concat();
    assert_eq!(image.len(), 458);
    let file = file_of(&FRONT, &rows);
    assert_eq!(file.len(), 496);
    let log = log::read_file(&file).expect("a log's file");
    assert_eq!(log, Log { image, figures: vec![44, 1, 3, 0x0102 + 12 + 65_535, 0x0304, 0x0506 + 3, 0x0708 + 1, 0] });
    assert_eq!(log::write_file(&log.image), Ok(file));
    let cells = [(0, [12, 0, 3, 0], 1), (3, [0x0102, 0x0304, 0x0506, 0x0708], 0), (47, [65_535, 0, 0, 1], 9)];
    for (slot, counts, lapses) in cells {
        assert_eq!(log::cell(&log.image, 0, slot), Ok(Cell::Measured(counts)));
        assert_eq!(log::lapses(&log.image, 0, slot), Ok(lapses));
    }
    assert_eq!((log::cell(&log.image, 0, 1), log::lapses(&log.image, 0, 1)), (Ok(Cell::Empty), Ok(255)));
    assert_eq!((log::cell(&log.image, 0, 6), log::lapses(&log.image, 0, 6)), (Ok(Cell::Gap), Ok(4)));
}

/// 14 + n / 4 + 9 n bytes, of zeros behind the header; any other length is 28, that of a file's cells too. A file has its ten bytes a cell.
#[test]
fn lengths() {
    for (days, minutes) in (1..=62).flat_map(|days| [(days, 15), (days, 30)]) {
        let (log, cells) = (fresh(Header { days, minutes, ..MAY }), usize::from(days) * usize::from(slots(minutes)));
        assert_eq!(log.image.len(), 14 + cells / 4 + 9 * cells);
        assert!(log.image[14..].iter().all(|byte| *byte == 0));
        for other in
            [0, 13, 14, log.image.len() - 1, log.image.len() + 1, 14 + 10 * cells, 16 + 10 * cells, 14 + 9 * cells]
        {
            let mut image = log.image.clone();
            image.resize(other, 0);
            assert_eq!(log::header(&image), Err(Unsound));
        }
        assert_eq!(log::write_file(&log.image).map(|file| file.len()), Ok(14 + 10 * cells + 2));
    }
    let longest = fresh(Header { days: 62, minutes: 15, ..MAY });
    assert_eq!(longest.image.len(), 55_070);
    assert_eq!(log::write_file(&longest.image).map(|file| file.len()), Ok(59_536));
}

/// Each cell of two days measured alone, and then lapsed: its two bits, its two bytes in each column, its lapses.
#[test]
fn each_cells_places() {
    for minutes in [15, 30] {
        let header = Header { days: 2, minutes, ..MAY };
        let cells = 2 * usize::from(slots(minutes));
        for cell in 0..cells {
            let (day, slot) = ((cell / (cells / 2)) as u8, (cell % (cells / 2)) as u8);
            let (mut log, mut open) = (fresh(header), Some(Ask { address: 1, day, slot }));
            let mut expected = log.image.clone();
            assert_eq!(
                log::take(&mut log.image, &mut log.figures, &mut open, &reply([1, 0x0302, 0x0504, 0x0706])),
                Ok(())
            );
            let column = |column: usize| 14 + cells / 4 + 2 * cells * column + 2 * cell;
            expected[14 + cell / 4] = [0x02, 0x08, 0x20, 0x80][cell % 4];
            for (at, bytes) in [(column(0), [1, 0]), (column(1), [2, 3]), (column(2), [4, 5]), (column(3), [6, 7])] {
                expected[at..at + 2].copy_from_slice(&bytes);
            }
            assert_eq!(log.image, expected);
            open = Some(Ask { address: 1, day, slot });
            assert_eq!(log::lapse(&mut log.image, &mut open), Ok(()));
            expected[14 + cells / 4 + 8 * cells + cell] = 1;
            assert_eq!(log.image, expected);
        }
    }
}

/// Whatever kinds share the byte, and be they none, a reply changes the two bits of its own cell, and a lapse none.
#[test]
fn the_neighbours_bits_stay() {
    for (place, others) in (0..4_u8).flat_map(|place| (0..=255_u8).map(move |others| (place, others))) {
        let own = 3 << (2 * place);
        let (mut log, ask) = (fresh(MAY), Ask { address: 1, day: 0, slot: 20 + place });
        log.image[14 + 5] = others & !own;
        for (counts, kind) in [(None, 0), (Some([0; 4]), 1), (Some([7, 0, 0, 0]), 2), (Some([0; 4]), 2), (None, 2)] {
            let mut open = Some(ask);
            let answer = match counts {
                Some(counts) => log::take(&mut log.image, &mut log.figures, &mut open, &reply(counts)),
                None => log::lapse(&mut log.image, &mut open),
            };
            assert_eq!((answer, open), (Ok(()), None));
            assert_eq!(log.image[19], others & !own | kind << (2 * place));
        }
        let mut expected = fresh(MAY).image;
        expected[19] = others & !own | 2 << (2 * place);
        expected[14 + 12 + 2 * usize::from(ask.slot)] = 7;
        expected[14 + 12 + 48 * 8 + usize::from(ask.slot)] = 2;
        assert_eq!(log.image, expected);
    }
}

/// The fourth kind, and a gap or an empty cell with a count in any column, are none; a measured one without counts is none either.
#[test]
fn cells_that_are_none() {
    let mut none = vec![[3, 0, 0, 0, 0, 0, 0, 0, 0, 0], [3, 1, 0, 0, 0, 0, 0, 0, 0, 0], [2, 0, 0, 0, 0, 0, 0, 0, 0, 5]];
    for (kind, byte) in (0..2).flat_map(|kind| (1..9).map(move |byte| (kind, byte))) {
        let mut row = [kind, 0, 0, 0, 0, 0, 0, 0, 0, 0];
        row[byte] = 1 << (byte - 1);
        none.push(row);
    }
    for (row, slot) in none.into_iter().flat_map(|row| [0, 1, 2, 3, 24, 47].map(|slot| (row, slot))) {
        let Log { mut image, mut figures } = fresh(MAY);
        put(&mut image, slot.into(), row);
        let (before, ask) = (image.clone(), Some(Ask { address: 1, day: 0, slot }));
        assert_eq!(log::cell(&image, 0, slot), Err(Unsound));
        assert_eq!(log::lapses(&image, 0, slot), Err(Unsound));
        assert_eq!(log::lapse(&mut image, &mut ask.clone()), Err(Unsound));
        assert_eq!(log::take(&mut image, &mut figures, &mut ask.clone(), &reply([0; 4])), Err(Unsound));
        assert_eq!(log::take(&mut image, &mut figures, &mut ask.clone(), &reply([1; 4])), Err(Unsound));
        assert_eq!(log::write_file(&image), Err(Unsound));
        assert_eq!(log::next_gap(&image, 0, slot), Ok((slot < 47).then_some(slot + 1)));
        assert!(log::ask(&image, &mut None, ask.expect("an ask")).is_ok(), "an ask reads no cell");
        assert_eq!(log::report(&image, &figures, 0), Ok([48, 0, 0, 0, 0, 0, 0, 0]), "nor does the report");
        assert_eq!(image, before);
    }
}

/// In a file a kind has its whole byte: one whose two lowest bits would do is 35 all the same.
#[test]
fn kinds_of_a_file() {
    for kind in 0..=255 {
        for (counts, sound) in [([0; 8], kind < 2), ([0, 0, 0, 0, 0, 0, 0, 1], kind == 2)] {
            let mut rows = [[0; 10]; 48];
            rows[5][0] = kind;
            rows[5][1..9].copy_from_slice(&counts);
            assert_eq!(log::read_file(&file_of(&FRONT, &rows)).map(|_| ()), if sound { Ok(()) } else { Err(FileCell) });
        }
    }
}

/// Logs with any cells: from a file to memory and back, to the byte.
#[test]
fn files_are_as_they_were() {
    for case in 0..2_000 {
        let random = &mut Random::of(SEED, case);
        let (days, minutes) = (random.within(1, 5), random.pick(&[15, 30]));
        let mut front = FRONT;
        (front[8], front[9]) = (days, minutes);
        let cells = usize::from(days) * usize::from(slots(minutes));
        let rows: Vec<Row> = (0..cells).map(|_| any_row(random)).collect();
        let file = file_of(&front, &rows);
        let log = log::read_file(&file).expect("a log's file");
        assert_eq!(log.image, image_of(&front, &rows));
        assert_eq!(rows_of(&log.image), rows);
        assert_eq!(log::write_file(&log.image), Ok(file));
    }
}

fn any_row(random: &mut Random) -> Row {
    let mut row = [0; 10];
    row[0] = random.within(0, 2);
    row[9] = random.byte();
    if row[0] == 2 {
        (1..9).for_each(|byte| row[byte] = random.byte());
        row[1 + random.below(8)] |= 1;
    }
    row
}

/// The same cells in files of the former versions give the same log but for the lapses.
#[test]
fn former_versions_in_columns() {
    let random = &mut Random::of(SEED, 0);
    let rows: Vec<Row> = (0..48).map(|_| any_row(random)).collect();
    let without: Vec<Row> =
        rows.iter().map(|row| std::array::from_fn(|byte| if byte < 9 { row[byte] } else { 0 })).collect();
    for version in [1, 2] {
        let mut bytes = FRONT.to_vec();
        bytes[3] = version;
        rows.iter().for_each(|row| bytes.extend(&row[..9]));
        let log = log::read_file(&sealed(bytes)).expect("a log's file");
        assert_eq!(log.image, image_of(&FRONT, &without));
        assert_eq!(log::write_file(&log.image), Ok(file_of(&FRONT, &without)));
    }
}
