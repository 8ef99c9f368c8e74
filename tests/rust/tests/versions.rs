//! Files of versions 1, 2 and 3 over the season days (02, CR 5 and CR 7), put together here byte by byte, with CRCs that another
//! program reckoned; request 9 leaves them as they are.

#[path = "compare/by_hand.rs"]
#[allow(dead_code)]
mod by_hand;

use by_hand::Row;
use metlazuel_check::model::log::{self, Ask, Cell, Log};
use metlazuel_check::model::refusal::Refusal::{self, *};
use metlazuel_check::model::slots;
use std::ops::Range;

const GAP: Row = [0; 10];
const EMPTY: Row = [1, 0, 0, 0, 0, 0, 0, 0, 0, 0];
const MEASURED: Row = [2, 12, 0, 0, 0, 3, 0, 0, 0, 0];
const MARCH: [u8; 2] = [3, 31];
const OCTOBER: [u8; 2] = [10, 27];
/// A cell's bytes in each version of the file.
const CELL_BYTES: [(u8, usize); 3] = [(1, 9), (2, 9), (3, 10)];

/// A file of one day of 2024 with Ke 100, without its CRC: all gaps but for these cells, of which the first two versions have no lapses.
fn day(version: u8, date: [u8; 2], minutes: u8, seasons: u8, cells: &[(u8, Row)]) -> Vec<u8> {
    let cell_bytes = if version == 3 { 10 } else { 9 };
    let mut bytes = front(version, date, minutes, seasons);
    rows(minutes, cells).iter().for_each(|cell| bytes.extend(&cell[..cell_bytes]));
    bytes
}

/// The log in memory of such a day.
fn image(date: [u8; 2], minutes: u8, seasons: u8, cells: &[(u8, Row)]) -> Vec<u8> {
    by_hand::image_of(&front(3, date, minutes, seasons), &rows(minutes, cells))
}

fn front(version: u8, [month, day]: [u8; 2], minutes: u8, seasons: u8) -> Vec<u8> {
    vec![0x47, 0x45, 0x4C, version, 0, 24, month, day, 1, minutes, 100, 0, seasons, 0]
}

fn rows(minutes: u8, cells: &[(u8, Row)]) -> Vec<Row> {
    let cell = |slot| cells.iter().find(|(at, _)| *at == slot).map_or(GAP, |(_, cell)| *cell);
    (0..slots(minutes)).map(cell).collect()
}

fn lapsed(cell: Row, lapses: u8) -> Row {
    let mut cell = cell;
    cell[9] = lapses;
    cell
}

/// The CRC-16 of the Modbus serial line, bit by bit, behind the bytes.
fn with_crc(mut bytes: Vec<u8>) -> Vec<u8> {
    let mut crc = 0xFFFF_u16;
    for byte in &bytes {
        crc ^= u16::from(*byte);
        for _ in 0..8 {
            crc = if crc & 1 == 1 { crc >> 1 ^ 0xA001 } else { crc >> 1 };
        }
    }
    bytes.extend([crc as u8, (crc >> 8) as u8]);
    bytes
}

fn with_these(mut bytes: Vec<u8>, crc: [u8; 2]) -> Vec<u8> {
    bytes.extend(crc);
    bytes
}

/// The slots from 02:00 up to 03:00.
fn hour(minutes: u8) -> Range<u8> {
    match minutes {
        15 => 8..12,
        _ => 4..6,
    }
}

/// The hour's first slot measured, its last one empty.
fn in_the_hour(minutes: u8) -> [(u8, Row); 2] {
    [(hour(minutes).start, MEASURED), (hour(minutes).end - 1, EMPTY)]
}

/// The slot before the hour measured, the one from 03:00 empty.
fn beside_the_hour(minutes: u8) -> [(u8, Row); 2] {
    [(hour(minutes).start - 1, MEASURED), (hour(minutes).end, EMPTY)]
}

/// These cells with 255 and 7 lapses, and a gap with one at midnight.
fn with_lapses([(first, measured), (second, empty)]: [(u8, Row); 2]) -> [(u8, Row); 3] {
    [(0, lapsed(GAP, 1)), (first, lapsed(measured, 255)), (second, lapsed(empty, 7))]
}

#[test]
fn the_crc() {
    assert_eq!(with_crc(vec![0x01, 0x66]), [0x01, 0x66, 0x80, 0x0A]);
    assert_eq!(with_crc(vec![1, 3, 0, 4, 0, 6]), [1, 3, 0, 4, 0, 6, 0x84, 0x09]);
}

/// Versions 1 and 2 without seasons are read as a log that follows none and has no lapses, and are written as version 3.
#[test]
fn former_versions_without_seasons() {
    let files = [
        (MARCH, 30, [[0x3F, 0xFC], [0x23, 0xCB], [0x5C, 0xC1]]),
        (OCTOBER, 30, [[0xD3, 0x42], [0xCF, 0x75], [0x32, 0xA8]]),
        (MARCH, 15, [[0x3D, 0x6D], [0x32, 0x58], [0x6A, 0x5B]]),
        (OCTOBER, 15, [[0xA4, 0x56], [0xAB, 0x63], [0x24, 0x88]]),
    ];
    for (date, minutes, crcs) in files {
        let cells = in_the_hour(minutes);
        let [first, second, third] =
            [1, 2, 3].map(|version| with_these(day(version, date, minutes, 0, &cells), crcs[usize::from(version) - 1]));
        for file in [&first, &second, &third] {
            let read = log::read_file(file).expect("a log's file");
            assert_eq!(read.image, image(date, minutes, 0, &cells));
            without_seasons(&read, minutes);
            assert_eq!(log::write_file(&read.image), Ok(third.clone()));
        }
    }
}

/// The hour's slots are there, on either day, and are counted as others are.
fn without_seasons(Log { image, figures }: &Log, minutes: u8) {
    let gaps = u32::from(slots(minutes)) - 2;
    assert_eq!(*figures, [gaps, 1, 1, 12, 0, 3, 0, 0]);
    assert_eq!(log::cell(image, 0, hour(minutes).start), Ok(Cell::Measured([12, 0, 3, 0])));
    assert_eq!(log::cell(image, 0, hour(minutes).end - 1), Ok(Cell::Empty));
    assert!((0..slots(minutes)).all(|slot| log::lapses(image, 0, slot) == Ok(0)));
}

/// Versions 2 and 3 that follow seasons: the March day has cells beside the hour alone, the October day in it too.
#[test]
fn seasons_and_lapses() {
    let files = [
        (MARCH, 30, beside_the_hour(30), [[0x79, 0x03], [0xF3, 0x71], [0xD3, 0x92]], [44, 1, 1, 12, 0, 3, 0, 0]),
        (OCTOBER, 30, in_the_hour(30), [[0xDA, 0x0D], [0x33, 0x15], [0xC2, 0xE2]], [46, 1, 1, 12, 0, 3, 0, 1]),
        (MARCH, 15, beside_the_hour(15), [[0xFB, 0x2D], [0xCC, 0x63], [0xF3, 0x74]], [90, 1, 1, 12, 0, 3, 0, 0]),
        (OCTOBER, 15, in_the_hour(15), [[0x68, 0x64], [0x75, 0x0C], [0x07, 0xCA]], [94, 1, 1, 12, 0, 3, 0, 1]),
    ];
    for (date, minutes, cells, [second, third, lapses], row) in files {
        let file = with_these(day(3, date, minutes, 1, &cells), third);
        let read = log::read_file(&with_these(day(2, date, minutes, 1, &cells), second)).expect("a file of version 2");
        assert_eq!(read, Log { image: image(date, minutes, 1, &cells), figures: row.to_vec() });
        assert_eq!(log::write_file(&read.image), Ok(file.clone()));
        assert_eq!(log::read_file(&file), Ok(read));
        lapses_of_a_file(date, minutes, with_lapses(cells), lapses, row);
    }
}

/// A file of version 3 with lapses: the cells and the figures are those without.
fn lapses_of_a_file(date: [u8; 2], minutes: u8, cells: [(u8, Row); 3], crc: [u8; 2], row: [u32; 8]) {
    let file = with_these(day(3, date, minutes, 1, &cells), crc);
    let Log { image: read, figures } = log::read_file(&file).expect("a file of version 3");
    assert_eq!(read, image(date, minutes, 1, &cells));
    assert_eq!(figures, row);
    assert_eq!(cells.map(|(slot, _)| log::lapses(&read, 0, slot)), [Ok(1), Ok(255), Ok(7)]);
    let kinds = [Cell::Gap, Cell::Measured([12, 0, 3, 0]), Cell::Empty];
    assert_eq!(cells.map(|(slot, _)| log::cell(&read, 0, slot)), kinds.map(Ok));
    assert_eq!(log::write_file(&read), Ok(file));
}

/// The header's last two bytes: in version 1 both 0, in versions 2 and 3 the first also 1; and other versions.
#[test]
fn header_bytes_of_the_versions() {
    for seasons in 0..=255 {
        let read = |version| log::read_file(&with_crc(day(version, MARCH, 30, seasons, &[]))).map(|_| ());
        assert_eq!(read(1), if seasons == 0 { Ok(()) } else { Err(FileHeader) });
        assert_eq!([2, 3].map(read), [if seasons <= 1 { Ok(()) } else { Err(FileHeader) }; 2]);
        assert_eq!([0, 4, 255].map(read), [Err(FileVersion); 3]);
    }
    for (version, last) in [1, 2, 3].into_iter().flat_map(|version| (1..=255).map(move |last| (version, last))) {
        let mut bytes = day(version, MARCH, 30, 0, &[]);
        bytes[13] = last;
        assert_eq!(log::read_file(&with_crc(bytes)), Err(FileHeader));
    }
    for version in [0x0100, 0x0101, 0x0102, 0x0103, 0x0201, 0x0202, 0x0300, 0x0303, 0xFF01, 0xFF02, 0xFF03_u16] {
        let mut bytes = day(1, MARCH, 30, 0, &[]);
        bytes[3..5].copy_from_slice(&version.to_le_bytes());
        assert_eq!(log::read_file(&with_crc(bytes)), Err(FileVersion));
    }
}

/// Under 5 bytes 30, under 14 bytes 32, for each version; 33, 34 and 35 come after the header.
#[test]
fn the_order_of_a_files_faults() {
    for (version, cell_bytes) in CELL_BYTES {
        let whole = 14 + 48 * cell_bytes + 2;
        let file = with_crc(day(version, MARCH, 30, 0, &[(0, [3; 10])]));
        let read = |length: usize| log::read_file(&file[..length]);
        assert_eq!([0, 3, 4].map(read), [(); 3].map(|()| Err(FileMark)));
        assert_eq!([5, 12, 13].map(read), [(); 3].map(|()| Err(FileHeader)));
        assert_eq!([14, whole - 2, whole - 1].map(read), [(); 3].map(|()| Err(FileLength)));
        assert_eq!(read(whole), Err(FileCell));
        let mut other = file.clone();
        other[whole - 1] ^= 1;
        assert_eq!(log::read_file(&other), Err(FileCrc));
        other[12] = 2;
        assert_eq!(log::read_file(&other), Err(FileHeader));
        other[3] = 9;
        assert_eq!(log::read_file(&other), Err(FileVersion));
    }
}

/// 33 goes by the version's cell: a file of one version under the number of another is none, though its CRC is right, and so is one of
/// any other length.
#[test]
fn the_length_is_the_versions_own() {
    for (version, cell_bytes) in CELL_BYTES {
        for minutes in [15, 30] {
            let whole = 14 + usize::from(slots(minutes)) * cell_bytes;
            for length in 14..14 + usize::from(slots(minutes)) * 11 {
                let mut bytes = day(version, MARCH, minutes, 0, &[]);
                bytes.resize(length, 0);
                let read = log::read_file(&with_crc(bytes)).map(|_| ());
                assert_eq!(read, if length == whole { Ok(()) } else { Err(FileLength) });
            }
        }
    }
}

/// 35 for each cell of the missing hour that is none, no gap or has lapses, 28 where it is written out; not so without seasons, where a
/// cell only has to be one.
#[test]
fn the_missing_hour_of_a_file() {
    let sound = [GAP, EMPTY, MEASURED, lapsed(GAP, 1), lapsed(GAP, 255), lapsed(EMPTY, 3), lapsed(MEASURED, 128)];
    let no_cells =
        [[0, 1, 0, 0, 0, 0, 0, 0, 0, 0], [1, 0, 0, 0, 0, 0, 0, 0, 1, 9], [2, 0, 0, 0, 0, 0, 0, 0, 0, 0], [3; 10]];
    let cells = sound.map(|cell| (cell, true)).into_iter().chain(no_cells.map(|cell| (cell, false)));
    for (cell, sound) in cells {
        for (minutes, slot) in [15, 30].into_iter().flat_map(|minutes| hour(minutes).map(move |slot| (minutes, slot))) {
            let read = |version, date, seasons| {
                log::read_file(&with_crc(day(version, date, minutes, seasons, &[(slot, cell)]))).map(|_| ())
            };
            let both = |date, seasons| {
                let written = log::write_file(&image(date, minutes, seasons, &[(slot, cell)])).map(|_| ());
                (read(3, date, seasons), written)
            };
            let fine = |fine: bool| if fine { (Ok(()), Ok(())) } else { (Err(FileCell), Err(Unsound)) };
            assert_eq!(both(MARCH, 1), fine(cell == GAP));
            assert_eq!(both(MARCH, 0), fine(sound));
            assert_eq!(both(OCTOBER, 1), fine(sound));
            // of the former versions, which hold no lapses
            assert_eq!(read(2, MARCH, 1), fine(cell[..9] == GAP[..9]).0);
            assert_eq!(read(2, OCTOBER, 1), fine(sound).0);
            assert_eq!([1, 2].map(|version| read(version, MARCH, 0)), [fine(sound).0; 2]);
        }
    }
}

/// A lent log of a former version, of its own length or of the present one, is 28 for every call and stays as it is; so is a file's
/// header and cells, of whatever version.
#[test]
fn a_lent_image_of_a_former_version() {
    for (date, minutes) in [(MARCH, 30), (OCTOBER, 30), (MARCH, 15), (OCTOBER, 15)] {
        let cells = in_the_hour(minutes);
        for version in [1, 2] {
            let mut renamed = image(date, minutes, 0, &cells);
            renamed[3] = version;
            refused(renamed);
            refused(day(version, date, minutes, 0, &cells));
        }
        refused(day(2, date, minutes, 1, &beside_the_hour(minutes)));
        refused(day(3, date, minutes, 0, &cells));
    }
}

fn refused(mut image: Vec<u8>) {
    let before = image.clone();
    let ask = Ask { address: 1, day: 0, slot: 0 };
    assert_eq!(log::header(&image), Err(Unsound));
    assert_eq!(log::ask(&image, &mut None, ask), Err(Unsound));
    assert_eq!(log::take(&mut image, &mut [0; 8], &mut Some(ask), &[]), Err::<(), Refusal>(Unsound));
    assert_eq!(log::lapse(&mut image, &mut Some(ask)), Err(Unsound));
    assert_eq!(log::lapse(&mut image, &mut None), Ok(()));
    assert_eq!(log::cell(&image, 0, 0), Err(Unsound));
    assert_eq!(log::lapses(&image, 0, 0), Err(Unsound));
    assert_eq!(log::next_gap(&image, 0, 0), Err(Unsound));
    assert_eq!(log::report(&image, &[0; 8], 0), Err(Unsound));
    assert_eq!(log::write_file(&image), Err(Unsound));
    assert_eq!(image, before);
}
