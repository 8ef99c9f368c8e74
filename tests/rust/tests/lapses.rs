//! Lapses counted (02, CR 7): the tenth byte of a file's cell, what a lapse tests and in which order, what keeps the byte, and the longest
//! log.

#[path = "compare/by_hand.rs"]
#[allow(dead_code)]
mod by_hand;

use by_hand::{Row, CELL_BYTES};
use metlazuel_check::model::count_bytes;
use metlazuel_check::model::crc::sealed;
use metlazuel_check::model::log::{self, Ask, Cell, Header};
use metlazuel_check::model::refusal::Refusal::{self, *};

const MAY: Header = Header { year: 24, month: 5, day: 17, days: 2, minutes: 30, ke: 100, seasons: 0 };
/// The March day of 2024, without slots 4 and 5.
const MARCH: Header = Header { month: 3, day: 31, days: 1, seasons: 1, ..MAY };
const FIRST: Ask = Ask { address: 1, day: 0, slot: 0 };
const LAST: Ask = Ask { address: 255, day: 1, slot: 47 };
const LAPSES_AT: usize = 9;

/// Its image; the figures of a day that lapses, which leave them, are not looked at here.
fn fresh(header: Header) -> Vec<u8> {
    log::fresh(header).expect("a header in its ranges").image
}

/// A cell of half hours.
fn put(image: &mut [u8], ask: Ask, cell: Row) {
    by_hand::put(image, 48 * usize::from(ask.day) + usize::from(ask.slot), cell);
}

fn reply(ask: Ask, counts: [u16; 4]) -> Vec<u8> {
    sealed([&[ask.address, 3, 36, 0][..], &count_bytes(counts)].concat())
}

/// An ask for the interval, and the reply to it.
fn answered(image: &mut [u8], ask: Ask, reply: &[u8]) -> Result<(), Refusal> {
    let (mut open, mut figures) = (None, log::walk_all(image).expect("a sound log"));
    assert!(log::ask(image, &mut open, ask).is_ok());
    log::take(image, &mut figures, &mut open, reply)
}

/// An ask for the interval that ends in a lapse.
fn lapsed(image: &mut [u8], ask: Ask) {
    let mut open = None;
    assert!(log::ask(image, &mut open, ask).is_ok());
    assert_eq!(log::lapse(image, &mut open), Ok(()));
    assert_eq!(open, None);
}

/// In a file the byte stands at its cell's end, in memory all of them stand behind the counts.
#[test]
fn where_the_byte_stands() {
    let mut image = fresh(MAY);
    assert_eq!(image.len(), 14 + 96 / 4 + 96 * 9);
    lapsed(&mut image, FIRST);
    lapsed(&mut image, LAST);
    lapsed(&mut image, LAST);
    let mut expected = vec![0x47, 0x45, 0x4C, 3, 0, 24, 5, 17, 2, 30, 100, 0, 0, 0];
    let mut file = expected.clone();
    expected.resize(14 + 24 + 96 * 8, 0);
    expected.push(1);
    expected.resize(14 + 24 + 96 * 8 + 95, 0);
    expected.push(2);
    assert_eq!(image, expected);
    file.extend([0, 0, 0, 0, 0, 0, 0, 0, 0, 1]);
    file.resize(14 + 95 * 10, 0);
    file.extend([0, 0, 0, 0, 0, 0, 0, 0, 0, 2]);
    assert_eq!(log::write_file(&image), Ok(sealed(file)));
}

/// With none open the answer is 0 over any log, even over one that is none, and nothing is counted.
#[test]
fn a_lapse_with_none_open() {
    let sound = fresh(MAY);
    let mut faulty = sound.clone();
    put(&mut faulty, FIRST, [3; CELL_BYTES]);
    for image in [vec![], vec![0xA5; 7], sound[..sound.len() - 1].to_vec(), vec![0; sound.len()], faulty, sound] {
        let (mut lent, mut open) = (image.clone(), None);
        assert_eq!(log::lapse(&mut lent, &mut open), Ok(()));
        assert_eq!((lent, open), (image, None));
    }
}

/// 28 for header and length, then 22, then 28 for the cell; nothing is changed and the ask stays.
#[test]
fn a_refused_lapse() {
    let sound = fresh(MARCH);
    let (missing, outside) = (Ask { slot: 4, ..FIRST }, Ask { day: 1, ..FIRST });
    let with = |at: usize, byte: u8| {
        let mut image = sound.clone();
        image[at] = byte;
        image
    };
    for log in [vec![], sound[..13].to_vec(), sound[..sound.len() - 1].to_vec(), [&sound[..], &[0]].concat()] {
        [FIRST, missing, outside].into_iter().for_each(|ask| refused(log.clone(), ask, Unsound));
    }
    for (at, byte) in [(0, b'g'), (3, 2), (3, 4), (4, 1), (6, 13), (8, 2), (9, 15), (12, 2), (13, 1)] {
        [FIRST, missing, outside].into_iter().for_each(|ask| refused(with(at, byte), ask, Unsound));
    }
    for ask in [missing, Ask { slot: 5, ..FIRST }, Ask { slot: 48, ..FIRST }, Ask { slot: 255, ..FIRST }, outside] {
        refused(sound.clone(), ask, NotInLog);
    }
    for no_cell in
        [[0, 1, 0, 0, 0, 0, 0, 0, 0, 0], [1, 0, 0, 0, 0, 0, 0, 0, 128, 5], [2, 0, 0, 0, 0, 0, 0, 0, 0, 255], [3; 10]]
    {
        let mut image = sound.clone();
        put(&mut image, FIRST, no_cell);
        refused(image.clone(), FIRST, Unsound);
        // 22 comes before the cell
        put(&mut image, missing, no_cell);
        refused(image.clone(), missing, NotInLog);
        // other cells are not read
        lapsed(&mut image, Ask { slot: 1, ..FIRST });
    }
}

fn refused(image: Vec<u8>, ask: Ask, refusal: Refusal) {
    let (mut lent, mut open) = (image.clone(), Some(ask));
    assert_eq!(log::lapse(&mut lent, &mut open), Err(refusal));
    assert_eq!((lent, open), (image, Some(ask)));
}

/// 0 to 255, staying at 255, for a gap, an empty and a measured cell: a lapse keeps their nine bytes.
#[test]
fn lapses_of_each_kind() {
    let kinds = [
        (Cell::Gap, [0, 0, 0, 0, 0, 0, 0, 0, 0, 0]),
        (Cell::Empty, [1, 0, 0, 0, 0, 0, 0, 0, 0, 0]),
        (Cell::Measured([12, 0, 3, 65_535]), [2, 12, 0, 0, 0, 3, 0, 255, 255, 0]),
    ];
    for ((cell, mut bytes), ask) in kinds.into_iter().flat_map(|kind| [(kind, FIRST), (kind, LAST)]) {
        let mut expected = fresh(MAY);
        put(&mut expected, ask, bytes);
        let mut image = expected.clone();
        for lapses in 1..=300_u16 {
            lapsed(&mut image, ask);
            bytes[LAPSES_AT] = lapses.min(255) as u8;
            put(&mut expected, ask, bytes);
            assert_eq!(image, expected);
            assert_eq!(log::cell(&image, ask.day, ask.slot), Ok(cell));
            assert_eq!(log::lapses(&image, ask.day, ask.slot), Ok(lapses.min(255) as u8));
        }
    }
}

/// Putting a cell keeps its lapses: zeros, counts, counts once more, zeros and other counts.
#[test]
fn replies_keep_the_lapses() {
    let replies = [
        ([0; 4], Ok(()), [1, 0, 0, 0, 0, 0, 0, 0, 0, 0]),
        ([12, 0, 3, 0], Ok(()), [2, 12, 0, 0, 0, 3, 0, 0, 0, 0]),
        ([12, 0, 3, 0], Ok(()), [2, 12, 0, 0, 0, 3, 0, 0, 0, 0]),
        ([0; 4], Ok(()), [2, 12, 0, 0, 0, 3, 0, 0, 0, 0]),
        ([13, 0, 3, 0], Err(OtherCounts), [2, 12, 0, 0, 0, 3, 0, 0, 0, 0]),
    ];
    for (lapses, ask) in [0, 1, 127, 254, 255].into_iter().flat_map(|lapses| [(lapses, FIRST), (lapses, LAST)]) {
        let mut image = fresh(MAY);
        put(&mut image, ask, [0, 0, 0, 0, 0, 0, 0, 0, 0, lapses]);
        for (counts, answer, mut cell) in replies {
            assert_eq!(answered(&mut image, ask, &reply(ask, counts)), answer);
            cell[LAPSES_AT] = lapses;
            let mut expected = fresh(MAY);
            put(&mut expected, ask, cell);
            assert_eq!(image, expected);
        }
    }
}

/// 24, 25 and malformed replies are no lapses; the lapse after a malformed one is.
#[test]
fn what_is_no_lapse() {
    let mut image = fresh(MAY);
    let before = image.clone();
    let (mut open, mut figures) = (None, [48, 0, 0, 0, 0, 0, 0, 0, 48, 0, 0, 0, 0, 0, 0, 0]);
    assert!(log::ask(&image, &mut open, FIRST).is_ok());
    let right = reply(FIRST, [12, 0, 3, 0]);
    for malformed in [vec![], right[..13].to_vec(), vec![0; 14], reply(LAST, [1; 4]), sealed(vec![1, 0x83, 35, 1])] {
        assert!(log::take(&mut image, &mut figures, &mut open, &malformed).is_err());
        assert_eq!((&image, open), (&before, Some(FIRST)));
    }
    assert_eq!(log::take(&mut image, &mut figures, &mut open, &sealed(vec![1, 0x83, 36, 4])), Err(MeterRefused(4)));
    assert_eq!(log::lapse(&mut image, &mut open), Ok(()), "none is open");
    assert_eq!(image, before);
    assert_eq!(answered(&mut image, FIRST, &right), Ok(()));
    assert_eq!(answered(&mut image, FIRST, &reply(FIRST, [13, 0, 3, 0])), Err(OtherCounts));
    assert_eq!(log::lapses(&image, 0, 0), Ok(0));
    assert!(log::ask(&image, &mut open, FIRST).is_ok());
    assert_eq!(log::take(&mut image, &mut figures, &mut open, &[]), Err(ReplyLength(0)));
    assert_eq!(log::lapse(&mut image, &mut open), Ok(()));
    assert_eq!(log::lapses(&image, 0, 0), Ok(1));
}

/// Lapses are no matter to the figures, the next gap and asks, and a gap with lapses is one.
#[test]
fn a_gap_stays_one() {
    let mut image = fresh(MAY);
    for _ in 0..3 {
        lapsed(&mut image, FIRST);
    }
    assert_eq!(log::walk(&image, 0), Ok([48, 0, 0, 0, 0, 0, 0, 0]));
    assert_eq!(log::next_gap(&image, 0, 0), Ok(Some(0)));
    assert_eq!(answered(&mut image, FIRST, &reply(FIRST, [0; 4])), Ok(()));
    assert_eq!(log::next_gap(&image, 0, 0), Ok(Some(1)));
    assert_eq!((log::cell(&image, 0, 0), log::lapses(&image, 0, 0)), (Ok(Cell::Empty), Ok(3)));
}

/// What the file held and the lapses since are added and cut at 255.
#[test]
fn lapses_go_on_from_the_file() {
    let mut image = fresh(MAY);
    for _ in 0..200 {
        lapsed(&mut image, LAST);
    }
    let file = log::write_file(&image).expect("a sound log");
    assert_eq!(file[file.len() - 12..file.len() - 2], [0, 0, 0, 0, 0, 0, 0, 0, 0, 200]);
    let mut read = log::read_file(&file).expect("a log's file").image;
    assert_eq!(read, image);
    for lapses in 201..=300_u16 {
        lapsed(&mut read, LAST);
        assert_eq!(log::lapses(&read, 1, 47), Ok(lapses.min(255) as u8));
    }
}

#[test]
fn the_longest_log() {
    let longest = Header { days: 62, minutes: 15, ..MAY };
    let mut image = fresh(longest);
    assert_eq!(image.len(), 55_070);
    let last = Ask { address: 0, day: 61, slot: 95 };
    lapsed(&mut image, last);
    assert_eq!(image[55_069], 1);
    let file = log::write_file(&image).expect("a sound log");
    assert_eq!(file.len(), 59_536);
    assert_eq!(log::read_file(&file).map(|log| log.image), Ok(image));
}
