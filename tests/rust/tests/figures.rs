//! Day figures kept beside the log (02, CR 8): those of fresh and read logs, how a reply moves them and what it leaves, the order in which
//! figures that are too few and figures that are wrong are refused, and a report that reads no cell.

#[path = "compare/by_hand.rs"]
#[allow(dead_code)]
mod by_hand;

use by_hand::{put, CELL_BYTES, HEADER_BYTES};
use metlazuel_check::model::crc::sealed;
use metlazuel_check::model::log::{self, Ask, Cell, Figures, Header, Log};
use metlazuel_check::model::refusal::Refusal::{self, *};
use metlazuel_check::model::{count_bytes, slots};

const MAY: Header = Header { year: 24, month: 5, day: 17, days: 3, minutes: 30, ke: 100, seasons: 1 };
/// The October day of 2024, whose slots 4 and 5 are counted twice.
const OCTOBER: Header = Header { month: 10, day: 27, days: 1, ..MAY };
const MARCH: Header = Header { month: 3, day: 30, ..MAY };
const ASKED: Ask = Ask { address: 1, day: 1, slot: 7 };
const COUNTS: [u16; 4] = [12, 0, 3, 65_535];
const MOST: u32 = u32::MAX;

fn fresh(header: Header) -> Log {
    log::fresh(header).expect("a header in its ranges")
}

fn reply(counts: [u16; 4]) -> Vec<u8> {
    sealed([&[1, 3, 36, 0][..], &count_bytes(counts)].concat())
}

fn row_of(cell: Cell) -> [u8; CELL_BYTES] {
    let (kind, counts) = match cell {
        Cell::Gap => (0, [0; 4]),
        Cell::Empty => (1, [0; 4]),
        Cell::Measured(counts) => (2, counts),
    };
    let mut row = [kind; CELL_BYTES];
    row[1..9].copy_from_slice(&count_bytes(counts));
    row[9] = 0;
    row
}

/// Which cell of half hours it is.
fn cell_of(ask: Ask) -> usize {
    48 * usize::from(ask.day) + usize::from(ask.slot)
}

/// A log of half hours with one cell put in by hand, and the figures of the walk.
fn log_with(header: Header, ask: Ask, cell: Cell) -> Log {
    let mut image = fresh(header).image;
    put(&mut image, cell_of(ask), row_of(cell));
    let figures = log::walk_all(&image).expect("a sound log");
    Log { image, figures }
}

/// A reply taken with the ask open; gives the answer and whether the ask is closed by it.
fn take(log: &mut Log, ask: Ask, reply: &[u8]) -> (Result<(), Refusal>, bool) {
    let mut open = Some(ask);
    let answer = log::take(&mut log.image, &mut log.figures, &mut open, reply);
    assert!(open.is_none() || open == Some(ask));
    (answer, open.is_none())
}

/// A refused reply that changes nothing at all.
fn refused(log: &Log, ask: Ask, reply: &[u8], refusal: Refusal) {
    let mut lent = log.clone();
    assert_eq!(take(&mut lent, ask, reply), (Err(refusal), false));
    assert_eq!(lent, *log);
}

/// Eight numbers a day, day after day: the gaps are the slots that exist.
#[test]
fn figures_of_fresh_logs() {
    assert_eq!(fresh(MAY).figures, [48, 0, 0, 0, 0, 0, 0, 0].repeat(3));
    let march = [[48, 0, 0, 0, 0, 0, 0, 0], [46, 0, 0, 0, 0, 0, 0, 0], [48, 0, 0, 0, 0, 0, 0, 0]];
    assert_eq!(fresh(MARCH).figures, march.concat());
    assert_eq!(fresh(Header { seasons: 0, ..MARCH }).figures, [48, 0, 0, 0, 0, 0, 0, 0].repeat(3));
    let quarters = fresh(Header { days: 62, minutes: 15, ..MARCH }).figures;
    assert_eq!(quarters.len(), 496);
    assert_eq!(quarters[..24], [96, 0, 0, 0, 0, 0, 0, 0, 92, 0, 0, 0, 0, 0, 0, 0, 96, 0, 0, 0, 0, 0, 0, 0]);
    assert!(quarters.chunks_exact(8).skip(2).all(|day| *day == [96, 0, 0, 0, 0, 0, 0, 0]));
}

/// All fresh logs about the season days are those of the walk.
#[test]
fn fresh_logs_are_the_walks() {
    for (year, month) in (0..100).flat_map(|year| [(year, 3), (year, 10)]) {
        for (minutes, seasons) in [(15, 0), (15, 1), (30, 0), (30, 1)] {
            let log = fresh(Header { year, month, day: 22, days: 10, minutes, ke: 1, seasons });
            assert_eq!(log::walk_all(&log.image), Ok(log.figures));
        }
    }
}

/// A file with each kind of cell on each day, put together byte by byte.
#[test]
fn figures_of_a_file() {
    let mut bytes = vec![0x47, 0x45, 0x4C, 3, 0, 24, 10, 26, 3, 30, 100, 0, 1, 0];
    let gap = [0; CELL_BYTES];
    let empty = [1, 0, 0, 0, 0, 0, 0, 0, 0, 9];
    let measured = [2, 255, 255, 1, 0, 0, 1, 16, 39, 255];
    // before the October day, on it and after it: slots 0 to 3 empty, 4 and 5 measured; on it 6 too, after it 3 as well
    for day in [
        [empty, empty, empty, empty, measured, measured, gap],
        [empty, empty, empty, empty, measured, measured, measured],
        [empty, empty, empty, measured, measured, measured, gap],
    ] {
        bytes.extend(day.concat());
        bytes.extend(gap.repeat(41));
    }
    let log = log::read_file(&sealed(bytes)).expect("a log's file");
    let days = [
        [42, 4, 2, 131_070, 2, 512, 20_000, 0],
        [41, 4, 3, 196_605, 3, 768, 30_000, 2],
        [42, 3, 3, 196_605, 3, 768, 30_000, 0],
    ];
    assert_eq!(log.figures, days.concat());
    for (day, figures) in (0..).zip(days) {
        assert_eq!(log::report(&log.image, &log.figures, day), Ok(figures));
    }
}

/// What each reply moves: from a gap, an empty or a measured cell, to what the reply makes of it.
#[test]
fn what_a_reply_moves() {
    let measured = Cell::Measured(COUNTS);
    let moves = [
        (Cell::Gap, [0; 4], Ok(()), [-1, 1, 0, 0, 0, 0, 0, 0]),
        (Cell::Gap, COUNTS, Ok(()), [-1, 0, 1, 12, 0, 3, 65_535, 0]),
        (Cell::Empty, [0; 4], Ok(()), [0; 8]),
        (Cell::Empty, COUNTS, Ok(()), [0, -1, 1, 12, 0, 3, 65_535, 0]),
        (measured, [0; 4], Ok(()), [0; 8]),
        (measured, COUNTS, Ok(()), [0; 8]),
        (measured, [13, 0, 3, 65_535], Err(OtherCounts), [0; 8]),
        (measured, [12, 0, 3, 0], Err(OtherCounts), [0; 8]),
    ];
    for (cell, counts, answer, by) in moves {
        for (header, ask) in [
            (MAY, ASKED),
            (MARCH, ASKED),
            (MARCH, Ask { day: 2, slot: 47, ..ASKED }),
            (OCTOBER, Ask { day: 0, slot: 6, ..ASKED }),
        ] {
            let before = log_with(header, ask, cell);
            let mut log = before.clone();
            log.figures.extend([5, MOST]);
            assert_eq!(take(&mut log, ask, &reply(counts)), (answer, true));
            assert_eq!(log.figures.split_off(before.figures.len()), [5, MOST], "more than the log needs");
            assert_eq!(log.figures, moved(&before.figures, ask.day, by));
            assert_eq!(log::walk_all(&log.image), Ok(log.figures));
        }
    }
}

/// The figures with those of one day moved by these numbers.
fn moved(figures: &[u32], day: u8, by: [i64; 8]) -> Vec<u32> {
    let mut figures = figures.to_vec();
    for (figure, by) in figures[8 * usize::from(day)..].iter_mut().zip(by) {
        *figure = u32::try_from(i64::from(*figure) + by).expect("a figure in its range");
    }
    figures
}

/// The October hour's measured cells are counted once more, as they are measured; its empty ones are not.
#[test]
fn the_doubled_hour() {
    for (slot, twice) in [(3, 0), (4, 1), (5, 1), (6, 0)] {
        let (mut log, ask) = (fresh(OCTOBER), Ask { day: 0, slot, ..ASKED });
        assert_eq!(take(&mut log, ask, &reply([0; 4])), (Ok(()), true));
        assert_eq!(log.figures, [47, 1, 0, 0, 0, 0, 0, 0]);
        assert_eq!(take(&mut log, ask, &reply(COUNTS)), (Ok(()), true));
        assert_eq!(log.figures, [47, 0, 1, 12, 0, 3, 65_535, twice]);
        assert_eq!(take(&mut log, ask, &reply(COUNTS)), (Ok(()), true));
        assert_eq!(log.figures, [47, 0, 1, 12, 0, 3, 65_535, twice]);
    }
}

/// A day's slots all filled with the largest counts, by zeros first.
#[test]
fn a_whole_day() {
    let header = Header { minutes: 15, ..OCTOBER };
    let mut log = fresh(header);
    for (round, counts) in [(1, [0; 4]), (2, [u16::MAX; 4]), (3, [0; 4])] {
        for slot in 0..slots(15) {
            assert_eq!(take(&mut log, Ask { day: 0, slot, ..ASKED }, &reply(counts)), (Ok(()), true));
            assert_eq!(log::walk_all(&log.image), Ok(log.figures.clone()));
        }
        let full = 96 * 65_535;
        assert_eq!(
            log.figures,
            if round == 1 { [0, 96, 0, 0, 0, 0, 0, 0] } else { [0, 0, 96, full, full, full, full, 4] }
        );
    }
}

/// Too few figures are 1, right after the log's header and length: before the ask, the interval, the reply and the cell.
#[test]
fn too_few_figures() {
    let mut faulty = fresh(MARCH);
    put(&mut faulty.image, cell_of(ASKED), [3; CELL_BYTES]);
    let missing = Ask { slot: 4, ..ASKED };
    for (few, ask, bytes) in
        (0..24).flat_map(|few| [(few, ASKED, reply(COUNTS)), (few, missing, vec![]), (few, ASKED, vec![])])
    {
        let mut log = faulty.clone();
        log.figures.truncate(few);
        refused(&log, ask, &bytes, OutputTooShort);
        assert_eq!(log::take(&mut log.image, &mut log.figures, &mut None, &bytes), Err(OutputTooShort));
        assert_eq!((0..=255).find(|&day| log::report(&log.image, &log.figures, day) != Err(OutputTooShort)), None);
        // a wrong header or length comes before them
        log.image.push(0);
        refused(&log, ask, &bytes, Unsound);
        assert_eq!(log::report(&log.image, &log.figures, 3), Err(Unsound));
    }
}

/// With figures enough: 20, 22, 50 to 54, 24, 28 for the cell, 25, and last 28 for a figure.
#[test]
fn the_order_of_a_replys_faults() {
    let impossible = [0, MOST, MOST, MOST, MOST, MOST, MOST, MOST].repeat(3);
    let wrong = |header, ask, cell| Log { figures: impossible.clone(), ..log_with(header, ask, cell) };
    let gap = wrong(MARCH, ASKED, Cell::Gap);
    let mut lent = gap.clone();
    assert_eq!(log::take(&mut lent.image, &mut lent.figures, &mut None, &reply(COUNTS)), Err(NoAsk));
    refused(&gap, Ask { slot: 4, ..ASKED }, &reply(COUNTS), NotInLog);
    refused(&gap, Ask { day: 3, ..ASKED }, &reply(COUNTS), NotInLog);
    refused(&gap, ASKED, &[], ReplyLength(0));
    refused(&gap, ASKED, &[0; 14], ReplyCrc);
    assert_eq!(take(&mut lent, ASKED, &sealed(vec![1, 0x83, 36, 2])), (Err(MeterRefused(2)), true));
    let measured = wrong(MARCH, ASKED, Cell::Measured(COUNTS));
    let mut other = measured.clone();
    assert_eq!(take(&mut other, ASKED, &reply([1; 4])), (Err(OtherCounts), true));
    assert_eq!((lent, other), (gap.clone(), measured));
    refused(&gap, ASKED, &reply(COUNTS), Unsound);
    refused(&gap, ASKED, &reply([0; 4]), Unsound);
    let mut faulty = gap;
    put(&mut faulty.image, cell_of(ASKED), [2, 0, 0, 0, 0, 0, 0, 0, 0, 0]);
    refused(&faulty, ASKED, &reply(COUNTS), Unsound);
}

/// Each figure alone at the edge over which a reply would move it: 28, nothing changed and the ask open; a step before it, done.
#[test]
fn a_figure_past_its_range() {
    let doubled = Ask { day: 0, slot: 5, ..ASKED };
    let edges: [(Cell, [u16; 4], usize, u32, u32); 12] = [
        (Cell::Gap, [0; 4], 0, 0, 1),
        (Cell::Gap, [0; 4], 1, MOST, MOST - 1),
        (Cell::Gap, COUNTS, 0, 0, 1),
        (Cell::Gap, COUNTS, 2, MOST, MOST - 1),
        (Cell::Gap, COUNTS, 3, MOST - 11, MOST - 12),
        (Cell::Gap, COUNTS, 5, MOST - 2, MOST - 3),
        (Cell::Gap, COUNTS, 6, MOST - 65_534, MOST - 65_535),
        (Cell::Gap, [0, 65_535, 0, 0], 4, MOST - 65_534, MOST - 65_535),
        (Cell::Gap, COUNTS, 7, MOST, MOST - 1),
        (Cell::Empty, COUNTS, 1, 0, 1),
        (Cell::Empty, COUNTS, 2, MOST, MOST - 1),
        (Cell::Empty, COUNTS, 7, MOST, MOST - 1),
    ];
    for (cell, counts, figure, past, within) in edges {
        let mut log = log_with(OCTOBER, doubled, cell);
        log.figures[figure] = past;
        refused(&log, doubled, &reply(counts), Unsound);
        log.figures[figure] = within;
        assert_eq!(take(&mut log, doubled, &reply(counts)), (Ok(()), true), "figure {figure}");
        assert_eq!(log.figures[figure], if past == 0 { 0 } else { MOST });
    }
}

/// What does not move is no matter: a figure moves by the net amount, other days and other kinds keep what they have.
#[test]
fn wrong_figures_that_stay() {
    let impossible = [MOST, 0, MOST, MOST, MOST, MOST, MOST, MOST];
    for (cell, counts) in [(Cell::Empty, [0; 4]), (Cell::Measured(COUNTS), [0; 4]), (Cell::Measured(COUNTS), COUNTS)] {
        stays(log_with(MAY, ASKED, cell), impossible.repeat(3), counts, impossible);
        stays(log_with(MAY, ASKED, cell), vec![0; 24], counts, [0; 8]);
    }
    // zeros to a gap move two figures, counts of 0 none of the sums, and outside the October hour nothing is doubled
    stays(
        log_with(MAY, ASKED, Cell::Gap),
        [1, 0, MOST, MOST, MOST, MOST, MOST, MOST].repeat(3),
        [0; 4],
        [0, 1, MOST, MOST, MOST, MOST, MOST, MOST],
    );
    stays(
        log_with(MAY, ASKED, Cell::Gap),
        [1, MOST, 0, 0, MOST, MOST, MOST, MOST].repeat(3),
        [7, 0, 0, 0],
        [0, MOST, 1, 7, MOST, MOST, MOST, MOST],
    );
    stays(
        log_with(MAY, ASKED, Cell::Empty),
        [0, 1, 0, MOST, 0, MOST, MOST, MOST].repeat(3),
        [0, 7, 0, 0],
        [0, 0, 1, MOST, 7, MOST, MOST, MOST],
    );
}

/// The reply is taken, with these figures of the ask's day after it and the others as they were.
fn stays(mut log: Log, figures: Vec<u32>, counts: [u16; 4], after: Figures) {
    log.figures = figures.clone();
    assert_eq!(take(&mut log, ASKED, &reply(counts)), (Ok(()), true));
    assert_eq!(log.figures, [&figures[..8], &after, &figures[16..]].concat());
}

/// The report copies what is lent, right or wrong, and reads no cell.
#[test]
fn the_report_reads_no_cell() {
    let mut log = fresh(MARCH);
    log.image[HEADER_BYTES..].fill(0xFF);
    log.figures = (1..=27).collect();
    for day in 0..3 {
        let from = 8 * u32::from(day) + 1;
        assert_eq!(log::report(&log.image, &log.figures, day), Ok(std::array::from_fn(|at| from + at as u32)));
        assert_eq!(log::walk(&log.image, day), Err(Unsound));
    }
    for day in 3..=255 {
        assert_eq!(log::report(&log.image, &log.figures, day), Err(NotInLog));
    }
    assert_eq!(log::report(&log.image, &log.figures[..23], 0), Err(OutputTooShort));
    assert_eq!(log::report(&log.image, &log.figures[..23], 3), Err(OutputTooShort), "before 22");
    assert_eq!(log::report(&log.image[1..], &[], 3), Err(Unsound), "before 1");
}

/// The file does not carry them: it has the header, the cells and the CRC, and what is read has them all the same.
#[test]
fn the_file_has_no_figures() {
    let ask = Ask { day: 0, slot: 4, ..ASKED };
    let right = log_with(OCTOBER, ask, Cell::Measured(COUNTS));
    let file = log::write_file(&right.image).expect("a sound log");
    assert_eq!(file.len(), 14 + 48 * 10 + 2);
    assert_eq!(log::read_file(&file), Ok(right));
}
