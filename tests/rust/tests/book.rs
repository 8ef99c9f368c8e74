//! Demand 3 of the model: histories of asks, lapses and replies of any bytes, given to the log's calls and to the plain book. Every
//! answer, the ask left open, the log's bytes and its days' figures are those of the book, the figures are also those of a walk over the
//! cells, and no call alters another cell than the one whose ask was open before it, a bit of those that hold another one, or a figure
//! of another day. Half of the logs begin about a season day, and those read from a file have cells with some 250 lapses.

#[path = "compare/by_hand.rs"]
#[allow(dead_code)]
mod by_hand;
#[path = "compare/damage.rs"]
#[allow(dead_code)]
mod damage;
#[path = "compare/random.rs"]
#[allow(dead_code)]
mod random;

use by_hand::{put, rows_of, CELL_BYTES, HEADER_BYTES};
use damage::{damaged, damaged_and_sealed};
use metlazuel_check::model::book::Book;
use metlazuel_check::model::calendar::{date_of, last_sunday};
use metlazuel_check::model::crc::sealed;
use metlazuel_check::model::log::{self, Ask, Cell, Header, Log, ROW};
use metlazuel_check::model::reader::{READ, READ_SHOWN};
use metlazuel_check::model::refusal::Refusal;
use metlazuel_check::model::{count_bytes, slots};
use random::Random;
use std::collections::BTreeSet;

const HISTORIES: u64 = 2_000;
const CALLS: usize = 60;
const CRC_BYTES: usize = 2;
/// Numbers behind the figures, which no call may touch.
const PAST_THE_FIGURES: [u32; 3] = [0, 7, u32::MAX];
const SLICE: u8 = 36;
const SEED: u64 = 2;

/// What the histories led to.
#[derive(Default)]
struct Seen {
    numbers: BTreeSet<u8>,
    /// Asks that got 22 though the log has a cell for them.
    missing: u32,
    /// Lapses of an open ask, and those of a cell that had 255 already.
    lapses: u32,
    cut: u32,
}

#[test]
fn every_history_is_the_books() {
    let mut seen = Seen::default();
    for case in 0..HISTORIES {
        let random = &mut Random::of(SEED, case);
        let fresh = log::fresh(any_header(random)).expect("a header in its ranges");
        let first = history(random, fresh, &mut seen);
        let file = log::write_file(&first.image).expect("a sound log");
        assert_eq!(log::read_file(&file), Ok(first));
        let file = with_many_lapses(random, file);
        history(random, log::read_file(&file).expect("a log's file"), &mut seen);
    }
    let told = [0, 20, 21, 22, 24, 25, 50, 51, 52, 53, 54];
    assert_eq!(seen.numbers, BTreeSet::from(told), "the numbers that the histories led to");
    assert!(seen.missing >= 500, "{} asks for slots that do not exist", seen.missing);
    assert!(seen.lapses >= 10_000 && seen.cut >= 500, "{} lapses, {} past 255", seen.lapses, seen.cut);
}

/// The file with a number of lapses near 255 in its first two cells and in any third one that exists.
fn with_many_lapses(random: &mut Random, mut file: Vec<u8>) -> Vec<u8> {
    let header = log::header(&log::read_file(&file).expect("a log's file").image).expect("a sound log");
    file.truncate(file.len() - CRC_BYTES);
    let any = (random.within(0, header.days - 1), random.within(0, header.slots() - 1));
    for (day, slot) in [(0, 0), (0, 1), any].into_iter().filter(|&(day, slot)| header.holds(day, slot)) {
        file[HEADER_BYTES + CELL_BYTES * cell_of(&header, day, slot) + 9] = random.pick(&[0, 1, 250, 253, 254, 255]);
    }
    sealed(file)
}

/// Which of the log's cells an interval has.
fn cell_of(header: &Header, day: u8, slot: u8) -> usize {
    usize::from(day) * usize::from(header.slots()) + usize::from(slot)
}

/// A history from a log with no ask open; gives the log after it. Beside the log more figures are lent than it needs.
fn history(random: &mut Random, start: Log, seen: &mut Seen) -> Log {
    let header = log::header(&start.image).expect("a sound log");
    let mut book = Book::begin(header, |day, slot| cell_and_lapses(&start.image, day, slot));
    let (mut log, mut open) = (start.clone(), None);
    assert_eq!(log.figures, book.figures());
    log.figures.extend(PAST_THE_FIGURES);
    for _ in 0..CALLS {
        let (before, asked) = (log.clone(), open);
        let (ours, books) = call(random, &mut log, &mut open, &mut book, seen);
        assert_eq!(ours, books);
        assert_eq!(open, book.open());
        assert!(alone(&header, asked, before, &log), "after {asked:?}");
        assert_eq!(log.figures, [log::walk_all(&log.image).expect("a sound log"), PAST_THE_FIGURES.to_vec()].concat());
        seen.numbers.insert(ours.map_or_else(Refusal::number, |()| 0));
    }
    assert_eq!(log.image, [start.image[..HEADER_BYTES].to_vec(), book.columns()].concat());
    log.figures.truncate(start.figures.len());
    assert_eq!(log.figures, book.figures());
    log
}

/// Whether all but the cell whose ask was open and its day's figures is as it was.
fn alone(header: &Header, asked: Option<Ask>, mut before: Log, after: &Log) -> bool {
    if let Some(ask) = asked {
        let (cell, day) =
            (cell_of(header, ask.day, ask.slot), usize::from(ask.day) * ROW..usize::from(ask.day + 1) * ROW);
        put(&mut before.image, cell, rows_of(&after.image)[cell]);
        before.figures[day.clone()].copy_from_slice(&after.figures[day]);
    }
    before == *after
}

fn cell_and_lapses(image: &[u8], day: u8, slot: u8) -> (Cell, u8) {
    (log::cell(image, day, slot).expect("a sound cell"), log::lapses(image, day, slot).expect("a sound cell"))
}

type Answer = Result<(), Refusal>;

/// One call of each, and both answers.
fn call(
    random: &mut Random,
    log: &mut Log,
    open: &mut Option<Ask>,
    book: &mut Book,
    seen: &mut Seen,
) -> (Answer, Answer) {
    let Log { image, figures } = log;
    match random.below(16) {
        0..=6 => {
            let ask = any_ask(random, image);
            let ours = log::ask(image, open, ask).map(|_| ());
            let has_a_cell = ask.day < image[8] && ask.slot < slots(image[9]);
            seen.missing += u32::from(has_a_cell && ours == Err(Refusal::NotInLog));
            (ours, book.ask(ask))
        }
        7 | 8 => {
            seen.lapses += u32::from(open.is_some());
            seen.cut += u32::from(open.is_some_and(|ask| log::lapses(image, ask.day, ask.slot) == Ok(255)));
            let ours = log::lapse(image, open);
            book.lapse();
            (ours, Ok(()))
        }
        _ => {
            let reply = any_reply(random, *open);
            (log::take(image, figures, open, &reply), book.reply(&reply))
        }
    }
}

fn any_header(random: &mut Random) -> Header {
    let (year, month, day) = if random.one_in(2) { season_day(random) } else { date_of(random.below(36_500) as u32) };
    let (days, minutes) = (random.within(1, 3), random.pick(&[15, 30]));
    Header { year, month, day, days, minutes, ke: random.word().max(1), seasons: random.pick(&[0, 1, 1]) }
}

/// The last Sunday of March or October, or one of the two days before it.
fn season_day(random: &mut Random) -> (u8, u8, u8) {
    let (year, month) = (random.within(0, 99), random.pick(&[3, 3, 3, 10]));
    (year, month, last_sunday(year, month) - random.pick(&[0, 0, 0, 1, 2]))
}

/// One of two intervals most often, so that replies meet; else one about the hour from 02:00, or any.
fn any_ask(random: &mut Random, image: &[u8]) -> Ask {
    let days = image[8];
    let (day, slot) = match random.below(8) {
        0 => (random.within(0, days), random.within(0, 96)),
        1..=3 => (random.within(0, days - 1), random.within(3, 12)),
        _ => (0, random.within(0, 1)),
    };
    Ask { address: random.pick(&[0, 1, 255]), day, slot }
}

/// Right for the open ask most often.
fn any_reply(random: &mut Random, open: Option<Ask>) -> Vec<u8> {
    let address = open.map_or(1, |ask| ask.address);
    let counts = match random.below(3) {
        0 => [0; 4],
        1 => std::array::from_fn(|_| random.below(2) as u16),
        _ => std::array::from_fn(|_| random.word()),
    };
    let right = sealed([&[address, READ, SLICE, 0][..], &count_bytes(counts)].concat());
    match random.below(8) {
        0 => sealed(vec![address, 0x80 + READ, SLICE, random.byte()]),
        1 => damaged(random, right),
        2 => damaged_and_sealed(random, &right),
        // function 4, as the meter gives it and as long as one with function 3: the log takes neither
        3 => {
            let length = random.pick(&[8, 16]);
            sealed([&[address, READ_SHOWN, SLICE, 0][..], &random.bytes(length)].concat())
        }
        _ => right,
    }
}
