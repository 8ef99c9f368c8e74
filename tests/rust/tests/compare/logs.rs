//! Logs: their files read, their days reported, their cells and gaps looked up, sound and damaged, with the figures of their days right,
//! wrong or too few beside them. Half of the logs have a season day or begin near one.

use crate::by_hand::{cells_of, image_of, put, Row, CELL_BYTES, HEADER_BYTES};
use crate::damage::{change_byte, damaged, damaged_and_sealed};
use crate::library;
use crate::random::Random;
use crate::run::{same, same_bytes, same_numbers, Answer, Group};
use crate::twin::number;
use metlazuel_check::model::calendar::{date_of, day_number, last_sunday, month_length};
use metlazuel_check::model::crc::sealed;
use metlazuel_check::model::log::{self, cell, lapses, next_gap, read_file, report, walk, Cell, Header, Log, ROW};
use metlazuel_check::model::refusal::Refusal;
use metlazuel_check::model::{count_bytes, slots};

const FILES: u64 = 100_000;
const LOGS: u64 = 60_000;
const REPORTS_OF_A_LOG: usize = 6;
const CELLS_OF_A_LOG: usize = 12;
/// At least so many reports are of a March day that lacks an hour, and so many count slots twice.
const SEASON_REPORTS: u32 = 8_000;
/// The version of a log, and those before, of which there are files.
pub const VERSION: u8 = 3;
pub const FORMER_VERSIONS: [u8; 2] = [1, 2];
pub const FIRST_VERSION: u8 = 1;
/// About the hour from 02:00, for 15 and 30 minutes.
pub const ABOUT_THE_HOUR: (u8, u8) = (3, 12);
/// What C is told where a day has no gap.
const NO_GAP: u8 = 255;
/// A cell of a former version's file, which has no lapses.
const FORMER_CELL_BYTES: usize = 9;
/// The days of 2000 to 2099.
const DAYS: u32 = 36_525;
/// What is lent before a call.
const LENT: u8 = 0xA5;
const LENT_FIGURE: u32 = 0xA5A5_A5A5;

#[test]
fn files() {
    let mut group = Group::new("files");
    for case in 0..FILES {
        let random = &mut Random::of(group.seed, case);
        let file = any_file(random);
        let (image, figures) = read_file(&file).map_or((file.len(), ROW), |log| (log.image.len(), log.figures.len()));
        let (room, numbers) = (room(random, image), room(random, figures));
        let answer = read_both(&file, room, numbers);
        group.call(case, answer, || format!("{} bytes into {room} and {numbers}, from {:?}", file.len(), start(&file)));
    }
    group.end(&[0, 1, 30, 31, 32, 33, 34, 35]);
}

#[test]
fn reports() {
    let mut group = Group::new("day reports");
    let (mut shorter, mut doubled) = (0, 0);
    for case in 0..LOGS {
        let random = &mut Random::of(group.seed, case);
        let log = any_log(random);
        for _ in 0..REPORTS_OF_A_LOG {
            let (day, figures) = (any_day(random, &log), any_figures(random, &log));
            let row = if random.one_in(8) { random.below(ROW + 3) } else { ROW };
            let answer = report_both(&log, &figures, day, row);
            let lent = (log.len(), figures.len());
            group.call(case, answer, || format!("day {day} into {row} of {lent:?}, from {:?}", start(&log)));
            if let Ok(numbers) = walk(&log, day) {
                shorter += u32::from(numbers[..3].iter().sum::<u32>() < u32::from(slots(log[9])));
                doubled += u32::from(numbers[7] > 0);
            }
        }
    }
    assert!(shorter.min(doubled) >= SEASON_REPORTS, "reports of March days: {shorter}, of October days: {doubled}");
    group.end(&[0, 1, 22, 28]);
}

#[test]
fn cells() {
    let mut group = Group::new("cells and gaps");
    for case in 0..LOGS {
        let random = &mut Random::of(group.seed, case);
        let log = any_log(random);
        for _ in 0..CELLS_OF_A_LOG {
            let (day, slot) = (any_day(random, &log), any_slot(random));
            let call = || format!("day {day}, slot {slot} of {} bytes, from {:?}", log.len(), start(&log));
            group.call(case, cell_both(&log, day, slot), call);
            group.call(case, gap_both(&log, day, slot), call);
        }
    }
    group.end(&[0, 22, 28]);
}

pub fn start(bytes: &[u8]) -> &[u8] {
    &bytes[..bytes.len().min(64)]
}

pub fn read_both(file: &[u8], room: usize, numbers: usize) -> Answer {
    same_log(read_file(file), room, numbers, |out, figures, length| library::read_file(file, out, figures, length))
}

/// A new log of both, into so much room and so many numbers: the number, the length, the whole output and all figures. 1 comes last
/// here.
pub fn same_log(
    outcome: Result<Log, Refusal>,
    room: usize,
    numbers: usize,
    call: impl FnOnce(&mut [u8], &mut [u32], &mut usize) -> u8,
) -> Answer {
    let outcome = outcome.and_then(|log| fitting(log, room, numbers));
    let (mut out, mut figures, mut length) = (vec![LENT; room], vec![LENT_FIGURE; numbers], usize::MAX);
    if let Ok(log) = &outcome {
        out[..log.image.len()].copy_from_slice(&log.image);
        figures[..log.figures.len()].copy_from_slice(&log.figures);
        length = log.image.len();
    }
    let (mut library_out, mut library_figures, mut library_length) =
        (vec![LENT; room], vec![LENT_FIGURE; numbers], usize::MAX);
    let library_number = call(&mut library_out, &mut library_figures, &mut library_length);
    same("number", number(&outcome), library_number)?;
    same("length", length, library_length)?;
    same_bytes("output", &out, &library_out)?;
    same_numbers("figures", &figures, &library_figures)?;
    Ok(library_number)
}

fn fitting(log: Log, room: usize, numbers: usize) -> Result<Log, Refusal> {
    if room < log.image.len() || numbers < log.figures.len() {
        Err(Refusal::OutputTooShort)
    } else {
        Ok(log)
    }
}

/// The number and the whole row; 1 for the row comes first here.
pub fn report_both(log: &[u8], figures: &[u32], day: u8, room: usize) -> Answer {
    let outcome = if room < ROW { Err(Refusal::OutputTooShort) } else { report(log, figures, day) };
    let mut row = vec![LENT_FIGURE; room];
    if let Ok(numbers) = &outcome {
        row[..ROW].copy_from_slice(numbers);
    }
    let mut library_row = vec![LENT_FIGURE; room];
    let library_number = library::day_report(log, figures, day, &mut library_row);
    same("number", number(&outcome), library_number)?;
    same("row", row, library_row)?;
    Ok(library_number)
}

/// The number, the kind, the counts and the lapses; a refusal leaves all three.
pub fn cell_both(log: &[u8], day: u8, slot: u8) -> Answer {
    let outcome = cell(log, day, slot);
    let lent = (0xA5, [0xA5A5; 4], 0xA5);
    let lapses = lapses(log, day, slot).unwrap_or(lent.2);
    let expected = match outcome {
        Ok(Cell::Gap) => (0, [0; 4], lapses),
        Ok(Cell::Empty) => (1, [0; 4], lapses),
        Ok(Cell::Measured(counts)) => (2, counts, lapses),
        Err(_) => lent,
    };
    let mut library_cell = lent;
    let library_number = library::cell(log, day, slot, &mut library_cell);
    same("number", number(&outcome), library_number)?;
    same("kind, counts and lapses", expected, library_cell)?;
    Ok(library_number)
}

/// The number and the slot.
pub fn gap_both(log: &[u8], day: u8, from: u8) -> Answer {
    let outcome = next_gap(log, day, from);
    let slot = match outcome {
        Ok(found) => found.unwrap_or(NO_GAP),
        Err(_) => 0xA5,
    };
    let mut library_slot = 0xA5;
    let library_number = library::next_gap(log, day, from, &mut library_slot);
    same("number", number(&outcome), library_number)?;
    same("slot", slot, library_slot)?;
    Ok(library_number)
}

/// As many as are wanted, or fewer, or more.
pub fn room(random: &mut Random, wanted: usize) -> usize {
    match random.below(8) {
        0 => random.below(wanted + 1),
        1 => wanted.saturating_sub(1),
        2 => wanted + random.below(20),
        _ => wanted,
    }
}

/// The figures of a log's days by the walk, zeros for a day with a cell that is none; none for bytes that are no log.
pub fn walked(log: &[u8]) -> Vec<u32> {
    let days = log::header(log).map_or(0, |header| header.days);
    (0..days).flat_map(|day| walk(log, day).unwrap_or_default()).collect()
}

/// Those of the walk most often; else more, fewer, or with one that is wrong.
fn any_figures(random: &mut Random, log: &[u8]) -> Vec<u32> {
    let mut figures = walked(log);
    let numbers = room(random, figures.len());
    figures.resize_with(numbers, || random.long());
    if random.one_in(4) {
        spoil_figure(random, &mut figures);
    }
    figures
}

/// One of the figures near an end of its range, or any number.
pub fn spoil_figure(random: &mut Random, figures: &mut [u32]) {
    if !figures.is_empty() {
        let at = random.below(figures.len());
        figures[at] = match random.below(4) {
            0 => 0,
            1 => u32::MAX,
            2 => u32::MAX - u32::from(random.word() >> random.below(16)),
            _ => random.long(),
        };
    }
}

/// A day of the log most often, its season day if it has one; else one just past it or any.
fn any_day(random: &mut Random, log: &[u8]) -> u8 {
    let days = log.get(8).copied().unwrap_or(1).max(1);
    match random.below(8) {
        0 => days,
        1 => random.byte(),
        2..=4 => day_of_the_hour(random, log),
        _ => random.within(0, days - 1),
    }
}

/// The last Sunday of March or October that a log has; else any of its days.
pub fn day_of_the_hour(random: &mut Random, log: &[u8]) -> u8 {
    let days = log.get(8).copied().unwrap_or(1).max(1);
    let any = random.within(0, days - 1);
    let season_day = |header: Header| {
        (0..header.days).find(|&day| {
            let (year, month, date) = header.date(day);
            [3, 10].contains(&month) && date == last_sunday(year, month)
        })
    };
    log::header(log).ok().and_then(season_day).unwrap_or(any)
}

/// A slot of the day most often, some about the hour from 02:00, else one near its end or any.
fn any_slot(random: &mut Random) -> u8 {
    match random.below(8) {
        0 => random.byte(),
        1 => random.pick(&[46, 47, 48, 94, 95, 96]),
        2..=4 => about_the_hour(random),
        _ => random.within(0, 47),
    }
}

pub fn about_the_hour(random: &mut Random) -> u8 {
    let (first, last) = ABOUT_THE_HOUR;
    random.within(first, last)
}

fn any_file(random: &mut Random) -> Vec<u8> {
    let mut file = any_file_bytes(random);
    match random.below(8) {
        0 => damaged(random, sealed(file)),
        1 => damaged_and_sealed(random, &sealed(file)),
        2 => {
            put_faulty_cell(random, &mut file);
            sealed(file)
        }
        3 => file[..random.below(20).min(file.len())].to_vec(),
        // as long as a file of another version
        4 if random.one_in(4) => {
            file[3] = random.within(1, 3);
            sealed(file)
        }
        _ => sealed(file),
    }
}

pub fn any_log(random: &mut Random) -> Vec<u8> {
    let mut log = any_image(random);
    match random.below(8) {
        0 => damaged(random, log),
        1 => {
            change_byte(random, &mut log[..HEADER_BYTES]);
            log
        }
        2 => with_faulty_cell(random, log),
        3 if random.one_in(4) => {
            log[3] = random.pick(&FORMER_VERSIONS);
            log
        }
        // a file without its CRC is no log
        3 if random.one_in(4) => any_file_bytes(random),
        4 if random.one_in(2) => with_other_kinds(random, log),
        _ => log,
    }
}

/// The length of a file's cell, by its version.
fn cell_bytes(version: u8) -> usize {
    if version == VERSION {
        CELL_BYTES
    } else {
        FORMER_CELL_BYTES
    }
}

/// A file without its CRC gets a cell that may be none.
fn put_faulty_cell(random: &mut Random, file: &mut [u8]) {
    let cell_bytes = cell_bytes(file[3]);
    if let Some(number) = any_cell_number(random, (file.len() - HEADER_BYTES) / cell_bytes) {
        let cell = faulty_cell(random);
        file[HEADER_BYTES + cell_bytes * number..][..cell_bytes].copy_from_slice(&cell[..cell_bytes]);
    }
}

/// A log gets a cell that may be none.
pub fn with_faulty_cell(random: &mut Random, mut image: Vec<u8>) -> Vec<u8> {
    if let Some(number) = any_cell_number(random, cells_of(&image)) {
        let cell = faulty_cell(random);
        put(&mut image, number, cell);
    }
    image
}

/// The first cells of a log get other kinds, four by a byte.
pub fn with_other_kinds(random: &mut Random, mut image: Vec<u8>) -> Vec<u8> {
    let kinds = cells_of(&image).min(16) / 4;
    change_byte(random, &mut image[HEADER_BYTES..HEADER_BYTES + kinds]);
    image
}

/// The bytes of a sound log's file.
pub fn file_length(log: &[u8]) -> usize {
    HEADER_BYTES + CELL_BYTES * cells_of(log) + 2
}

/// Any cell, or one about the hour from 02:00 of the first day.
fn any_cell_number(random: &mut Random, cells: usize) -> Option<usize> {
    let number = if random.one_in(2) { usize::from(about_the_hour(random)) } else { random.below(cells.max(1)) };
    (number < cells).then_some(number)
}

/// Any kind with a count or none, and with lapses or none.
fn faulty_cell(random: &mut Random) -> Row {
    let mut cell = [0; CELL_BYTES];
    cell[0] = random.within(0, 3);
    cell[1..CELL_BYTES - 1].copy_from_slice(&any_counts(random));
    cell[CELL_BYTES - 1] = any_lapses(random);
    cell
}

fn any_counts(random: &mut Random) -> [u8; 8] {
    let mut counts = [0; 8];
    if random.one_in(2) {
        counts[random.below(8)] = 1 << random.below(8);
    }
    counts
}

/// None, few, as many as are counted and a few less, or any number.
fn any_lapses(random: &mut Random) -> u8 {
    match random.below(8) {
        0 => random.within(1, 3),
        1 | 2 => random.within(253, 255),
        3 => random.byte(),
        _ => 0,
    }
}

/// What a file has before its CRC: of a former version at times, and with a zero in the byte for seasons most often where it is the first.
pub fn any_file_bytes(random: &mut Random) -> Vec<u8> {
    let (mut front, rows) = front_and_rows(random);
    if random.one_in(3) {
        front[3] = random.pick(&FORMER_VERSIONS);
    }
    if front[3] == FIRST_VERSION && !random.one_in(8) {
        front[12] = 0;
    }
    file_bytes(&front, &rows)
}

/// A file without its CRC: the header, and the cells as its version has them.
pub fn file_bytes(front: &[u8], rows: &[Row]) -> Vec<u8> {
    let cell_bytes = cell_bytes(front[3]);
    let cells = rows.iter().flat_map(|row| &row[..cell_bytes]);
    front.iter().chain(cells).copied().collect()
}

/// A log, most often with a header in its ranges.
pub fn any_image(random: &mut Random) -> Vec<u8> {
    let (front, rows) = front_and_rows(random);
    image_of(&front, &rows)
}

/// A header of the present version, most often in its ranges, and cells. Where a slot does not exist there is a gap without lapses most
/// often.
fn front_and_rows(random: &mut Random) -> (Vec<u8>, Vec<Row>) {
    let mut header = right_header(random);
    if random.one_in(6) {
        spoil(random, &mut header);
    }
    let (empty, anything) = (random.one_in(4), random.one_in(6));
    let mut rows = vec![];
    for (day, slot) in (0..header.days).flat_map(|day| (0..slots(header.minutes)).map(move |slot| (day, slot))) {
        let cell = any_cell(random, empty);
        let missing = header.valid() && !header.holds(day, slot);
        rows.push(if missing && !anything { [0; CELL_BYTES] } else { cell });
    }
    (image_front(&header), rows)
}

/// The 14 bytes of a header, in its ranges or not.
pub fn image_front(header: &Header) -> Vec<u8> {
    let mut front = [&b"GEL"[..], &[VERSION, 0]].concat();
    front.extend([header.year, header.month, header.day, header.days, header.minutes]);
    front.extend(header.ke.to_le_bytes());
    front.extend([header.seasons, 0]);
    front
}

pub fn right_header(random: &mut Random) -> Header {
    let days = match random.below(200) {
        0 => 62,
        1 => random.within(1, 62),
        _ => random.within(1, 3),
    };
    let start = if random.one_in(2) { season_start(random, days) } else { any_start(random, days) };
    let (year, month, day) = date_of(start);
    let (minutes, seasons) = (random.pick(&[15, 30]), random.pick(&[0, 1, 1]));
    Header { year, month, day, days, minutes, ke: random.word().max(1), seasons }
}

/// A day from which the log ends by 2099-12-31, now and then just by it.
fn any_start(random: &mut Random, days: u8) -> u32 {
    let last_start = DAYS - u32::from(days);
    let late = random.one_in(8);
    last_start - random.below(if late { 3 } else { last_start as usize }) as u32
}

/// A day from which the log has a season day within, or at times just misses it or has the Sunday before it.
fn season_start(random: &mut Random, days: u8) -> u32 {
    let (year, month) = (random.within(0, 99), random.pick(&[3, 10]));
    let sunday = day_number(year, month, last_sunday(year, month));
    match random.below(16) {
        0 => sunday - u32::from(days),
        1 => sunday + 1,
        2 => sunday - 7,
        _ => sunday - random.below(days.into()) as u32,
    }
}

/// A field near its bounds or past them.
pub fn spoil(random: &mut Random, header: &mut Header) {
    match random.below(7) {
        0 => header.year = random.pick(&[0, 99, 100, 255]),
        1 => header.month = random.pick(&[0, 1, 2, 12, 13]),
        2 => header.day = random.within(0, 32),
        3 => header.days = random.pick(&[0, 62, 63, 64, 255]),
        4 => header.minutes = random.pick(&[0, 14, 16, 29, 31, 60]),
        5 => header.seasons = random.pick(&[2, 3, 128, 254, 255]),
        _ => header.ke = 0,
    }
    if random.one_in(8) {
        header.day = month_length(header.year, header.month) + random.within(0, 1);
    }
}

fn any_cell(random: &mut Random, empty: bool) -> Row {
    let mut cell = [0; CELL_BYTES];
    cell[CELL_BYTES - 1] = any_lapses(random);
    cell[0] = if empty { random.within(0, 1) } else { random.within(0, 2) };
    if cell[0] == 2 {
        let mut counts = std::array::from_fn(|_| random.word() >> random.below(16));
        counts[random.below(4)] |= 1;
        cell[1..CELL_BYTES - 1].copy_from_slice(&count_bytes(counts));
    }
    cell
}
