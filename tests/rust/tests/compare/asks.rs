//! Histories: asks, lapses and replies with any bytes, over logs that are fresh or read from a file; now and then other bytes stand in the
//! place of the log or of the open ask, or other numbers in that of the figures.

use crate::by_hand::HEADER_BYTES;
use crate::damage::{change_byte, damaged, damaged_and_sealed};
use crate::library;
use crate::logs::{
    about_the_hour, any_file_bytes, any_log, day_of_the_hour, file_length, report_both, right_header, room, same_log,
    spoil, spoil_figure, start, walked, with_faulty_cell, with_other_kinds,
};
use crate::random::Random;
use crate::run::{same, same_bytes, same_numbers, Answer, Group, Same};
use crate::twin::{number, told_length, told_result};
use metlazuel_check::model::count_bytes;
use metlazuel_check::model::crc::sealed;
use metlazuel_check::model::log::{self, read_file, Ask, Cell, Log, ROW};
use metlazuel_check::model::reader::{READ, READ_SHOWN};
use metlazuel_check::model::refusal::Refusal;

const FRESH: u64 = 200_000;
const FILES: u64 = 60_000;
const HISTORIES: u64 = 50_000;
const CALLS_OF_A_HISTORY: usize = 40;
const ASK_BYTES: usize = 4;
const REQUEST_BYTES: usize = 8;
const SLICE: u8 = 36;
/// What is lent before a call.
const LENT: u8 = 0xA5;
const LENT_LENGTH: usize = usize::MAX;
/// At least so many asks of the histories, with none open, are for a slot that does not exist.
const ASKS_FOR_NO_SLOT: u32 = 4_000;
/// At least so many lapses of the histories are of a cell that has 255 already.
const LAPSES_PAST_THE_MOST: u32 = 2_000;
/// At least so many replies of the histories are refused for a figure alone that would leave its range.
const WRONG_FIGURES: u32 = 1_000;

#[test]
fn fresh_logs() {
    let mut group = Group::new("fresh logs");
    for case in 0..FRESH {
        let random = &mut Random::of(group.seed, case);
        let mut header = right_header(random);
        if random.one_in(3) {
            spoil(random, &mut header);
        }
        let outcome = log::fresh(header);
        let (image, figures) = outcome.as_ref().map_or((14, ROW), |log| (log.image.len(), log.figures.len()));
        let (room, numbers) = (room(random, image), room(random, figures));
        let call =
            |out: &mut [u8], figures: &mut [u32], length: &mut usize| library::fresh(out, figures, &header, length);
        group.call(case, same_log(outcome, room, numbers, call), || format!("{header:?} into {room} and {numbers}"));
    }
    group.end(&[0, 1, 27]);
}

/// A file to write is tested 28 (header, length), 1, 28 (all cells).
#[test]
fn files_written() {
    let mut group = Group::new("files written");
    for case in 0..FILES {
        let random = &mut Random::of(group.seed, case);
        let log = any_log(random);
        let room = room(random, log::header(&log).map_or(log.len(), |_| file_length(&log)));
        group.call(case, write_both(&log, room), || format!("{} bytes into {room}, from {:?}", log.len(), start(&log)));
    }
    group.end(&[0, 1, 28]);
}

pub fn write_both(log: &[u8], room: usize) -> Answer {
    let short = log::header(log).is_ok() && room < file_length(log);
    let outcome = if short { Err(Refusal::OutputTooShort) } else { log::write_file(log) };
    same_output(&outcome, room, |out, length| library::write_file(log, out, length))
}

/// The number, the length and the whole output; a refusal leaves length and output.
fn same_output(
    outcome: &Result<Vec<u8>, Refusal>,
    room: usize,
    call: impl FnOnce(&mut [u8], &mut usize) -> u8,
) -> Answer {
    let (mut out, mut length) = (vec![LENT; room], usize::MAX);
    if let Ok(bytes) = outcome {
        out[..bytes.len()].copy_from_slice(bytes);
        length = bytes.len();
    }
    let (mut library_out, mut library_length) = (vec![LENT; room], usize::MAX);
    let library_number = call(&mut library_out, &mut library_length);
    same("number", number(outcome), library_number)?;
    same("length", length, library_length)?;
    same_bytes("output", &out, &library_out)?;
    Ok(library_number)
}

#[derive(Debug)]
pub enum Call {
    /// An ask, and the room of its output.
    Ask(Ask, usize),
    Lapse,
    Reply(Vec<u8>),
}

/// A log, its figures and the bytes of its open ask, as the model has them and as the library has them.
#[derive(Clone)]
pub struct Logs {
    log: Log,
    ask: Vec<u8>,
    library_log: Log,
    library_ask: Vec<u8>,
}

#[test]
fn histories() {
    let mut group = Group::new("histories of asks, lapses and replies");
    let (mut missing, mut cut, mut wrong) = (0, 0, 0);
    for case in 0..HISTORIES {
        let random = &mut Random::of(group.seed, case);
        let mut logs = begun(random);
        for _ in 0..CALLS_OF_A_HISTORY {
            let call = any_call(random, &logs);
            missing += u32::from(logs.meet_no_slot(&call));
            cut += u32::from(logs.meet_most_lapses(&call));
            if random.one_in(12) {
                let mut other = logs.with_other_bytes(random);
                wrong += u32::from(other.meet_wrong_figures(&call));
                compare(&mut group, case, &mut other, &call);
            } else {
                compare(&mut group, case, &mut logs, &call);
                logs.reported(&mut group, case, random);
            }
        }
    }
    assert!(missing >= ASKS_FOR_NO_SLOT, "asks for slots that do not exist: {missing}");
    assert!(cut >= LAPSES_PAST_THE_MOST, "lapses of cells that have 255: {cut}");
    assert!(wrong >= WRONG_FIGURES, "replies refused for a figure: {wrong}");
    group.end(&[0, 1, 20, 21, 22, 24, 25, 28, 50, 51, 52, 53, 54]);
}

pub fn compare(group: &mut Group, case: u64, logs: &mut Logs, call: &Call) {
    let before = logs.ask.clone();
    let answer = logs.call(call);
    group.call(case, answer, || format!("{call:?} with the ask {before:?} and the log {:?}", start(&logs.log.image)));
}

/// A fresh log, or one that the library read from a file.
fn begun(random: &mut Random) -> Logs {
    let (log, library_log) = if random.one_in(2) { fresh(random) } else { read(random) };
    Logs { log, ask: vec![0; ASK_BYTES], library_log, library_ask: vec![0; ASK_BYTES] }
}

fn fresh(random: &mut Random) -> (Log, Log) {
    let header = right_header(random);
    let log = log::fresh(header).expect("a header in its ranges");
    let mut library_log = lent_for(&log);
    library::fresh(&mut library_log.image, &mut library_log.figures, &header, &mut 0);
    (log, library_log)
}

fn read(random: &mut Random) -> (Log, Log) {
    loop {
        let file = sealed(any_file_bytes(random));
        if let Ok(log) = read_file(&file) {
            let mut library_log = lent_for(&log);
            library::read_file(&file, &mut library_log.image, &mut library_log.figures, &mut 0);
            return (log, library_log);
        }
    }
}

/// As much room as a log takes.
fn lent_for(log: &Log) -> Log {
    Log { image: vec![LENT; log.image.len()], figures: vec![LENT.into(); log.figures.len()] }
}

/// The open ask that four bytes stand for; nothing where they are none.
fn open_of(kept: &[u8]) -> Option<Option<Ask>> {
    match *kept {
        [0, _, _, _] => Some(None),
        [1, address, day, slot] => Some(Some(Ask { address, day, slot })),
        _ => None,
    }
}

fn bytes_of(open: Option<Ask>) -> Vec<u8> {
    match open {
        None => vec![0; ASK_BYTES],
        Some(Ask { address, day, slot }) => vec![1, address, day, slot],
    }
}

impl Logs {
    /// The same log for both, with the figures of the walk, and with an ask or none open.
    pub fn of(image: &[u8], open: Option<Ask>) -> Logs {
        Logs::both(Log { image: image.to_vec(), figures: walked(image) }, bytes_of(open))
    }

    fn both(log: Log, ask: Vec<u8>) -> Logs {
        Logs { log: log.clone(), ask: ask.clone(), library_log: log, library_ask: ask }
    }

    /// Whether a reply would be taken with right figures, and is refused for those that are lent.
    fn meet_wrong_figures(&self, call: &Call) -> bool {
        let Call::Reply(reply) = call else { return false };
        let with =
            |figures: Vec<u32>| Logs { log: Log { figures, ..self.log.clone() }, ..self.clone() }.model_take(reply);
        with(walked(&self.log.image)).is_ok() && with(self.log.figures.clone()) == Err(Refusal::Unsound)
    }

    /// Now and then a report of one of the days from the log and its figures as the calls left them.
    fn reported(&self, group: &mut Group, case: u64, random: &mut Random) {
        if random.one_in(4) {
            let Log { image, figures } = &self.log;
            let day = random.within(0, image[8]);
            let answer = report_both(image, figures, day, ROW);
            group.call(case, answer, || format!("the report of day {day}, from {:?}", start(image)));
        }
    }

    /// Whether an ask with none open has a cell in the log and no slot.
    fn meet_no_slot(&self, call: &Call) -> bool {
        match (call, log::header(&self.log.image)) {
            (Call::Ask(ask, _), Ok(header)) => {
                self.ask[0] == 0
                    && ask.day < header.days
                    && ask.slot < header.slots()
                    && !header.holds(ask.day, ask.slot)
            }
            _ => false,
        }
    }

    /// Whether a lapse is one of a cell that has as many as it counts.
    fn meet_most_lapses(&self, call: &Call) -> bool {
        match (call, open_of(&self.ask)) {
            (Call::Lapse, Some(Some(ask))) => log::lapses(&self.log.image, ask.day, ask.slot) == Ok(u8::MAX),
            _ => false,
        }
    }

    fn call(&mut self, call: &Call) -> Answer {
        match call {
            Call::Ask(ask, room) => self.ask(*ask, *room),
            Call::Lapse => self.lapse(),
            Call::Reply(reply) => self.take(reply),
        }
    }

    fn ask(&mut self, ask: Ask, room: usize) -> Answer {
        let outcome = self.model_ask(ask, room);
        let mut out = vec![LENT; room];
        if let Ok(frame) = &outcome {
            out[..frame.len()].copy_from_slice(frame);
            self.ask = bytes_of(Some(ask));
        }
        let mut library_out = vec![LENT; room];
        let library_number = library::ask(&self.library_log.image, &mut self.library_ask, ask, &mut library_out);
        same("number", number(&outcome), library_number)?;
        same_bytes("output", &out, &library_out)?;
        self.same_logs()?;
        Ok(library_number)
    }

    /// 1, and then bytes that are no ask: 28.
    fn model_ask(&self, ask: Ask, room: usize) -> Result<Vec<u8>, Refusal> {
        if room < REQUEST_BYTES {
            return Err(Refusal::OutputTooShort);
        }
        let mut open = open_of(&self.ask).ok_or(Refusal::Unsound)?;
        log::ask(&self.log.image, &mut open, ask)
    }

    fn lapse(&mut self) -> Answer {
        let outcome = self.model_lapse();
        let library_number = library::lapse(&mut self.library_log.image, &mut self.library_ask);
        same("number", number(&outcome), library_number)?;
        self.same_logs()?;
        Ok(library_number)
    }

    /// Bytes that are no ask are 28 over any log. The ask's bytes change only where one was open and is closed.
    fn model_lapse(&mut self) -> Result<(), Refusal> {
        let before = open_of(&self.ask).ok_or(Refusal::Unsound)?;
        let mut open = before;
        let outcome = log::lapse(&mut self.log.image, &mut open);
        if open != before {
            self.ask = bytes_of(open);
        }
        outcome
    }

    /// Only a 24 stores the result, and only a 50 the length received.
    fn take(&mut self, reply: &[u8]) -> Answer {
        let outcome = self.model_take(reply);
        let (mut library_result, mut library_length) = (LENT, LENT_LENGTH);
        let (Log { image, figures }, ask) = (&mut self.library_log, &mut self.library_ask);
        let library_number = library::take(image, figures, ask, reply, (&mut library_result, &mut library_length));
        same("number", number(&outcome), library_number)?;
        same("result", told_result(&outcome, LENT), library_result)?;
        same("length", told_length(&outcome, LENT_LENGTH), library_length)?;
        self.same_logs()?;
        Ok(library_number)
    }

    /// Bytes that are no ask are 28, before the figures. The ask's bytes change only where the reply closes it.
    fn model_take(&mut self, reply: &[u8]) -> Result<(), Refusal> {
        let before = open_of(&self.ask).ok_or(Refusal::Unsound)?;
        let mut open = before;
        let outcome = log::take(&mut self.log.image, &mut self.log.figures, &mut open, reply);
        if open != before {
            self.ask = bytes_of(open);
        }
        outcome
    }

    /// The whole log, all figures and the whole ask.
    fn same_logs(&self) -> Same {
        same_bytes("ask", &self.ask, &self.library_ask)?;
        same_bytes("log", &self.log.image, &self.library_log.image)?;
        same_numbers("figures", &self.log.figures, &self.library_log.figures)
    }

    /// The same for both, with a fault in the log, in the ask or in the figures.
    fn with_other_bytes(&self, random: &mut Random) -> Logs {
        let (Log { mut image, mut figures }, mut ask) = (self.log.clone(), self.ask.clone());
        match random.below(14) {
            0 => image = damaged(random, image),
            1 => change_byte(random, &mut image[..HEADER_BYTES]),
            2 => image = with_faulty_cell(random, image),
            3 => ask = damaged(random, ask),
            4 => ask = vec![1, 1, day_of_the_hour(random, &image), about_the_hour(random)],
            5 => ask = vec![random.within(0, 2), random.byte(), random.within(0, 63), random.within(0, 96)],
            6 => figures.truncate(random.below(figures.len())),
            7 => figures.extend([0, 1, u32::MAX]),
            8 => figures.fill(random.pick(&[0, u32::MAX])),
            // a fault in both: which is told first
            9 => {
                figures.pop();
                image = damaged(random, image);
            }
            10 | 11 => image = with_other_kinds(random, image),
            _ => (0..4).for_each(|_| spoil_figure(random, &mut figures)),
        }
        Logs::both(Log { image, figures }, ask)
    }
}

fn any_call(random: &mut Random, logs: &Logs) -> Call {
    match random.below(16) {
        0..=6 => Call::Ask(any_ask(random, &logs.log.image), room(random, REQUEST_BYTES)),
        7 | 8 => Call::Lapse,
        _ => Call::Reply(any_reply(random, logs)),
    }
}

/// One of a few intervals most often, so that replies meet; else one near the log's end or outside, or about the hour from 02:00.
fn any_ask(random: &mut Random, image: &[u8]) -> Ask {
    let (days, slots) = (image[8], if image[9] == 15 { 96 } else { 48 });
    let (day, slot) = match random.below(8) {
        0 => (random.pick(&[days - 1, days, 255]), random.pick(&[0, slots - 1, slots, 255])),
        1 => (random.within(0, days - 1), random.within(0, slots - 1)),
        2 | 3 => (day_of_the_hour(random, image), about_the_hour(random)),
        _ => (0, random.within(0, 1)),
    };
    Ask { address: random.pick(&[0, 1, 7, 255]), day, slot }
}

/// Right for the open ask most often.
fn any_reply(random: &mut Random, logs: &Logs) -> Vec<u8> {
    let open = open_of(&logs.ask).flatten().unwrap_or(Ask { address: 1, day: 0, slot: 0 });
    let address = if random.one_in(16) { random.byte() } else { open.address };
    let right = sealed([&[address, READ, SLICE, 0][..], &count_bytes(counts(random, logs, open))].concat());
    match random.below(13) {
        0 => sealed(vec![address, 0x80 + READ, SLICE, random.byte()]),
        4 => shown(random, address),
        1 => damaged(random, right),
        2 => damaged_and_sealed(random, &right),
        3 => {
            let length = if random.one_in(8) { random.below(1_000) } else { random.below(20) };
            random.bytes(length)
        }
        _ => right,
    }
}

/// A reply with function 4, which the log does not take: as the meter gives it, or as long as one with function 3.
fn shown(random: &mut Random, address: u8) -> Vec<u8> {
    let length = random.pick(&[0, 8, 16]);
    let function = if length == 0 { 0x80 + READ_SHOWN } else { READ_SHOWN };
    sealed([&[address, function, SLICE, u8::from(length == 0)][..], &random.bytes(length)].concat())
}

/// None, those of the interval's cell, a few, or any.
fn counts(random: &mut Random, logs: &Logs, open: Ask) -> [u16; 4] {
    let held = log::cell(&logs.log.image, open.day, open.slot);
    match (random.below(4), held) {
        (0, _) => [0; 4],
        (1, Ok(Cell::Measured(counts))) => counts,
        (2, _) => std::array::from_fn(|_| random.below(2) as u16),
        _ => std::array::from_fn(|_| random.word()),
    }
}
