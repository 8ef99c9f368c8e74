//! The Mercury 206: requests, replies right and damaged, and the bench's answers.

use crate::damage::{damaged, damaged_and_sealed};
use crate::library;
use crate::random::Random;
use crate::run::{same, same_bytes, Answer, Group};
use crate::twin::number;
use metlazuel_check::model::crc::sealed;
use metlazuel_check::model::mercury::{answer, decode, request, Figures, Reading};
use metlazuel_check::model::refusal::Refusal;

const CASES: u64 = 500_000;
const CODES: [u8; 3] = [0x27, 0x63, 0x81];
const REQUEST_BYTES: usize = 7;
const FRAME_BYTES: usize = 64;
/// What is lent before a call.
const LENT: u8 = 0xA5;
const LENT_FIGURE: u32 = 0xA5A5_A5A5;
const LENT_LENGTH: usize = usize::MAX;

/// Every command, to several addresses and into several rooms.
#[test]
fn mercury_requests() {
    let mut group = Group::new("Mercury requests");
    for command in 0..=255 {
        let random = &mut Random::of(group.seed, u64::from(command));
        for room in 0..20 {
            let address = any_address(random);
            let answer = request_both(address, command, room);
            group.call(u64::from(command), answer, || format!("{command} to {address} into {room}"));
        }
    }
    group.end(&[0, 1, 40]);
}

fn request_both(address: u32, command: u8, room: usize) -> Answer {
    let outcome = if room < REQUEST_BYTES { Err(Refusal::OutputTooShort) } else { request(address, command) };
    let mut out = vec![LENT; room];
    if let Ok(frame) = &outcome {
        out[..REQUEST_BYTES].copy_from_slice(frame);
    }
    let mut library_out = vec![LENT; room];
    let library_number = library::mercury_request(address, command, &mut library_out);
    same("number", number(&outcome), library_number)?;
    same_bytes("output", &out, &library_out)?;
    Ok(library_number)
}

#[test]
fn mercury_answers() {
    let mut group = Group::new("Mercury answers");
    for case in 0..CASES {
        let random = &mut Random::of(group.seed, case);
        let (address, figures) = (any_address(random), any_figures(random));
        let asked = any_request(random, address);
        let room = if random.one_in(8) { random.below(80) } else { FRAME_BYTES };
        let answer = answer_both(address, &figures, &asked, room);
        group.call(case, answer, || format!("{figures:?} of {address}, {asked:?} into {room}"));
    }
    group.end(&[0, 1, 27, 40]);
}

/// The number, the whole output and the length, which a refusal leaves.
fn answer_both(address: u32, figures: &Figures, asked: &[u8], room: usize) -> Answer {
    let mut out = vec![LENT; room];
    let (outcome, replied) = answer(address, figures, asked, &mut out);
    let length = if outcome.is_ok() { replied } else { LENT_LENGTH };
    let (mut library_out, mut library_length) = (vec![LENT; room], LENT_LENGTH);
    let library_number = library::mercury_answer(address, figures, asked, &mut library_out, &mut library_length);
    same("number", number(&outcome), library_number)?;
    same("length", length, library_length)?;
    same_bytes("output", &out, &library_out)?;
    Ok(library_number)
}

#[test]
fn mercury_decodes() {
    let mut group = Group::new("Mercury decodes");
    for case in 0..CASES {
        let random = &mut Random::of(group.seed, case);
        let (address, command) = (any_address(random), any_command(random));
        let reply = any_reply(random, address, command);
        let room = if random.one_in(8) { random.below(10) } else { foretold(command) };
        let answer = decode_both(address, command, &reply, room);
        group.call(case, answer, || format!("{command} to {address}, {reply:?} into {room}"));
    }
    group.end(&[0, 1, 40, 41]);
}

/// The number, the count and the whole row, which a refusal leaves; 1 comes first.
fn decode_both(address: u32, command: u8, reply: &[u8], room: usize) -> Answer {
    let outcome = if room < foretold(command) { Err(Refusal::OutputTooShort) } else { decode(address, command, reply) };
    let (mut row, mut count) = (vec![LENT_FIGURE; room], LENT_LENGTH);
    if let Ok(reading) = outcome {
        let figures = numbers(reading);
        row[..figures.len()].copy_from_slice(&figures);
        count = figures.len();
    }
    let (mut library_row, mut library_count) = (vec![LENT_FIGURE; room], LENT_LENGTH);
    let library_number = library::mercury_decode(address, command, reply, &mut library_row, &mut library_count);
    same("number", number(&outcome), library_number)?;
    same("count", count, library_count)?;
    same("row", row, library_row)?;
    Ok(library_number)
}

/// The figures as include/metlazuel.h orders them.
fn numbers(reading: Reading) -> Vec<u32> {
    match reading {
        Reading::Tariffs(tariffs) => tariffs.to_vec(),
        Reading::Instant { voltage, current, power } => vec![voltage.into(), current.into(), power],
        Reading::Frequency { frequency, rest } => {
            [u32::from(frequency)].into_iter().chain(rest.map(u32::from)).collect()
        }
    }
}

/// How many figures a reply has; a fourth command has none.
fn foretold(command: u8) -> usize {
    match command {
        0x27 => 4,
        0x63 => 3,
        0x81 => 8,
        _ => 0,
    }
}

fn any_address(random: &mut Random) -> u32 {
    if random.one_in(4) {
        random.pick(&[0, 1, 1_234, u32::MAX])
    } else {
        random.long()
    }
}

fn any_command(random: &mut Random) -> u8 {
    if random.one_in(16) {
        random.byte()
    } else {
        random.pick(&CODES)
    }
}

/// Within its digits most often, at a bound now and then, or any number that the call can be given.
fn any_figure(random: &mut Random, digits: u32, any: u32) -> u32 {
    let most = 10_u32.pow(digits);
    match random.below(64) {
        0 => any,
        1 => most,
        2..=8 => most - 1,
        9..=16 => 0,
        _ => random.long() % most,
    }
}

fn any_figures(random: &mut Random) -> Figures {
    let mut long = |digits| {
        let any = random.long();
        any_figure(random, digits, any)
    };
    let (tariffs, power) = (std::array::from_fn(|_| long(8)), long(6));
    let mut short = || {
        let any = u32::from(random.word());
        any_figure(random, 4, any) as u16
    };
    let (voltage, current, frequency) = (short(), short(), short());
    Figures { tariffs, voltage, current, power, frequency, rest: std::array::from_fn(|_| random.byte()) }
}

fn any_request(random: &mut Random, address: u32) -> Vec<u8> {
    let to = if random.one_in(8) { any_address(random) } else { address };
    let right = request(to, random.pick(&CODES)).expect("one of the three commands");
    match random.below(8) {
        0 => damaged(random, right),
        1 => damaged_and_sealed(random, &right),
        _ => right,
    }
}

/// Digits most often, right for address and command or damaged, or any bytes.
fn any_reply(random: &mut Random, address: u32, command: u8) -> Vec<u8> {
    let data = match command {
        0x27 => 16,
        0x63 => 7,
        _ => 9,
    };
    let digits: Vec<u8> = (0..data).map(|_| random.within(0, 9) * 16 + random.within(0, 9)).collect();
    let right = sealed([&address.to_be_bytes()[..], &[command], &digits].concat());
    match random.below(8) {
        0 => damaged(random, right),
        1 => damaged_and_sealed(random, &right),
        2 => {
            let length = random.below(64);
            random.bytes(length)
        }
        _ => right,
    }
}
