//! Read requests of both functions and the replies to them, right and damaged, for every parameter.

use crate::damage::{damaged, damaged_and_sealed};
use crate::frames::{PARAMETERS, SLICE};
use crate::library;
use crate::random::Random;
use crate::run::{same, same_bytes, Answer, Group};
use crate::sweep::{byte_changes, length_changes};
use crate::twin::{number, told_length, told_result};
use metlazuel_check::model::crc::sealed;
use metlazuel_check::model::reader::{Figures, Request, READ, READ_SHOWN};
use metlazuel_check::model::refusal::Refusal;

const DECODES: u64 = 3_000_000;
const REQUEST_BYTES: usize = 8;
const MOST_FIGURES: usize = 24;
/// What is lent before a call.
const LENT: u8 = 0xA5;
const LENT_FIGURE: u32 = 0xA5A5_A5A5;
const LENT_LENGTH: usize = usize::MAX;

/// Every parameter and detail, with offsets and tariffs in and out of their ranges.
#[test]
fn requests() {
    let mut group = Group::new("requests");
    for parameter in 0..=255 {
        let random = &mut Random::of(group.seed, u64::from(parameter));
        for (function, detail) in [READ, READ_SHOWN].iter().flat_map(|f| (0..=255).map(move |detail| (*f, detail))) {
            for (offset, tariff) in [(0, 0), (1, 1), (12, 31), (0, 1), (1, 0), (13, 1), (1, 32), (255, 255)] {
                let request = Request { address: random.byte(), function, parameter, offset, tariff, detail };
                let room = if random.one_in(8) { random.below(20) } else { REQUEST_BYTES };
                let answer = request_both(&request, room);
                group.call(u64::from(parameter), answer, || format!("{request:?} into {room}"));
            }
        }
    }
    group.end(&[0, 1, 27]);
}

/// The number and the whole output; 1 comes first.
fn request_both(request: &Request, room: usize) -> Answer {
    let outcome = if room < REQUEST_BYTES { Err(Refusal::OutputTooShort) } else { request.frame() };
    let mut out = vec![LENT; room];
    if let Ok(frame) = &outcome {
        out[..REQUEST_BYTES].copy_from_slice(frame);
    }
    let mut library_out = vec![LENT; room];
    let library_number = library::request(request, &mut library_out);
    same("number", number(&outcome), library_number)?;
    same_bytes("output", &out, &library_out)?;
    Ok(library_number)
}

#[test]
fn decodes() {
    let mut group = Group::new("decodes");
    for case in 0..DECODES {
        let random = &mut Random::of(group.seed, case);
        let request = any_request(random);
        let reply = any_reply(random, &request);
        let room = any_room(random, foretold(&request));
        let answer = decode_both(&request, &reply, room);
        group.call(case, answer, || format!("{request:?}, {reply:?} into {room}"));
    }
    group.end(&[0, 1, 24, 26, 27, 50, 51, 52, 53, 54]);
}

/// A right reply and a refusal to each kind of request, with each byte changed to each value and in every length.
#[test]
fn every_byte_of_right_replies() {
    let mut group = Group::new("every byte of right replies");
    let kinds = PARAMETERS.iter().map(|parameter| (READ, *parameter)).chain([(READ_SHOWN, SLICE), (READ_SHOWN, 21)]);
    for (case, (function, parameter)) in (0..).zip(kinds) {
        let random = &mut Random::of(group.seed, case);
        let [offset, tariff, detail] = right_fields(random, parameter);
        let request = Request { address: 7, function, parameter, offset, tariff, detail };
        let right = sealed([&[7, function, parameter, 0][..], &right_data(random, &request)].concat());
        let other =
            sealed([&[7, function ^ READ ^ READ_SHOWN, parameter, 0][..], &right_data(random, &request)].concat());
        let refusal = sealed(vec![7, 0x80 + function, parameter, 2]);
        for reply in [right, other, refusal] {
            decode_each(&mut group, case, &request, byte_changes(&reply).chain(length_changes(&reply)));
        }
    }
    group.end(&[0, 24, 26, 27, 50, 51, 52, 53, 54]);
}

fn decode_each(group: &mut Group, case: u64, request: &Request, replies: impl Iterator<Item = Vec<u8>>) {
    for reply in replies {
        let answer = decode_both(request, &reply, MOST_FIGURES);
        group.call(case, answer, || format!("{request:?}, {reply:?}"));
    }
}

/// The number, the count, the result, the length and the whole row. 1 comes first; a refusal leaves row and count, only a 24 stores the
/// result, and only a 50 the length received.
fn decode_both(request: &Request, reply: &[u8], room: usize) -> Answer {
    let outcome = if room < foretold(request) { Err(Refusal::OutputTooShort) } else { request.decode(reply) };
    let (mut row, mut count) = (vec![LENT_FIGURE; room], LENT_LENGTH);
    if let Ok(figures) = &outcome {
        let figures = numbers(figures);
        row[..figures.len()].copy_from_slice(&figures);
        count = figures.len();
    }
    let (mut library_row, mut library_count) = (vec![LENT_FIGURE; room], LENT_LENGTH);
    let (mut library_result, mut library_length) = (LENT, LENT_LENGTH);
    let lent = (&mut library_count, &mut library_result, &mut library_length);
    let library_number = library::decode(request, reply, &mut library_row, lent);
    same("number", number(&outcome), library_number)?;
    same("count", count, library_count)?;
    same("result", told_result(&outcome, LENT), library_result)?;
    same("length", told_length(&outcome, LENT_LENGTH), library_length)?;
    same("row", row, library_row)?;
    Ok(library_number)
}

/// The figures as include/metlazuel.h orders them.
fn numbers(figures: &Figures) -> Vec<u32> {
    match figures {
        Figures::Address(address) => vec![u32::from(*address)],
        Figures::Powers(powers) => powers.iter().map(|power| power.to_bits()).collect(),
        Figures::Telemetry { k, ke, reserve } => vec![*k, u32::from(*ke), u32::from(*reserve)],
        Figures::Date(bytes) => bytes.iter().rev().map(|byte| u32::from(*byte)).collect(),
        Figures::Mask([a, b, c, d, tariffs, directions]) => {
            vec![u32::from_le_bytes([*a, *b, *c, *d]), u32::from(*tariffs), u32::from(*directions)]
        }
        Figures::Slice(counts) => counts.iter().map(|count| u32::from(*count)).collect(),
        Figures::SliceShown(energies) => energies.to_vec(),
        Figures::SixSlices(rows) => rows.iter().flatten().map(|count| u32::from(*count)).collect(),
    }
}

/// How many figures a reply to this request has; a request out of range has none.
fn foretold(request: &Request) -> usize {
    match request.parameter {
        _ if request.frame().is_err() => 0,
        8 | 9 if request.detail == 0 => 4,
        8 | 9 | 21 => 1,
        24 | 35 => 3,
        36 => 4,
        40 => MOST_FIGURES,
        _ => 6,
    }
}

/// Just enough most often, else one short or any.
fn any_room(random: &mut Random, foretold: usize) -> usize {
    match random.below(8) {
        0 => random.below(30),
        1 => foretold.saturating_sub(1),
        _ => foretold,
    }
}

/// In its range most often.
fn any_request(random: &mut Random) -> Request {
    let function = random.pick(&[READ, READ, READ_SHOWN]);
    let parameter = match random.below(16) {
        0 => random.byte(),
        1..=12 if function == READ_SHOWN => SLICE,
        _ => random.pick(&PARAMETERS),
    };
    let mut fields = right_fields(random, parameter);
    if random.one_in(16) {
        fields[random.below(3)] = random.pick(&[0, 1, 12, 13, 31, 32, 90, 91, 95, 96, 255]);
    }
    let [offset, tariff, detail] = fields;
    Request { address: random.pick(&[0, 1, 7, 255]), function, parameter, offset, tariff, detail }
}

fn right_fields(random: &mut Random, parameter: u8) -> [u8; 3] {
    match parameter {
        8 | 9 => [0, 0, random.within(0, 3)],
        36 | 40 => [random.within(1, 12), random.within(1, 31), random.within(0, 90)],
        _ => [0; 3],
    }
}

/// Right for the request most often.
fn any_reply(random: &mut Random, request: &Request) -> Vec<u8> {
    let address = if random.one_in(16) { random.byte() } else { request.address };
    let function = if random.one_in(16) { request.function ^ READ ^ READ_SHOWN } else { request.function };
    let right = sealed([&[address, function, request.parameter, 0][..], &right_data(random, request)].concat());
    match random.below(12) {
        0 => sealed(vec![address, 0x80 + function, request.parameter, random.byte()]),
        1 => damaged(random, right),
        2 => damaged_and_sealed(random, &right),
        3 => {
            let length = if random.one_in(8) { random.below(1_000) } else { random.below(64) };
            random.bytes(length)
        }
        _ => right,
    }
}

/// As many bytes as the parameter has.
fn right_data(random: &mut Random, request: &Request) -> Vec<u8> {
    match request.parameter {
        _ if request.function == READ_SHOWN => (0..4).flat_map(|_| any_float(random)).collect(),
        8 | 9 if request.detail == 0 => (0..4).flat_map(|_| any_float(random)).collect(),
        8 | 9 => any_float(random).to_vec(),
        21 => random.bytes(1),
        24 | 36 => random.bytes(8),
        40 => random.bytes(48),
        _ => random.bytes(6),
    }
}

/// Any bits, or those of a float that stands apart.
fn any_float(random: &mut Random) -> [u8; 4] {
    let apart =
        [0.0, -0.0, 1.5, -1.0e6, f32::MAX, f32::MIN_POSITIVE, 1.0e-40, f32::INFINITY, f32::NEG_INFINITY, f32::NAN];
    let bits = if random.one_in(4) { random.pick(&apart).to_bits() } else { random.long() };
    bits.to_le_bytes()
}
