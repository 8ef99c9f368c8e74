//! Frames one after another rather than at random, by the meter's own address and by address 0: every function with every parameter,
//! every length, and right frames with each byte changed to each other value.

use crate::dialogue::{call, new_twin};
use crate::frames::{CHANGED, PARAMETERS, SLICE};
use crate::random::Random;
use crate::run::Group;
use crate::twin::{Call, Twin};
use metlazuel_check::model::crc::sealed;
use metlazuel_check::model::meter::{Ratios, FACTORY_PASSWORD};

const FUNCTIONS: [u8; 6] = [3, 4, 16, 30, 31, 32];
const LONGEST_MESSAGE: usize = 66;
const LEVELS: u64 = 3;

/// A meter with some slices, shut (level 0) or open to auxiliary (1) or main (2).
fn meter(group: &mut Group, level: u64) -> Twin {
    let random = &mut Random::of(group.seed, level);
    let mut twin = new_twin(group, level, random);
    for number in 0..40 {
        call(group, level, &mut twin, &Call::Slice([5, 17, number], [random.word(); 4]));
    }
    call(group, level, &mut twin, &Call::Powers(8, [1.5_f32, -2.25, 1.0e6].map(f32::to_bits)));
    call(group, level, &mut twin, &Call::Ratios(Ratios { ki: 3, ku: 7 }));
    let unlock = [&[0, 31, 0, 2 - level.max(1) as u8][..], &FACTORY_PASSWORD].concat();
    if level > 0 {
        call(group, level, &mut twin, &frame_call(sealed(unlock)));
    }
    twin
}

fn frame_call(frame: Vec<u8>) -> Call {
    Call::Frame(frame, vec![0xA5; 64])
}

/// Each frame finds the same meter.
fn ask_each(group: &mut Group, level: u64, meter: &Twin, frames: impl Iterator<Item = Vec<u8>>) {
    let mut twin = meter.clone();
    for frame in frames {
        call(group, level, &mut twin, &frame_call(frame));
        if twin.kept != meter.kept || twin.store != meter.store {
            twin = meter.clone();
        }
    }
}

/// The meter's own address and address 0.
fn addresses(meter: &Twin) -> [u8; 2] {
    [meter.record.as_ref().expect("a record").address, 0]
}

fn all_bytes() -> impl Iterator<Item = u8> + Clone {
    0..=255
}

#[test]
fn every_function_and_parameter() {
    let mut group = Group::new("every function and parameter");
    for level in 0..LEVELS {
        let meter = meter(&mut group, level);
        for address in addresses(&meter) {
            let pairs = all_bytes().flat_map(|function| all_bytes().map(move |parameter| (function, parameter)));
            let frames = pairs.map(|(function, parameter)| sealed(vec![address, function, parameter, 0, 0, 0]));
            ask_each(&mut group, level, &meter, frames);
        }
    }
    group.end(&[0, 10, 11, 12, 13, 15]);
}

#[test]
fn every_length() {
    let mut group = Group::new("every length");
    for level in 0..LEVELS {
        let meter = meter(&mut group, level);
        for address in addresses(&meter) {
            let pairs = FUNCTIONS.iter().flat_map(|function| all_bytes().map(move |parameter| (*function, parameter)));
            let frames = pairs.flat_map(|(function, parameter)| {
                (0..LONGEST_MESSAGE).map(move |length| sealed(front(&[address, function, parameter], 2 + length)))
            });
            ask_each(&mut group, level, &meter, frames);
        }
    }
    group.end(&[0, 2, 11, 12, 13, 14, 15, 16]);
}

/// The first bytes, with zeros behind them where there are fewer.
fn front(bytes: &[u8], length: usize) -> Vec<u8> {
    let mut bytes = bytes.to_vec();
    bytes.resize(length, 0);
    bytes
}

#[test]
fn every_byte_of_right_frames() {
    let mut group = Group::new("every byte of right frames");
    for level in 0..LEVELS {
        let meter = meter(&mut group, level);
        for frame in right_frames(&meter) {
            ask_each(&mut group, level, &meter, byte_changes(&frame));
            ask_each(&mut group, level, &meter, length_changes(&frame));
        }
    }
    group.end(&[0, 2, 10, 11, 12, 13, 14, 15, 16]);
}

/// A right frame of each kind, by the meter's own address and by address 0.
fn right_frames(meter: &Twin) -> Vec<Vec<u8>> {
    let record = meter.record.as_ref().expect("a record");
    let password = FACTORY_PASSWORD;
    let mut commands = vec![vec![32, 0, 0]];
    commands.extend([0, 1].map(|level| [&[31, 0, level][..], &password].concat()));
    commands.extend([27, 28, 36].map(|parameter| vec![30, parameter, 0]));
    commands.extend(PARAMETERS.map(|parameter| read(3, parameter)));
    commands.extend([SLICE, 21].map(|parameter| read(4, parameter)));
    commands.extend(CHANGED.map(|parameter| change(parameter, record.telemetry.ke)));
    let by = |address: u8| commands.iter().map(move |command| sealed([&[address], &command[..]].concat()));
    addresses(meter).into_iter().flat_map(by).collect()
}

fn read(function: u8, parameter: u8) -> Vec<u8> {
    match parameter {
        36 | 40 => vec![function, parameter, 5, 17, 30],
        _ => vec![function, parameter, 0, 0, 0],
    }
}

fn change(parameter: u8, ke: u16) -> Vec<u8> {
    let k = (100_000_u32.div_ceil(u32::from(ke))).to_le_bytes();
    let (detail, data) = match parameter {
        21 => (0, vec![9]),
        24 => (0, [&k[..], &ke.to_le_bytes(), &[7, 8]].concat()),
        32 => (2, vec![58, 59, 2, 27, 10, 24]),
        37 => (1, vec![1, 2, 3, 4, 5, 6, 7, 8]),
        _ => (0, vec![0, 0, 3, 29, 2, 24]),
    };
    [&[16, parameter, detail][..], &data].concat()
}

/// Each byte with each value, under the old CRC and under a right one.
pub fn byte_changes(frame: &[u8]) -> impl Iterator<Item = Vec<u8>> + '_ {
    (0..frame.len()).flat_map(move |at| all_bytes().flat_map(move |byte| both_crcs(with_byte(frame, at, byte))))
}

fn with_byte(frame: &[u8], at: usize, byte: u8) -> Vec<u8> {
    let mut changed = frame.to_vec();
    changed[at] = byte;
    changed
}

/// The bytes as they are, and with the last two made a right CRC.
fn both_crcs(frame: Vec<u8>) -> [Vec<u8>; 2] {
    let right = sealed(frame[..frame.len().saturating_sub(2)].to_vec());
    [frame, right]
}

pub fn length_changes(frame: &[u8]) -> impl Iterator<Item = Vec<u8>> + '_ {
    (0..LONGEST_MESSAGE + 4).flat_map(move |length| both_crcs(front(frame, length)))
}
