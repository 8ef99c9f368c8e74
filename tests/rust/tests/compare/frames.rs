//! Commands for a meter: right ones, and ones with a fault.

use crate::random::Random;
use crate::settings::any_telemetry;
use crate::times::{clock_time, season_date, spoiled};
use metlazuel_check::model::calendar::Moment;
use metlazuel_check::model::crc::sealed;
use metlazuel_check::model::meter::{Record, FACTORY_PASSWORD};
use metlazuel_check::model::reader::{READ, READ_SHOWN};
use metlazuel_check::model::slots;

pub const PARAMETERS: [u8; 11] = [8, 9, 21, 24, 27, 28, 32, 35, 36, 37, 40];
pub const CHANGED: [u8; 7] = [21, 24, 27, 28, 32, 35, 37];
pub const SLICE: u8 = 36;

/// Keys of slices: a few that repeat, or all that there are.
#[derive(Clone, Copy, Debug, PartialEq)]
pub enum Keys {
    Few,
    All,
}

/// A command for the record, without address and CRC: function and message.
pub fn command(random: &mut Random, record: &Record, keys: Keys) -> Vec<u8> {
    match random.below(20) {
        0..=4 => unlock(random, record),
        5 => lock(random),
        6..=10 => read(random, record, keys),
        11..=16 => change(random, record),
        17 | 18 => zero(random),
        _ => unknown(random),
    }
}

/// The frame of a command, by address 0 as often as by the record's own, and now and then by another.
pub fn addressed(random: &mut Random, record: &Record, command: &[u8]) -> Vec<u8> {
    let address = match random.below(33) {
        0..=15 => 0,
        16..=31 => record.address,
        _ => random.byte(),
    };
    sealed([&[address], command].concat())
}

/// Function 31: 0, level, password; most of them right.
fn unlock(random: &mut Random, record: &Record) -> Vec<u8> {
    let level = random.pick(&[0, 0, 0, 0, 1, 1, 1, 2, 255]);
    let mut password = if level == 1 { record.auxiliary_password } else { record.main_password };
    match random.below(10) {
        0 => password[random.below(8)] ^= 1 << random.below(8),
        1 => password = record.auxiliary_password,
        2 => password = FACTORY_PASSWORD,
        3 => password = std::array::from_fn(|_| random.byte()),
        _ => {}
    }
    let first = if random.one_in(16) { random.byte() } else { 0 };
    [&[31, first, level][..], &password].concat()
}

fn lock(random: &mut Random) -> Vec<u8> {
    vec![32, u8::from(random.one_in(8)), u8::from(random.one_in(8))]
}

/// Functions 3 and 4: parameter, offset, tariff, detail; function 4 with a slice most often.
pub fn read(random: &mut Random, record: &Record, keys: Keys) -> Vec<u8> {
    let function = random.pick(&[READ, READ, READ_SHOWN]);
    let parameter = if function == READ || random.one_in(4) { random.pick(&PARAMETERS) } else { SLICE };
    let mut fields = match parameter {
        8 | 9 => [0, 0, random.within(0, 4)],
        36 | 40 => key(random, record.minutes, keys),
        _ => [0; 3],
    };
    if random.one_in(8) {
        fields[random.below(3)] = random.byte();
    }
    [&[function, parameter][..], &fields].concat()
}

/// A key of a slice, now and then an illegal one.
pub fn key(random: &mut Random, minutes: u8, keys: Keys) -> [u8; 3] {
    let slots = slots(minutes);
    if random.one_in(16) {
        return [random.pick(&[0, 1, 2, 12, 13]), random.pick(&[0, 1, 30, 31, 32]), near_end(random, slots)];
    }
    match keys {
        Keys::Few => [random.within(1, 2), random.within(30, 31), random.within(slots - 10, slots - 1)],
        Keys::All => [random.within(1, 12), random.within(1, 31), random.within(0, slots - 1)],
    }
}

fn near_end(random: &mut Random, slots: u8) -> u8 {
    random.pick(&[0, slots - 7, slots - 6, slots - 5, slots - 1, slots, 255])
}

/// Function 16: parameter, detail, data.
fn change(random: &mut Random, record: &Record) -> Vec<u8> {
    let parameter = random.pick(&CHANGED);
    let mut detail = right_detail(random, parameter);
    if random.one_in(16) {
        detail = random.within(0, 3);
    }
    let data = data(random, record, parameter);
    [&[16, parameter, detail][..], &data].concat()
}

/// 2 for the clock, 0 or 1 for a password, else 0.
fn right_detail(random: &mut Random, parameter: u8) -> u8 {
    match parameter {
        32 => 2,
        37 => random.within(0, 1),
        _ => 0,
    }
}

fn data(random: &mut Random, record: &Record, parameter: u8) -> Vec<u8> {
    match parameter {
        21 => vec![if random.one_in(8) { 0 } else { random.byte() }],
        24 => telemetry(random, record),
        27 | 28 => {
            let date = season_date(random, record.clock);
            time_bytes(random, date)
        }
        32 => {
            let time = clock_time(random, record);
            time_bytes(random, time)
        }
        35 => random.bytes(6),
        _ => password(random),
    }
}

fn telemetry(random: &mut Random, record: &Record) -> Vec<u8> {
    let wanted = any_telemetry(random, record.telemetry.ke);
    [&wanted.k.to_le_bytes()[..], &wanted.ke.to_le_bytes(), &wanted.reserve.to_le_bytes()].concat()
}

fn time_bytes(random: &mut Random, time: Moment) -> Vec<u8> {
    let time = if random.one_in(6) { spoiled(random, time) } else { time };
    time.bytes().to_vec()
}

/// Some passwords are those of both levels.
fn password(random: &mut Random) -> Vec<u8> {
    if random.one_in(2) {
        FACTORY_PASSWORD.to_vec()
    } else {
        random.bytes(8)
    }
}

/// Function 30: parameter, 0.
fn zero(random: &mut Random) -> Vec<u8> {
    let parameter = if random.one_in(4) { random.pick(&PARAMETERS) } else { random.pick(&[27, 28, 36]) };
    vec![30, parameter, u8::from(random.one_in(8))]
}

fn unknown(random: &mut Random) -> Vec<u8> {
    let length = random.below(61);
    [&[random.byte()][..], &random.bytes(length)].concat()
}
