//! The record's 89 bytes (crates/record_bytes): where each thing stands, written and read.

use metlazuel_check::model::calendar::Moment;
use metlazuel_check::model::meter::{Level, Phases, Protection, Ratios, Record, Season, Switches, Telemetry};
use metlazuel_check::model::word;

pub const RECORD_BYTES: usize = 89;

pub fn bytes_of(record: &Record) -> Vec<u8> {
    let mut bytes = vec![record.address, level_byte(record.protection.level), record.protection.seconds];
    bytes.extend(record.main_password);
    bytes.extend(record.auxiliary_password);
    bytes.extend(record.clock.bytes());
    bytes.push(u8::from(record.season == Season::Summer));
    bytes.extend(switch_bytes(record.switches.summer));
    bytes.extend(switch_bytes(record.switches.winter));
    bytes.extend(record.telemetry.k.to_le_bytes());
    bytes.extend(record.telemetry.ke.to_le_bytes());
    bytes.extend(record.telemetry.reserve.to_le_bytes());
    bytes.extend(record.mask);
    bytes.extend(power_bytes(record.active));
    bytes.extend(power_bytes(record.reactive));
    bytes.push(record.minutes);
    bytes.extend((record.next as u16).to_le_bytes());
    bytes.extend(record.ratios.ki.to_le_bytes());
    bytes.extend(record.ratios.ku.to_le_bytes());
    bytes
}

fn level_byte(level: Level) -> u8 {
    match level {
        Level::Shut => 0,
        Level::Auxiliary => 1,
        Level::Main => 2,
    }
}

/// 0 and zeros for the automatic date, 1 and the date for one written by hand.
fn switch_bytes(by_hand: Option<Moment>) -> [u8; 7] {
    let mut bytes = [0; 7];
    if let Some(date) = by_hand {
        bytes[0] = 1;
        bytes[1..].copy_from_slice(&date.bytes());
    }
    bytes
}

fn power_bytes(phases: Phases) -> Vec<u8> {
    [phases.a, phases.b, phases.c].iter().flat_map(|power| power.to_bits().to_le_bytes()).collect()
}

/// None for bytes that are no record: another length, or a level, season or choice that there is not.
pub fn record_of(bytes: &[u8]) -> Option<Record> {
    if bytes.len() != RECORD_BYTES {
        return None;
    }
    Some(Record {
        address: bytes[0],
        protection: Protection { level: level_of(bytes[1])?, seconds: bytes[2] },
        main_password: eight(&bytes[3..]),
        auxiliary_password: eight(&bytes[11..]),
        clock: Moment::from_bytes(&bytes[19..]),
        season: season_of(bytes[25])?,
        switches: Switches { summer: switch_of(&bytes[26..])?, winter: switch_of(&bytes[33..])? },
        telemetry: Telemetry { k: long(&bytes[40..]), ke: word(&bytes[44..]), reserve: word(&bytes[46..]) },
        mask: std::array::from_fn(|at| bytes[48 + at]),
        active: phases_of(&bytes[54..]),
        reactive: phases_of(&bytes[66..]),
        minutes: bytes[78],
        next: usize::from(word(&bytes[79..])),
        ratios: Ratios { ki: long(&bytes[81..]), ku: long(&bytes[85..]) },
    })
}

fn level_of(byte: u8) -> Option<Level> {
    match byte {
        0 => Some(Level::Shut),
        1 => Some(Level::Auxiliary),
        2 => Some(Level::Main),
        _ => None,
    }
}

pub fn season_of(byte: u8) -> Option<Season> {
    match byte {
        0 => Some(Season::Winter),
        1 => Some(Season::Summer),
        _ => None,
    }
}

fn switch_of(bytes: &[u8]) -> Option<Option<Moment>> {
    match bytes[0] {
        0 => Some(None),
        1 => Some(Some(Moment::from_bytes(&bytes[1..]))),
        _ => None,
    }
}

fn phases_of(bytes: &[u8]) -> Phases {
    let power = |at: usize| f32::from_bits(long(&bytes[at..]));
    Phases { a: power(0), b: power(4), c: power(8) }
}

fn long(bytes: &[u8]) -> u32 {
    u32::from_le_bytes([bytes[0], bytes[1], bytes[2], bytes[3]])
}

fn eight(bytes: &[u8]) -> [u8; 8] {
    std::array::from_fn(|at| bytes[at])
}
