//! A frame on the wire and the meter's answer to it (01, "Frames", "Refusal numbers"; 02, CR 3 and CR 6).

use super::protection::Level;
use super::{season, store, Phases, Protection, Record, Telemetry, STORE_BYTES};
use crate::model::calendar::Moment;
use crate::model::crc::{checks, crc16};
use crate::model::reader::{READ, READ_SHOWN};
use crate::model::refusal::Refusal::{self, *};
use crate::model::{count_bytes, key_legal, slots, word};

const CHANGE: u8 = 16;
const ZERO: u8 = 30;
const UNLOCK: u8 = 31;
const LOCK: u8 = 32;

/// A frame is 4 to 64 bytes, and a reply's output has room for the longest.
const FRAME_LENGTHS: std::ops::RangeInclusive<usize> = 4..=64;
const OUTPUT_LENGTH: usize = 64;
/// The top bit of the function in a refusal frame.
const REFUSED: u8 = 0x80;

/// Checks 1, 28, 2, then 10 to 13, 16, 14, 15. Gives what happened and the length of the reply at the
/// front of `out`; the output past it is unchanged.
pub fn answer(record: &mut Record, store: &mut [u8], frame: &[u8], out: &mut [u8]) -> (Result<(), Refusal>, usize) {
    if out.len() < OUTPUT_LENGTH {
        return (Err(OutputTooShort), 0);
    }
    if !record.sound() || store.len() != STORE_BYTES {
        return (Err(Unsound), 0);
    }
    let Some(met) = heard(record.address, frame) else {
        return (Err(NotHeard), 0);
    };
    match obey(record, store, met, frame[1], &frame[2..frame.len() - 2]) {
        Ok(data) => (Ok(()), reply(frame, 0, &data, out)),
        Err(refusal) => match refusal.result() {
            Some(result) => (Err(refusal), reply(frame, result, &[], out)),
            None => (Err(refusal), 0),
        },
    }
}

/// The address by which a command met the meter.
#[derive(Clone, Copy, Debug, PartialEq, Eq)]
enum Met {
    OwnAddress,
    AddressZero,
}

/// A command of the right length and CRC, with the meter's own address or address 0: which of them.
fn heard(address: u8, frame: &[u8]) -> Option<Met> {
    if !FRAME_LENGTHS.contains(&frame.len()) || !checks(frame) {
        return None;
    }
    match frame[0] {
        0 => Some(Met::AddressZero),
        own if own == address => Some(Met::OwnAddress),
        _ => None,
    }
}

/// The command's address and function (its top bit set where refused), the parameter, the result,
/// the data, and the CRC. The data part begins at the fifth byte.
fn reply(frame: &[u8], result: u8, data: &[u8], out: &mut [u8]) -> usize {
    out[0] = frame[0];
    out[1] = if result == 0 { frame[1] } else { frame[1] | REFUSED };
    out[2] = reply_parameter(frame);
    out[3] = result;
    let end = 4 + data.len();
    out[4..end].copy_from_slice(data);
    let crc = crc16(&out[..end]);
    out[end..end + 2].copy_from_slice(&crc.to_le_bytes());
    end + 2
}

/// 0 for an unknown function and for a command without a parameter, as 31 and 32 are.
fn reply_parameter(frame: &[u8]) -> u8 {
    match frame[1] {
        READ | READ_SHOWN | CHANGE | ZERO => parameter(&frame[2..frame.len() - 2]),
        _ => 0,
    }
}

/// The message's first byte; a frame of 4 bytes counts as parameter 0.
fn parameter(message: &[u8]) -> u8 {
    message.first().copied().unwrap_or(0)
}

/// The message is what stands between function and CRC. Gives the reply's data.
fn obey(record: &mut Record, store: &mut [u8], met: Met, function: u8, message: &[u8]) -> Result<Vec<u8>, Refusal> {
    match function {
        READ => read(record, store, message),
        READ_SHOWN => read_shown(record, store, message),
        CHANGE => change(record, met, message).map(|()| vec![]),
        ZERO => zero(record, store, met, message).map(|()| vec![]),
        UNLOCK => unlock(record, message).map(|()| vec![]),
        LOCK => lock(record, message).map(|()| vec![]),
        _ => Err(UnknownFunction),
    }
}

/// Number 11 or 12, if it is one of them (design, "Decided" 5; 002, Appendix A).
fn check_parameter(function: u8, parameter: u8) -> Result<(), Refusal> {
    let open = match parameter {
        8 | 9 | 40 => function == READ,
        21 | 24 | 32 | 35 => function == READ || function == CHANGE,
        27 | 28 => function != READ_SHOWN,
        36 => function != CHANGE,
        37 => function == CHANGE,
        _ => return Err(UnknownParameter),
    };
    require(open, NotOpen)
}

fn require(holds: bool, refusal: Refusal) -> Result<(), Refusal> {
    if holds {
        Ok(())
    } else {
        Err(refusal)
    }
}

// Function 3: parameter, offset, tariff, detail (002, figure 3).

fn read(record: &Record, store: &[u8], message: &[u8]) -> Result<Vec<u8>, Refusal> {
    let parameter = parameter(message);
    check_parameter(READ, parameter)?;
    require(message.len() == 4, WrongLength)?;
    let fields = [message[1], message[2], message[3]];
    match parameter {
        8 => read_powers(record.active, fields),
        9 => read_powers(record.reactive, fields),
        36 => read_slice(record, store, fields),
        40 => read_six_slices(record, store, fields),
        _ => {
            require(fields == [0, 0, 0], WrongArgument)?;
            Ok(read_plain(record, parameter))
        }
    }
}

/// Detail 0 answers the total and A, B, C, details 1 to 3 one phase (01, "Powers").
fn read_powers(phases: Phases, fields: [u8; 3]) -> Result<Vec<u8>, Refusal> {
    let Phases { a, b, c } = phases;
    match fields {
        [0, 0, 0] => Ok(float_bytes(&[phases.total(), a, b, c])),
        [0, 0, 1] => Ok(float_bytes(&[a])),
        [0, 0, 2] => Ok(float_bytes(&[b])),
        [0, 0, 3] => Ok(float_bytes(&[c])),
        _ => Err(WrongArgument),
    }
}

fn float_bytes(floats: &[f32]) -> Vec<u8> {
    floats.iter().flat_map(|float| float.to_bits().to_le_bytes()).collect()
}

/// Month, day and number in place of offset, tariff and detail (01, "Slices").
fn read_slice(record: &Record, store: &[u8], key: [u8; 3]) -> Result<Vec<u8>, Refusal> {
    let [month, day, number] = key;
    require(key_legal(month, day, number, record.minutes), WrongArgument)?;
    Ok(count_bytes(store::get(store, key)).to_vec())
}

/// Function 4: of slices alone, and with the same fields (02, CR 3). Four floats in kilowatt-hours.
fn read_shown(record: &Record, store: &[u8], message: &[u8]) -> Result<Vec<u8>, Refusal> {
    check_parameter(READ_SHOWN, parameter(message))?;
    require(message.len() == 4, WrongLength)?;
    let key = [message[1], message[2], message[3]];
    require(key_legal(key[0], key[1], key[2], record.minutes), WrongArgument)?;
    let energies = store::get(store, key).map(|counts| record.as_shown(counts));
    Ok(energies.iter().flat_map(|bits| bits.to_le_bytes()).collect())
}

/// The named slice and the five after it; the number is at most 42 or 90 (01, "Six slices").
fn read_six_slices(record: &Record, store: &[u8], key: [u8; 3]) -> Result<Vec<u8>, Refusal> {
    let [month, day, number] = key;
    let last = slots(record.minutes) - 6;
    require(key_legal(month, day, number, record.minutes) && number <= last, WrongArgument)?;
    let row = |after| count_bytes(store::get(store, [month, day, number + after]));
    Ok((0..6).flat_map(row).collect())
}

/// The parameters that use none of offset, tariff and detail.
fn read_plain(record: &Record, parameter: u8) -> Vec<u8> {
    match parameter {
        21 => vec![record.address],
        24 => telemetry_bytes(record.telemetry),
        27 => record.switches.to_summer(record.clock.year).bytes().to_vec(),
        28 => record.switches.to_winter(record.clock.year).bytes().to_vec(),
        32 => record.clock.bytes().to_vec(),
        _ => record.mask.to_vec(),
    }
}

/// K, Ke, reserve: 4, 2 and 2 bytes (002, figure 13).
fn telemetry_bytes(telemetry: Telemetry) -> Vec<u8> {
    let mut bytes = telemetry.k.to_le_bytes().to_vec();
    bytes.extend(telemetry.ke.to_le_bytes());
    bytes.extend(telemetry.reserve.to_le_bytes());
    bytes
}

// Function 16: parameter, detail, data (002, figure 5; design, "Decided" 2).

fn change(record: &mut Record, met: Met, message: &[u8]) -> Result<(), Refusal> {
    let parameter = parameter(message);
    check_parameter(CHANGE, parameter)?;
    require(message.len() == 2 + data_length(parameter), WrongLength)?;
    require(met == Met::OwnAddress, ByAddressZero)?;
    require(record.protection.level >= level_to_change(parameter), NoAccess)?;
    let (detail, data) = (message[1], &message[2..]);
    match parameter {
        21 => change_address(record, detail, data[0])?,
        24 => change_telemetry(record, detail, data)?,
        27 => record.switches.summer = Some(season_date(detail, data)?),
        28 => record.switches.winter = Some(season_date(detail, data)?),
        32 => change_clock(record, detail, data)?,
        35 => change_mask(record, detail, data)?,
        _ => change_password(record, detail, data)?,
    }
    record.protection.renew();
    Ok(())
}

fn data_length(parameter: u8) -> usize {
    match parameter {
        21 => 1,
        24 | 37 => 8,
        _ => 6,
    }
}

/// Auxiliary opens only address, port settings (not of this meter) and display mask (01, "Protection").
fn level_to_change(parameter: u8) -> Level {
    match parameter {
        21 | 35 => Level::Auxiliary,
        _ => Level::Main,
    }
}

fn change_address(record: &mut Record, detail: u8, address: u8) -> Result<(), Refusal> {
    require(detail == 0 && address != 0, WrongArgument)?;
    record.address = address;
    Ok(())
}

/// K x Ke in its range and Ke the stored one (01, "Telemetry").
fn change_telemetry(record: &mut Record, detail: u8, data: &[u8]) -> Result<(), Refusal> {
    let wanted = Telemetry {
        k: u32::from_le_bytes([data[0], data[1], data[2], data[3]]),
        ke: word(&data[4..]),
        reserve: word(&data[6..]),
    };
    require(detail == 0 && wanted.in_range() && wanted.ke == record.telemetry.ke, WrongArgument)?;
    record.telemetry = wanted;
    Ok(())
}

fn season_date(detail: u8, data: &[u8]) -> Result<Moment, Refusal> {
    let date = Moment::from_bytes(data);
    require(detail == 0 && season::writable(date), WrongArgument)?;
    Ok(date)
}

/// Detail 2 sets date and time (002, section 4.9); the season stays (01, "Seasons").
fn change_clock(record: &mut Record, detail: u8, data: &[u8]) -> Result<(), Refusal> {
    let clock = Moment::from_bytes(data);
    require(detail == 2 && clock.valid(), WrongArgument)?;
    record.clock = clock;
    Ok(())
}

/// Stored as written (01, "Display mask").
fn change_mask(record: &mut Record, detail: u8, data: &[u8]) -> Result<(), Refusal> {
    require(detail == 0, WrongArgument)?;
    record.mask.copy_from_slice(data);
    Ok(())
}

/// Detail 0 is the main password, 1 the auxiliary (002, section 4.14).
fn change_password(record: &mut Record, detail: u8, data: &[u8]) -> Result<(), Refusal> {
    let password = match detail {
        0 => &mut record.main_password,
        1 => &mut record.auxiliary_password,
        _ => return Err(WrongArgument),
    };
    password.copy_from_slice(data);
    Ok(())
}

// Function 30: parameter, 0 (002, figures 7 and 19).

fn zero(record: &mut Record, store: &mut [u8], met: Met, message: &[u8]) -> Result<(), Refusal> {
    let parameter = parameter(message);
    check_parameter(ZERO, parameter)?;
    require(message.len() == 2, WrongLength)?;
    require(met == Met::OwnAddress, ByAddressZero)?;
    require(record.protection.level == Level::Main, NoAccess)?;
    require(message[1] == 0, WrongArgument)?;
    match parameter {
        27 => record.switches.summer = None,
        28 => record.switches.winter = None,
        _ => {
            store::clear(store);
            record.next = 0;
        }
    }
    record.protection.renew();
    Ok(())
}

// Functions 31 and 32 (002, figures 21 and 22; design, "Decided" 1).

/// 0, level, password. The password is tested before the byte in the parameter's place.
fn unlock(record: &mut Record, message: &[u8]) -> Result<(), Refusal> {
    require(message.len() == 10, WrongLength)?;
    let (level, password) = match message[1] {
        0 => (Level::Main, record.main_password),
        1 => (Level::Auxiliary, record.auxiliary_password),
        _ => return Err(WrongArgument),
    };
    require(message[2..] == password, NoAccess)?;
    require(message[0] == 0, WrongArgument)?;
    record.protection.open(level);
    Ok(())
}

/// 0, 0; needs no access.
fn lock(record: &mut Record, message: &[u8]) -> Result<(), Refusal> {
    require(message.len() == 2, WrongLength)?;
    require(message == [0, 0], WrongArgument)?;
    record.protection = Protection::SHUT;
    Ok(())
}

#[cfg(test)]
mod tests {
    use super::*;
    use crate::model::crc::sealed;
    use crate::model::meter::{empty_store, make, Ratios, Season, FACTORY_PASSWORD};

    const NEW_YEAR: Moment = Moment { year: 0, month: 1, day: 1, hour: 0, minute: 0, second: 0 };

    fn meter(k: u32, ke: u16) -> Record {
        make(1, 30, Telemetry { k, ke, reserve: 0 }, NEW_YEAR, Season::Winter).expect("in range")
    }

    /// The number that the bytes, sealed, get from the meter.
    fn say(record: &mut Record, bytes: &[u8]) -> u8 {
        let (outcome, _) = answer(record, &mut empty_store(), &sealed(bytes.to_vec()), &mut [0; 64]);
        outcome.map_or_else(Refusal::number, |()| 0)
    }

    fn open_main(record: &mut Record) {
        assert_eq!(say(record, &[&[1, 31, 0, 0][..], &FACTORY_PASSWORD].concat()), 0);
    }

    fn say_telemetry(record: &mut Record, k: u32, ke: u16) -> u8 {
        say(record, &[&[1, 16, 24, 0][..], &k.to_le_bytes(), &ke.to_le_bytes(), &[0, 0]].concat())
    }

    #[test]
    fn p5() {
        let mut record = meter(2_000, 20);
        open_main(&mut record);
        let answers = [2_000, 250_000, 1_999, 250_001].map(|k| say_telemetry(&mut record, k, 20));
        assert_eq!(answers, [0, 0, 15, 15]);
        assert_eq!(record.telemetry.k, 250_000);
    }

    #[test]
    fn p6() {
        let mut record = meter(400, 100);
        open_main(&mut record);
        assert_eq!([400, 50_000].map(|k| say_telemetry(&mut record, k, 100)), [0, 0]);
    }

    #[test]
    fn p10_by_frames() {
        let mut record = meter(400, 100);
        open_main(&mut record);
        (0..239).for_each(|_| record.second());
        assert_eq!(say(&mut record, &[1, 30, 27, 0]), 0, "239 quiet seconds keep the level");
        (0..240).for_each(|_| record.second());
        assert_eq!(say(&mut record, &[1, 30, 27, 0]), 14, "the 240th ends it");
    }

    /// The number and the reply that the bytes, sealed, get from the meter.
    fn said(record: &mut Record, store: &mut [u8], bytes: &[u8]) -> (u8, Vec<u8>) {
        let mut out = [0; 64];
        let (outcome, length) = answer(record, store, &sealed(bytes.to_vec()), &mut out);
        (outcome.map_or_else(Refusal::number, |()| 0), out[..length].to_vec())
    }

    #[test]
    fn zeroing_by_address_0() {
        assert_eq!(sealed(vec![0, 0x1E, 0x24, 0])[4..], [0x7B, 0x22]);
        let (mut record, mut store) = (meter(400, 100), empty_store());
        open_main(&mut record);
        record.put_slice(&mut store, 5, 17, 0, [12, 0, 3, 0]).expect("a legal key");
        let before = (record.clone(), store.clone());
        let answer = said(&mut record, &mut store, &[0, 0x1E, 0x24, 0]);
        assert_eq!(answer, (16, vec![0x00, 0x9E, 0x24, 0x04, 0x7B, 0x09]));
        assert!((record, store) == before, "nothing is changed");
    }

    #[test]
    fn a_change_by_address_0_is_16_after_13_and_before_14() {
        let mut record = meter(400, 100);
        let numbers = |record: &mut Record| {
            let unknown = say(record, &[0, 16, 23, 0, 1]);
            let closed = say(record, &[0, 16, 36, 0, 1]);
            let short = say(record, &[0, 16, 21, 0]);
            let right = say(record, &[0, 16, 21, 0, 9]);
            let wrong = say(record, &[0, 16, 21, 1, 0]);
            let password = say(record, &[&[0, 16, 37, 0][..], &[1; 8]].concat());
            [unknown, closed, short, right, wrong, password]
        };
        assert_eq!(numbers(&mut record), [11, 12, 13, 16, 16, 16], "shut");
        open_main(&mut record);
        let before = record.clone();
        assert_eq!(numbers(&mut record), [11, 12, 13, 16, 16, 16], "open");
        assert_eq!(record, before);
        assert_eq!(say(&mut record, &[1, 16, 21, 0, 9]), 0, "by its own address it is done");
    }

    #[test]
    fn reads_and_protection_commands_by_address_0_go_on() {
        let mut record = meter(400, 100);
        assert_eq!(say(&mut record, &[&[0, 31, 0, 0][..], &FACTORY_PASSWORD].concat()), 0);
        assert_eq!(record.protection.level, Level::Main);
        assert_eq!(say(&mut record, &[0, 3, 21, 0, 0, 0]), 0);
        assert_eq!(say(&mut record, &[0, 32, 0, 0]), 0);
        assert_eq!(record.protection, Protection::SHUT);
        assert_eq!(say(&mut record, &[&[0, 31, 0, 0][..], &[1; 8]].concat()), 14);
    }

    /// Every function and parameter, with messages of every length up to that of a password: where its own address gets 0, 14 or 15
    /// for a change or a zeroing, address 0 gets 16 and nothing changes; all else is the same, but for the address in the reply.
    #[test]
    fn nothing_else_depends_on_the_address() {
        let mut open = meter(400, 100);
        open_main(&mut open);
        for record in [meter(400, 100), open] {
            for (function, parameter) in (0..=255).flat_map(|f| (0..=255).map(move |p| (f, p))) {
                (0..=10).for_each(|length| by_both_addresses(&record, function, parameter, length));
            }
        }
    }

    fn by_both_addresses(record: &Record, function: u8, parameter: u8, length: usize) {
        let mut message = vec![parameter];
        message.resize(10, 0);
        let command = [&[function][..], &message[..length]].concat();
        let (mut ours, mut zeros) = (record.clone(), record.clone());
        let mut store = [0; 0];
        let (own, own_reply) = obeyed(&mut ours, &mut store, Met::OwnAddress, &command);
        let (zero, zero_reply) = obeyed(&mut zeros, &mut store, Met::AddressZero, &command);
        if [CHANGE, ZERO].contains(&function) && [0, 14, 15].contains(&own) {
            assert_eq!((zero, zero_reply), (16, vec![]), "{command:?}");
            assert_eq!(zeros, *record, "{command:?}");
        } else {
            assert_eq!((zero, zero_reply, zeros), (own, own_reply, ours), "{command:?}");
        }
    }

    /// The number and the data that a command gets, met by an address.
    fn obeyed(record: &mut Record, store: &mut [u8], met: Met, command: &[u8]) -> (u8, Vec<u8>) {
        match obey(record, store, met, command[0], &command[1..]) {
            Ok(data) => (0, data),
            Err(refusal) => (refusal.number(), vec![]),
        }
    }

    #[test]
    fn output_then_record_then_frame() {
        let mut record = meter(400, 100);
        let outcome =
            |record: &mut Record, store: &mut [u8], room: usize| answer(record, store, &[9], &mut vec![0; room]).0;
        assert_eq!(outcome(&mut record, &mut [], 63), Err(OutputTooShort));
        assert_eq!(outcome(&mut record, &mut [], 64), Err(Unsound));
        assert_eq!(outcome(&mut record, &mut empty_store(), 64), Err(NotHeard));
        record.address = 0;
        assert_eq!(outcome(&mut record, &mut empty_store(), 64), Err(Unsound));
    }

    #[test]
    fn output_past_the_reply_is_unchanged() {
        let mut out = [0xEE; 70];
        let frame = sealed(vec![1, 3, 21, 0, 0, 0]);
        let (outcome, length) = answer(&mut meter(400, 100), &mut empty_store(), &frame, &mut out);
        assert_eq!((outcome, length), (Ok(()), 7));
        assert_eq!(out[..7], sealed(vec![1, 3, 21, 0, 1]));
        assert!(out[7..].iter().all(|byte| *byte == 0xEE));
    }

    #[test]
    fn function_4_answers_the_slice_in_kilowatt_hours() {
        let (mut record, mut store) = (meter(400, 100), empty_store());
        record.put_slice(&mut store, 5, 17, 0, [12, 0, 3, 0]).expect("a legal key");
        let command = [1, 4, 0x24, 5, 0x11, 0];
        assert_eq!(sealed(command.to_vec())[6..], [0xE6, 0xAB]);
        let floats = [0x52, 0x49, 0x9D, 0x3A, 0, 0, 0, 0, 0x52, 0x49, 0x9D, 0x39, 0, 0, 0, 0, 0x8F, 0xA4];
        let expected = [&[1, 4, 0x24, 0][..], &floats].concat();
        assert_eq!(said(&mut record, &mut store, &command), (0, expected));
        let (number, by_zero) = said(&mut record, &mut store, &[0, 4, 0x24, 5, 0x11, 0]);
        assert_eq!((number, &by_zero[..2], &by_zero[4..20]), (0, &[0, 4][..], &floats[..16]), "by address 0");
        let absent = sealed([&[1, 4, 36, 0][..], &[0; 16]].concat());
        assert_eq!(said(&mut record, &mut store, &[1, 4, 36, 2, 30, 47]), (0, absent));
        record.set_ratios(Ratios { ki: 1_000, ku: 1_000 }).expect("in range");
        let (_, reply) = said(&mut record, &mut store, &command);
        assert_eq!(reply[4..8], 1_200_f32.to_le_bytes());
        assert_eq!(said(&mut record, &mut store, &[1, 3, 0x24, 5, 0x11, 0]).1[4..12], [12, 0, 0, 0, 3, 0, 0, 0]);
    }

    /// 11 for what is unknown and for 4 bytes, 12 for every other known parameter in every length, 13, 15.
    #[test]
    fn function_4_reads_slices_alone() {
        assert_eq!(sealed(vec![1, 4])[2..], [0x01, 0xE3]);
        let (mut record, mut store) = (meter(400, 100), empty_store());
        let answer = said(&mut record, &mut store, &[1, 4]);
        assert_eq!(answer, (11, vec![0x01, 0x84, 0x00, 0x02, 0xC0, 0x30]));
        for (parameter, length) in (0..=255).flat_map(|parameter| (1..=61).map(move |length| (parameter, length))) {
            let mut message = vec![1, 4, parameter, 5, 17, 0];
            message.resize(2 + length.max(4), 0);
            message.truncate(2 + length);
            let (number, reply) = said(&mut record, &mut store, &message);
            let (expected, result) = match parameter {
                36 if length == 4 => (0, 0),
                36 if length < 61 => (13, 3),
                8 | 9 | 21 | 24 | 27 | 28 | 32 | 35 | 37 | 40 if length < 61 => (12, 3),
                _ if length < 61 => (11, 2),
                _ => (2, 0),
            };
            assert_eq!(number, expected, "{message:?}");
            if result > 0 {
                assert_eq!(reply, sealed(vec![1, 0x84, parameter, result]));
            }
        }
        for (month, day, number) in [(0, 17, 0), (13, 17, 0), (5, 0, 0), (5, 32, 0), (5, 17, 48), (5, 17, 255)] {
            let answer = said(&mut record, &mut store, &[1, 4, 36, month, day, number]);
            assert_eq!(answer, (15, sealed(vec![1, 0x84, 36, 3])));
        }
    }

    #[test]
    fn ratios_outside_their_range_are_28() {
        let wrong = [(0, 1), (1, 0), (1_001, 1_000), (65_536, 65_536)];
        for ratios in wrong.map(|(ki, ku)| Ratios { ki, ku }) {
            let mut record = meter(400, 100);
            assert_eq!(record.set_ratios(ratios), Err(OutOfRange));
            assert_eq!(record, meter(400, 100));
            record.ratios = ratios;
            assert_eq!(said(&mut record, &mut empty_store(), &[1, 3, 21, 0, 0, 0]), (28, vec![]));
        }
    }
}
