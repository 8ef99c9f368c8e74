//! The Mercury 206 beside the SS-301 (02, CR 1; source document 000): its requests, a bench answerer and a reader, each the other's
//! inverse on legal figures. Nothing of it enters the log.

use super::crc::{checks, sealed};
use super::refusal::Refusal::{self, *};

/// A reply's output has room for the longest frame that there is, as the SS-301's has.
const OUTPUT_LENGTH: usize = 64;
/// Address (4) and command (1) before the data, the CRC behind them.
const DATA_AT: usize = 5;
const REQUEST_LENGTH: usize = 7;

/// What is asked for.
#[derive(Clone, Copy, Debug, PartialEq, Eq)]
pub enum Command {
    /// 27 hex
    Tariffs,
    /// 63 hex
    Instant,
    /// 81 hex
    Frequency,
}

impl Command {
    pub fn of(code: u8) -> Option<Command> {
        match code {
            0x27 => Some(Command::Tariffs),
            0x63 => Some(Command::Instant),
            0x81 => Some(Command::Frequency),
            _ => None,
        }
    }

    pub fn code(self) -> u8 {
        match self {
            Command::Tariffs => 0x27,
            Command::Instant => 0x63,
            Command::Frequency => 0x81,
        }
    }

    /// Four tariffs of four bytes; two, two and three; two and the other seven.
    fn reply_length(self) -> usize {
        let data = match self {
            Command::Tariffs => 16,
            Command::Instant => 7,
            Command::Frequency => 9,
        };
        DATA_AT + data + 2
    }
}

/// All that the bench answers with.
#[derive(Clone, Copy, Debug, PartialEq, Eq)]
pub struct Figures {
    /// in units of 10 Wh, eight digits each
    pub tariffs: [u32; 4],
    /// volts x 10, four digits
    pub voltage: u16,
    /// amperes x 100, four digits
    pub current: u16,
    /// watts, six digits
    pub power: u32,
    /// hertz x 100, four digits
    pub frequency: u16,
    /// the other seven bytes of 81 hex, which are no digits
    pub rest: [u8; 7],
}

impl Figures {
    pub const ZEROS: Figures =
        Figures { tariffs: [0; 4], voltage: 0, current: 0, power: 0, frequency: 0, rest: [0; 7] };

    /// 27 for a figure above its digits.
    pub fn check(&self) -> Result<(), Refusal> {
        let fits = self.tariffs.iter().all(|tariff| *tariff <= 99_999_999)
            && self.voltage <= 9_999
            && self.current <= 9_999
            && self.power <= 999_999
            && self.frequency <= 9_999;
        if fits {
            Ok(())
        } else {
            Err(OutOfRange)
        }
    }

    /// The data of a reply, of figures within their digits.
    fn data(&self, command: Command) -> Vec<u8> {
        match command {
            Command::Tariffs => self.tariffs.iter().flat_map(|tariff| packed(*tariff, 4)).collect(),
            Command::Instant => {
                [packed(self.voltage.into(), 2), packed(self.current.into(), 2), packed(self.power, 3)].concat()
            }
            Command::Frequency => [&packed(self.frequency.into(), 2)[..], &self.rest].concat(),
        }
    }
}

/// What a reply says.
#[derive(Clone, Copy, Debug, PartialEq, Eq)]
pub enum Reading {
    Tariffs([u32; 4]),
    Instant { voltage: u16, current: u16, power: u32 },
    Frequency { frequency: u16, rest: [u8; 7] },
}

/// Address, high byte first, command, data and CRC.
fn frame(address: u32, command: Command, data: &[u8]) -> Vec<u8> {
    sealed([&address.to_be_bytes()[..], &[command.code()], data].concat())
}

/// Whether the bytes are a frame of that length with that address and command, and a right CRC.
fn frame_of(bytes: &[u8], length: usize, address: u32, command: Command) -> bool {
    bytes.len() == length && checks(bytes) && bytes[..4] == address.to_be_bytes() && bytes[4] == command.code()
}

/// The request of 7 bytes; 40 for a fourth command. It is made to measure here, so number 1 does not arise.
pub fn request(address: u32, code: u8) -> Result<Vec<u8>, Refusal> {
    let command = Command::of(code).ok_or(MercuryFrame)?;
    Ok(frame(address, command, &[]))
}

/// The bench's answer to a frame from figures, tested 1, 27, 40, and the length of the reply at the front of `out`. A 40 is silence:
/// nothing is written. Output past the reply is unchanged.
pub fn answer(address: u32, figures: &Figures, asked: &[u8], out: &mut [u8]) -> (Result<(), Refusal>, usize) {
    match reply(address, figures, asked, out.len()) {
        Ok(bytes) => {
            out[..bytes.len()].copy_from_slice(&bytes);
            (Ok(()), bytes.len())
        }
        Err(refusal) => (Err(refusal), 0),
    }
}

fn reply(address: u32, figures: &Figures, asked: &[u8], room: usize) -> Result<Vec<u8>, Refusal> {
    if room < OUTPUT_LENGTH {
        return Err(OutputTooShort);
    }
    figures.check()?;
    let command = asked.get(4).copied().and_then(Command::of).ok_or(MercuryFrame)?;
    if !frame_of(asked, REQUEST_LENGTH, address, command) {
        return Err(MercuryFrame);
    }
    Ok(frame(address, command, &figures.data(command)))
}

/// A reply decoded, tested 40 (length, CRC, address, command), 41 (a half-byte above 9).
pub fn decode(address: u32, code: u8, reply: &[u8]) -> Result<Reading, Refusal> {
    let command = Command::of(code).ok_or(MercuryFrame)?;
    if !frame_of(reply, command.reply_length(), address, command) {
        return Err(MercuryFrame);
    }
    let data = &reply[DATA_AT..reply.len() - 2];
    match command {
        Command::Tariffs => tariffs(data),
        Command::Instant => instant(data),
        Command::Frequency => frequency(data),
    }
}

fn tariffs(data: &[u8]) -> Result<Reading, Refusal> {
    let mut tariffs = [0; 4];
    for (tariff, bytes) in tariffs.iter_mut().zip(data.chunks_exact(4)) {
        *tariff = unpacked(bytes)?;
    }
    Ok(Reading::Tariffs(tariffs))
}

fn instant(data: &[u8]) -> Result<Reading, Refusal> {
    Ok(Reading::Instant {
        voltage: unpacked(&data[..2])? as u16,
        current: unpacked(&data[2..4])? as u16,
        power: unpacked(&data[4..])?,
    })
}

fn frequency(data: &[u8]) -> Result<Reading, Refusal> {
    let frequency = unpacked(&data[..2])? as u16;
    Ok(Reading::Frequency { frequency, rest: std::array::from_fn(|at| data[2 + at]) })
}

/// Packed decimal: two digits a byte, high digits first.
fn packed(number: u32, bytes: u32) -> Vec<u8> {
    let pair = |place: u32| (number / 100_u32.pow(place) % 100) as u8;
    (0..bytes).rev().map(|place| pair(place) / 10 * 16 + pair(place) % 10).collect()
}

/// 41 for a half-byte above 9.
fn unpacked(bytes: &[u8]) -> Result<u32, Refusal> {
    let digits = bytes.iter().flat_map(|byte| [byte / 16, byte % 16]);
    digits.into_iter().try_fold(0, |number, digit| match digit {
        0..=9 => Ok(number * 10 + u32::from(digit)),
        _ => Err(NotDecimal),
    })
}

#[cfg(test)]
mod tests {
    use super::*;

    /// 00 00 04 D2, the address of document 000's examples.
    const ADDRESS: u32 = 1_234;

    /// Document 000's examples: 227.5 kWh a tariff, 230.0 V, 1.50 A, 100 W, 50.50 Hz.
    const EXAMPLES: Figures = Figures {
        tariffs: [22_750; 4],
        voltage: 2_300,
        current: 150,
        power: 100,
        frequency: 5_050,
        rest: [0x3A, 0, 0, 0, 0, 0, 0],
    };

    fn answered(figures: &Figures, frame: &[u8]) -> Result<Vec<u8>, Refusal> {
        let mut out = [0; OUTPUT_LENGTH];
        let (outcome, length) = answer(ADDRESS, figures, frame, &mut out);
        outcome.map(|()| out[..length].to_vec())
    }

    #[test]
    fn requests() {
        assert_eq!(request(ADDRESS, 0x27), Ok(vec![0x00, 0x00, 0x04, 0xD2, 0x27, 0x79, 0x7B]));
        assert_eq!(request(ADDRESS, 0x63), Ok(vec![0x00, 0x00, 0x04, 0xD2, 0x63, 0x79, 0x48]));
        assert_eq!(request(ADDRESS, 0x81), Ok(vec![0x00, 0x00, 0x04, 0xD2, 0x81, 0xF9, 0x01]));
        for code in (0..=255).filter(|code| ![0x27, 0x63, 0x81].contains(code)) {
            assert_eq!(request(ADDRESS, code), Err(MercuryFrame));
        }
    }

    #[test]
    fn the_frequency_of_document_000() {
        let reply = [0, 0, 0x04, 0xD2, 0x81, 0x50, 0x50, 0x3A, 0, 0, 0, 0, 0, 0, 0xCC, 0xA4];
        let reading = Reading::Frequency { frequency: 5_050, rest: EXAMPLES.rest };
        assert_eq!(decode(ADDRESS, 0x81, &reply), Ok(reading));
        assert_eq!(answered(&EXAMPLES, &request(ADDRESS, 0x81).unwrap()), Ok(reply.to_vec()));
    }

    /// The bodies of its other two replies under CRCs worked out anew: the source has A5 FB for both, and the two are no vectors (02, CR 1).
    #[test]
    fn tariffs_and_instant_figures_of_document_000() {
        let tariffs = [&[0, 0, 0x04, 0xD2, 0x27][..], &[0x00, 0x02, 0x27, 0x50].repeat(4), &[0xA5, 0xFB]].concat();
        assert_eq!(decode(ADDRESS, 0x27, &tariffs), Ok(Reading::Tariffs([22_750; 4])));
        assert_eq!(answered(&EXAMPLES, &request(ADDRESS, 0x27).unwrap()), Ok(tariffs));
        let instant =
            |crc: [u8; 2]| [&[0, 0, 0x04, 0xD2, 0x63][..], &[0x23, 0x00, 0x01, 0x50, 0x00, 0x01, 0x00], &crc].concat();
        let reading = Reading::Instant { voltage: 2_300, current: 150, power: 100 };
        assert_eq!(decode(ADDRESS, 0x63, &instant([0xD8, 0xDD])), Ok(reading));
        assert_eq!(answered(&EXAMPLES, &request(ADDRESS, 0x63).unwrap()), Ok(instant([0xD8, 0xDD])));
        assert_eq!(decode(ADDRESS, 0x63, &instant([0xA5, 0xFB])), Err(MercuryFrame));
    }

    #[test]
    fn packed_decimal_is_there_and_back() {
        assert_eq!(packed(99_999_999, 4), [0x99; 4]);
        assert_eq!(packed(12_345_678, 4), [0x12, 0x34, 0x56, 0x78]);
        assert_eq!(packed(100, 3), [0x00, 0x01, 0x00]);
        assert!((0..=9_999).all(|number| unpacked(&packed(number, 2)) == Ok(number)));
        let mut legal = 0;
        for bytes in (0..=u16::MAX).map(u16::to_be_bytes) {
            let digits = bytes.iter().all(|byte| byte / 16 <= 9 && byte % 16 <= 9);
            assert_eq!(unpacked(&bytes).is_ok(), digits, "{bytes:?}");
            if let Ok(number) = unpacked(&bytes) {
                assert_eq!(packed(number, 2), bytes);
                legal += 1;
            }
        }
        assert_eq!(legal, 10_000);
    }

    #[test]
    fn figures_above_their_digits() {
        let most = Figures {
            tariffs: [99_999_999; 4],
            voltage: 9_999,
            current: 9_999,
            power: 999_999,
            frequency: 9_999,
            rest: [255; 7],
        };
        assert_eq!(most.check(), Ok(()));
        for at in 0..4 {
            let mut above = most;
            above.tariffs[at] += 1;
            assert_eq!(above.check(), Err(OutOfRange));
        }
        assert_eq!(Figures { voltage: 10_000, ..most }.check(), Err(OutOfRange));
        assert_eq!(Figures { current: 10_000, ..most }.check(), Err(OutOfRange));
        assert_eq!(Figures { power: 1_000_000, ..most }.check(), Err(OutOfRange));
        assert_eq!(Figures { frequency: 10_000, ..most }.check(), Err(OutOfRange));
    }

    /// 1, then 27, then 40; a refusal writes nothing, and a reply nothing past its end.
    #[test]
    fn the_order_of_the_bench() {
        let right = request(ADDRESS, 0x63).unwrap();
        let above = Figures { power: 1_000_000, ..Figures::ZEROS };
        let call = |figures: &Figures, frame: &[u8], room: usize| {
            let mut out = vec![0xEE; room];
            let (outcome, length) = answer(ADDRESS, figures, frame, &mut out);
            assert!(out[length..].iter().all(|byte| *byte == 0xEE));
            (outcome, length)
        };
        assert_eq!(call(&above, &[], 63), (Err(OutputTooShort), 0));
        assert_eq!(call(&above, &[], 64), (Err(OutOfRange), 0));
        assert_eq!(call(&above, &right, 64), (Err(OutOfRange), 0));
        assert_eq!(call(&Figures::ZEROS, &right, 63), (Err(OutputTooShort), 0));
        assert_eq!(call(&Figures::ZEROS, &[], 64), (Err(MercuryFrame), 0));
        assert_eq!(call(&Figures::ZEROS, &right, 64), (Ok(()), 14));
        assert_eq!(call(&Figures::ZEROS, &right, 70), (Ok(()), 14));
    }

    /// Length, CRC, address and command, at either side; there is no broadcast address.
    #[test]
    fn the_faults_of_a_frame() {
        let request = |code| request(ADDRESS, code).unwrap();
        for code in [0x27, 0x63, 0x81] {
            let right = answered(&EXAMPLES, &request(code)).unwrap();
            for (frame, bench) in [(request(code), true), (right, false)] {
                let refused = |bytes: &[u8]| match bench {
                    true => answered(&EXAMPLES, bytes) == Err(MercuryFrame),
                    false => decode(ADDRESS, code, bytes) == Err(MercuryFrame),
                };
                let body = &frame[..frame.len() - 2];
                assert!(!refused(&frame));
                assert!((0..frame.len()).all(|length| refused(&frame[..length])));
                assert!((0..body.len()).all(|length| refused(&sealed(body[..length].to_vec()))));
                assert!(refused(&sealed([body, &[0]].concat())) && refused(&[&frame[..], &[0]].concat()));
                for at in 0..frame.len() {
                    let mut changed = frame.clone();
                    changed[at] ^= 1;
                    assert!(refused(&changed), "a bit of byte {at} under the old CRC");
                }
                for (at, byte) in (0..4).flat_map(|at| (0..=255).map(move |byte| (at, byte))) {
                    let mut changed = body.to_vec();
                    changed[at] = byte;
                    assert_eq!(refused(&sealed(changed)), byte != frame[at], "address");
                }
                let mut broadcast = body.to_vec();
                broadcast[..4].fill(0);
                assert!(refused(&sealed(broadcast)));
            }
            for other in (0..=255).filter(|other| *other != code) {
                let right = answered(&EXAMPLES, &request(code)).unwrap();
                assert_eq!(decode(ADDRESS, other, &right), Err(MercuryFrame));
                let mut changed = right[..right.len() - 2].to_vec();
                changed[4] = other;
                assert_eq!(decode(ADDRESS, code, &sealed(changed)), Err(MercuryFrame));
            }
        }
        for code in (0..=255).filter(|code| ![0x27, 0x63, 0x81].contains(code)) {
            assert_eq!(answered(&EXAMPLES, &sealed(vec![0, 0, 0x04, 0xD2, code])), Err(MercuryFrame));
        }
    }

    /// Each data byte with each value, under a right CRC: 41 exactly where it is a digit's and has a half-byte above 9.
    #[test]
    fn half_bytes_above_9() {
        for (code, digits, data) in [(0x27, 16, 16), (0x63, 7, 7), (0x81, 2, 9)] {
            let right = answered(&EXAMPLES, &request(ADDRESS, code).unwrap()).unwrap();
            for (at, byte) in (0..data).flat_map(|at| (0..=255).map(move |byte| (at, byte))) {
                let mut changed = right[..right.len() - 2].to_vec();
                changed[DATA_AT + at] = byte;
                let fault = at < digits && (byte >> 4 > 9 || byte & 15 > 9);
                let outcome = decode(ADDRESS, code, &sealed(changed));
                assert_eq!(outcome == Err(NotDecimal), fault, "{code:X} byte {at}: {byte:02X}");
                assert_eq!(outcome.is_ok(), !fault);
            }
        }
    }
}
