//! Bytes with a fault.

use crate::random::Random;
use metlazuel_check::model::crc::sealed;

/// One of: a byte changed, bytes cut off, bytes added.
pub fn damaged(random: &mut Random, mut bytes: Vec<u8>) -> Vec<u8> {
    match random.below(4) {
        0 => bytes.truncate(random.below(bytes.len() + 1)),
        1 => {
            let more = 1 + random.below(8);
            bytes.extend(random.bytes(more));
        }
        _ => change_byte(random, &mut bytes),
    }
    bytes
}

pub fn change_byte(random: &mut Random, bytes: &mut [u8]) {
    if !bytes.is_empty() {
        let at = random.below(bytes.len());
        bytes[at] = if random.one_in(2) { random.byte() } else { bytes[at] ^ (1 << random.below(8)) };
    }
}

/// The bytes before a CRC damaged, and a right CRC behind them.
pub fn damaged_and_sealed(random: &mut Random, bytes: &[u8]) -> Vec<u8> {
    let front = bytes[..bytes.len().saturating_sub(2)].to_vec();
    sealed(damaged(random, front))
}
