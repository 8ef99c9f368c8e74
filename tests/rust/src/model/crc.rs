//! The CRC-16 of the Modbus serial line (01, "Frames").

/// Starts at FFFF hex and uses A001 hex, bits low first.
pub fn crc16(bytes: &[u8]) -> u16 {
    bytes.iter().fold(0xFFFF, |crc, byte| eight_steps(crc ^ u16::from(*byte)))
}

fn eight_steps(crc: u16) -> u16 {
    (0..8).fold(crc, |crc, _| if crc & 1 == 1 { (crc >> 1) ^ 0xA001 } else { crc >> 1 })
}

/// The bytes with their CRC behind them, low byte first.
pub fn sealed(mut bytes: Vec<u8>) -> Vec<u8> {
    let crc = crc16(&bytes);
    bytes.extend(crc.to_le_bytes());
    bytes
}

/// Whether the last two bytes are the CRC of all bytes before them.
pub fn checks(bytes: &[u8]) -> bool {
    bytes.len() >= 2 && {
        let (front, crc) = bytes.split_at(bytes.len() - 2);
        crc == crc16(front).to_le_bytes()
    }
}

#[cfg(test)]
mod tests {
    use super::*;

    #[test]
    fn p1() {
        assert_eq!(sealed(vec![0x01, 0x66]), [0x01, 0x66, 0x80, 0x0A]);
    }

    #[test]
    fn p2() {
        assert_eq!(sealed(vec![1, 3, 0, 4, 0, 6]), [1, 3, 0, 4, 0, 6, 0x84, 0x09]);
    }

    #[test]
    fn p3() {
        assert_eq!(sealed(vec![0, 0, 0x04, 0xD2, 0x27]), [0, 0, 0x04, 0xD2, 0x27, 0x79, 0x7B]);
    }

    #[test]
    fn a_changed_bit_is_seen() {
        assert!(checks(&[0x01, 0x66, 0x80, 0x0A]));
        assert!(!checks(&[0x01, 0x67, 0x80, 0x0A]));
        assert!(!checks(&[0x01]));
    }
}
