//! The model, one module a concept.

pub mod book;
pub mod calendar;
pub mod crc;
pub mod log;
pub mod mercury;
pub mod meter;
pub mod reader;
pub mod refusal;
pub mod shown;

/// Slots of a day and legal numbers of a slice: 48 for 30 minutes, 96 for 15 (01, "Slices").
pub fn slots(minutes: u8) -> u8 {
    match minutes {
        15 => 96,
        _ => 48,
    }
}

/// An interval is 15 or 30 minutes long (01, "The reader and the log").
pub fn interval_valid(minutes: u8) -> bool {
    minutes == 15 || minutes == 30
}

/// Whether month, day and number may name a slice; 30 February may (01, "Slices").
pub fn key_legal(month: u8, day: u8, number: u8, minutes: u8) -> bool {
    (1..=12).contains(&month) && (1..=31).contains(&day) && number < slots(minutes)
}

/// A 16-bit number, lowest byte first (01, "Frames").
pub fn word(bytes: &[u8]) -> u16 {
    u16::from_le_bytes([bytes[0], bytes[1]])
}

/// Four counts E+, E-, R+, R- of two bytes each (01, "Slices").
pub fn counts(bytes: &[u8]) -> [u16; 4] {
    [word(&bytes[0..]), word(&bytes[2..]), word(&bytes[4..]), word(&bytes[6..])]
}

/// The eight bytes of four counts.
pub fn count_bytes(counts: [u16; 4]) -> [u8; 8] {
    let mut bytes = [0; 8];
    for (place, count) in bytes.chunks_exact_mut(2).zip(counts) {
        place.copy_from_slice(&count.to_le_bytes());
    }
    bytes
}
