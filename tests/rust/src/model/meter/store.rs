//! The slice store: 2,976 places of 11 bytes, each month, day, number and four counts
//! (01, "Slices"; design, "Decided" 6). A place with an illegal key, as a zeroed one, is unused:
//! no legal key is equal to it, so it is never found.

use crate::model::{count_bytes, counts};

pub const PLACES: usize = 2_976;
pub const PLACE_BYTES: usize = 11;
pub const STORE_BYTES: usize = PLACES * PLACE_BYTES;

type Key = [u8; 3];

/// The store starts as unused places, one zeroed array.
pub fn empty_store() -> Vec<u8> {
    vec![0; STORE_BYTES]
}

/// Zeroing makes all places unused.
pub fn clear(store: &mut [u8]) {
    store.fill(0);
}

/// The counts of the first place with that legal key; an absent slice answers zeros.
pub fn get(store: &[u8], key: Key) -> [u16; 4] {
    match find(store, key) {
        Some(place) => counts(&store[place * PLACE_BYTES + 3..]),
        None => [0; 4],
    }
}

/// Puts a slice with a legal key and gives the place that is next then.
pub fn put(store: &mut [u8], next: usize, key: Key, counts: [u16; 4]) -> usize {
    match find(store, key) {
        Some(place) => {
            write(store, place, key, counts);
            next
        }
        None => {
            write(store, next, key, counts);
            (next + 1) % PLACES
        }
    }
}

fn find(store: &[u8], key: Key) -> Option<usize> {
    store.chunks_exact(PLACE_BYTES).position(|place| place[..3] == key)
}

fn write(store: &mut [u8], place: usize, key: Key, counts: [u16; 4]) {
    let bytes = &mut store[place * PLACE_BYTES..][..PLACE_BYTES];
    bytes[..3].copy_from_slice(&key);
    bytes[3..].copy_from_slice(&count_bytes(counts));
}

#[cfg(test)]
mod tests {
    use super::*;

    #[test]
    fn round_from_the_last_place_to_the_first() {
        let mut store = empty_store();
        let keys = (1..=12).flat_map(|m| (1..=31).flat_map(move |d| (0..48).map(move |n| [m, d, n])));
        let next = keys.take(PLACES + 1).fold(0, |next, key| put(&mut store, next, key, [1, 2, 3, 4]));
        assert_eq!(next, 1);
        assert_eq!(get(&store, [1, 1, 0]), [0; 4], "the oldest is gone");
        assert_eq!(get(&store, [1, 1, 1]), [1, 2, 3, 4]);
        assert_eq!(put(&mut store, next, [1, 1, 1], [9, 0, 0, 0]), 1, "a known key is replaced");
        assert_eq!(get(&store, [1, 1, 1]), [9, 0, 0, 0]);
    }
}
