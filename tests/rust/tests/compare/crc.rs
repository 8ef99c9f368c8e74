//! The CRC of bytes of every length from 0 to 2,000.

use crate::library;
use crate::random::Random;
use crate::run::{same, Group};
use metlazuel_check::model::crc::crc16;

const LENGTHS: u64 = 2_001;
const TIMES: u64 = 100;

#[test]
fn crcs() {
    let mut group = Group::new("CRCs");
    for case in 0..LENGTHS * TIMES {
        let bytes = Random::of(group.seed, case).bytes((case % LENGTHS) as usize);
        let answer = same("CRC", crc16(&bytes), library::crc16(&bytes)).map(|()| 0);
        group.call(case, answer, || format!("{bytes:?}"));
    }
    group.end(&[0]);
}
