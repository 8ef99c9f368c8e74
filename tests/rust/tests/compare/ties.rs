//! Figures for function 4 whose kilowatt-hours lie on or near the middle of two floats, where rounding is decided.

use crate::random::Random;
use metlazuel_check::model::meter::Ratios;

/// 1,000,000 is 2^6 of these.
const ODD_PART: u64 = 15_625;
const HALVES: u32 = 6;
const KILOWATT_HOUR: u128 = 1_000_000;
/// How many counts are looked at for the one nearest to a tie.
const LOOKED_AT: usize = 100;

/// How far n / 1,000,000 is from the middle of the two floats about it, in 2^-20 of the way from one to the other: 0 is a tie or as good
/// as one, 2^19 a float. For n from 1, below 2^52.
pub fn from_tie(n: u64) -> u64 {
    // n / 1,000,000 is from 2^exponent on, below twice that
    let above = |exponent: i32| u128::from(n) << 32 >= KILOWATT_HOUR << (32 + exponent);
    let least = n.ilog2() as i32 - 20;
    let exponent = if above(least + 1) { least + 1 } else { least };
    // floats there are 2^(exponent - 23) apart, that is 15,625 x 2^doubled in n
    let doubled = exponent - 23 + HALVES as i32;
    let (n, apart) = if doubled < 0 { (n << -doubled, ODD_PART) } else { (n, ODD_PART << doubled) };
    let twice = 2 * (n % apart);
    (twice.abs_diff(apart) << 20) / apart / 2
}

/// Of some counts in turn those whose energy, of so many milliwatt-hours a count, is nearest to a tie.
pub fn near_tie(random: &mut Random, weight: u64) -> u16 {
    let first = 1 + random.below(65_535 - LOOKED_AT);
    let counts = (first..first + LOOKED_AT).map(|counts| counts as u16);
    counts.min_by_key(|counts| from_tie(u64::from(*counts) * weight)).expect("some counts")
}

/// Any Ke; most often one that is odd and large enough to meet a tie: counts times Ke have 25 bits.
pub fn right_ke(random: &mut Random) -> u16 {
    match random.below(4) {
        0 => random.word().max(1),
        1 => u16::from(random.byte()).max(1),
        _ => random.word() >> random.below(8) | 0x101,
    }
}

/// Ratios in their range: round ones and any; ones with which odd counts and an odd Ke may meet a tie exactly.
pub fn right_ratios(random: &mut Random) -> Ratios {
    let product = match random.below(8) {
        0 => 1,
        1 => random.pick(&[1_000_000, 999_999, 999_983, 100, 2_000]),
        2 => 1 + random.below(1_000),
        3 | 4 => 1 + random.below(1_000_000),
        _ => (ODD_PART as usize) << random.below(HALVES as usize + 1),
    };
    let product = product as u32;
    let ki = random.pick(&[1, 2, 5, 8, 25, 100, 125, 1_000, product]);
    if product % ki == 0 {
        Ratios { ki, ku: product / ki }
    } else {
        Ratios { ki: 1, ku: product }
    }
}
