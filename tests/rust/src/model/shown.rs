//! Energy as the display shows it: kilowatt-hours as 32-bit floats (02, CR 3). All of it is whole numbers.

use std::cmp::Ordering;

/// Milliwatt-hours of a kilowatt-hour.
const KILOWATT_HOUR: u128 = 1_000_000;
/// A float is M x 2^E; M has 24 bits, of which the first is set and is not kept.
const SIGNIFICANT_BITS: u32 = 24;
/// What the float's eight bits of exponent hold for E = 0.
const EXPONENT_OF_ONE: u32 = 150;
/// E is above -LEAST: 1 / 1,000,000 is above 2^-20, and M is from 2^23 on.
const LEAST: u32 = 44;

/// The bits of the float nearest to n / 1,000,000; of two that are as near the even one; zero is plus zero.
pub fn kilowatt_hours(n: u64) -> u32 {
    if n == 0 {
        return 0;
    }
    // n / 1,000,000 = M x 2^E, so M is scaled / weight, with the weight doubled as often as E is above -LEAST
    let scaled = u128::from(n) << LEAST;
    let (mut doubled, mut weight) = (0, KILOWATT_HOUR);
    while scaled >= weight << SIGNIFICANT_BITS {
        (doubled, weight) = (doubled + 1, weight << 1);
    }
    // M's first bit adds one to the exponent; 2^24, which M may be rounded up to, adds two and leaves no other bit: the next float
    ((EXPONENT_OF_ONE - LEAST + doubled - 1) << (SIGNIFICANT_BITS - 1)) + nearest(scaled, weight)
}

/// The whole number nearest to a fraction, ties to even.
fn nearest(numerator: u128, denominator: u128) -> u32 {
    let (whole, rest) = (numerator / denominator, numerator % denominator);
    let up = match (2 * rest).cmp(&denominator) {
        Ordering::Less => 0,
        Ordering::Equal => whole & 1,
        Ordering::Greater => 1,
    };
    (whole + up) as u32
}

/// Whether a float's bits are those of a number: neither an infinity nor none.
pub fn finite(bits: u32) -> bool {
    bits >> 23 & 0xFF != 0xFF
}

#[cfg(test)]
mod tests {
    use super::*;

    fn of(counts: u64, ke: u64, ratios: u64) -> u32 {
        kilowatt_hours(counts * ke * ratios)
    }

    #[test]
    fn zero_and_the_smallest() {
        assert_eq!([0, 1, 20].map(kilowatt_hours), [0, 0x3586_37BD, 0x37A7_C5AC]);
    }

    #[test]
    fn ties_to_even() {
        assert_eq!(of(24_929, 673, 1_000_000), 0x4B80_0000, "16,777,217 kWh");
        let whole = [16_777_217, 16_777_219, 16_777_223].map(|kwh| of(1, kwh, 1_000_000));
        assert_eq!(whole, [0x4B80_0000, 0x4B80_0002, 0x4B80_0004]);
        assert_eq!(of(1, 16_777_217, 1_000_000) + 1, kilowatt_hours(16_777_217_000_001), "one past the tie");
        assert_eq!(of(1, 16_777_219, 1_000_000) - 1, kilowatt_hours(16_777_218_999_999), "one short of it");
    }

    #[test]
    fn the_largest() {
        assert_eq!(of(65_535, 65_535, 1_000_000), 0x4F7F_FE00);
    }

    #[test]
    fn bits_that_carry_into_the_exponent() {
        // 2^25 - 1 kWh is a tie between 2^25 - 2, which is odd, and 2^25
        assert_eq!(of(1, (1 << 25) - 1, 1_000_000), 0x4C00_0000);
        assert_eq!(kilowatt_hours(((1 << 25) - 1) * 1_000_000 - 1), 0x4BFF_FFFF);
    }

    #[test]
    fn whole_powers_of_two() {
        for power in 0..33 {
            assert_eq!(kilowatt_hours(1_000_000 << power), (127 + power) << 23);
        }
    }

    #[test]
    fn neither_infinities_nor_no_numbers_are_finite() {
        assert!([0, 0x8000_0000, 1, 0x7F7F_FFFF, 0xFF7F_FFFF].into_iter().all(finite));
        assert!(![0x7F80_0000, 0xFF80_0000, 0x7FC0_0000, 0x7F80_0001, 0xFFFF_FFFF].into_iter().any(finite));
    }
}
