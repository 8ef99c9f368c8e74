//! Function 4's floats, reckoned a second time: the model divides once and rounds; here the float is searched for among all floats in
//! their order, by comparing whole numbers with the middle of each and the next. Some millions of figures, ties and their neighbours
//! above all. The machine's own division, which is rounded twice, says the same of every one of them that it can hold.

#[path = "compare/random.rs"]
#[allow(dead_code)]
mod random;
#[path = "compare/ties.rs"]
mod ties;

use metlazuel_check::model::calendar::Moment;
use metlazuel_check::model::crc::sealed;
use metlazuel_check::model::meter::{self, answer, empty_store, Season, Telemetry};
use metlazuel_check::model::reader::{slice_request, Figures, Request, READ_SHOWN};
use metlazuel_check::model::shown::kilowatt_hours;
use random::Random;
use ties::{from_tie, near_tie, right_ke, right_ratios};

const SEED: u64 = 3;
const SMALL: u64 = 1_000_000;
const TIES: u64 = 400_000;
const ANY: u64 = 1_000_000;
const METERS: u64 = 15_000;
const SLICES_OF_A_METER: u8 = 12;
/// The bits of 2^-21 and of 2^46: below and above every n / 1,000,000 but zero.
const FIRST: u32 = (127 - 21) << 23;
const LAST: u32 = (127 + 46) << 23;
/// What a whole number of 53 bits and no more can say is exact in 64 bits of float.
const EXACT: u64 = 1 << 53;

/// Whether n / 1,000,000 belongs to this float or one before it: it is below the middle between this float and the next, or in the middle
/// where this one is even. Cross-multiplied, in 2^-45 kilowatt-hours.
fn at_most(n: u64, bits: u32) -> bool {
    let (exponent, kept) = (bits >> 23, u128::from(bits & 0x7F_FFFF));
    let middle = (2 * (kept + (1 << 23)) + 1) << (exponent - (FIRST >> 23));
    let (ours, middle) = (u128::from(n) << 45, middle * 1_000_000);
    ours < middle || ours == middle && bits % 2 == 0
}

/// The first float that n / 1,000,000 belongs to.
fn searched(n: u64) -> u32 {
    if n == 0 {
        return 0;
    }
    let (mut first, mut last) = (FIRST, LAST);
    while first < last {
        let middle = first + (last - first) / 2;
        (first, last) = if at_most(n, middle) { (first, middle) } else { (middle + 1, last) };
    }
    first
}

fn check(n: u64) {
    let (bits, searched) = (kilowatt_hours(n), searched(n));
    assert!(bits == searched, "n {n}: {bits:08X} and {searched:08X}");
    if n < EXACT {
        assert_eq!(f32::from_bits(bits), (n as f64 / 1.0e6) as f32, "n {n}");
    }
}

#[test]
fn the_search_knows_the_vectors() {
    let ns = [0, 1, 20, 16_777_217_000_000, 16_777_219_000_000, 16_777_223_000_000, 65_535 * 65_535 * 1_000_000];
    let bits = [0, 0x3586_37BD, 0x37A7_C5AC, 0x4B80_0000, 0x4B80_0002, 0x4B80_0004, 0x4F7F_FE00];
    assert_eq!(ns.map(searched), bits);
}

#[test]
fn small_figures() {
    (0..SMALL).for_each(check);
}

/// An odd number of 25 bits times 15,625 x 2^k is a tie.
#[test]
fn ties_and_their_neighbours() {
    let random = &mut Random::of(SEED, 0);
    for case in 0..TIES {
        let odd = (1 << 24) + 2 * random.below(1 << 23) as u64 + 1;
        let tie = (odd * 15_625) << (case % 14);
        assert_eq!(from_tie(tie), 0);
        (tie - 2..=tie + 2).for_each(check);
        let away = 1 + random.below(1 << 20) as u64;
        [tie - away, tie + away].into_iter().for_each(check);
    }
}

/// The floats themselves, as near as a whole n comes to them, and what lies about the powers of two.
#[test]
fn floats_and_powers_of_two() {
    let random = &mut Random::of(SEED, 1);
    for case in 0..TIES {
        let exponent = 127 - 19 + (case % 52) as u32;
        let any = random.long() >> 9;
        let kept = random.pick(&[0, 1, 2, 0x7F_FFFE, 0x7F_FFFF, any]);
        let float = f64::from(f32::from_bits((exponent << 23) + kept)) * 1.0e6;
        let n = float as u64;
        (n.max(2) - 2..=n + 2).for_each(check);
    }
}

#[test]
fn figures_of_every_size() {
    let random = &mut Random::of(SEED, 2);
    for _ in 0..ANY {
        let n = u64::from(random.long()) << 32 | u64::from(random.long());
        check(n >> random.below(64));
    }
}

/// Through the bench meter and back by the reader: counts that come near to a tie with the meter's Ke, KI and KU.
#[test]
fn what_the_bench_meter_answers() {
    let mut ties = 0;
    for case in 0..METERS {
        let random = &mut Random::of(SEED, 3 + case);
        let (ke, ratios) = (right_ke(random), right_ratios(random));
        let clock = Moment { year: 24, month: 5, day: 17, hour: 0, minute: 0, second: 0 };
        let telemetry = Telemetry { k: 5_000_000 / u32::from(ke), ke, reserve: 0 };
        let mut record = meter::make(1, 30, telemetry, clock, Season::Summer).expect("in range");
        record.set_ratios(ratios).expect("in range");
        let weight = u64::from(ke) * u64::from(ratios.ki) * u64::from(ratios.ku);
        let mut store = empty_store();
        for slot in 0..SLICES_OF_A_METER {
            let counts: [u16; 4] = std::array::from_fn(|_| near_tie(random, weight));
            record.put_slice(&mut store, 5, 17, slot, counts).expect("a legal key");
            let request = Request { function: READ_SHOWN, ..slice_request(1, 5, 17, slot) };
            let mut out = [0; 64];
            let (outcome, length) = answer(&mut record, &mut store, &request.frame().expect("in range"), &mut out);
            assert_eq!((outcome, length), (Ok(()), 22));
            let energies = counts.map(|counts| u64::from(counts) * weight);
            assert_eq!(request.decode(&out[..length]), Ok(Figures::SliceShown(energies.map(searched))));
            let floats: Vec<u8> = energies.iter().flat_map(|n| searched(*n).to_le_bytes()).collect();
            assert_eq!(out[..length], sealed([&[1, 4, 36, 0][..], &floats].concat()));
            ties += energies.iter().filter(|n| from_tie(**n) == 0).count();
        }
    }
    let figures = METERS as usize * usize::from(SLICES_OF_A_METER) * 4;
    assert!(ties > figures / 20, "{ties} of {figures} figures were ties or all but ties");
    println!("{ties} of {figures} figures were ties or all but ties");
}
