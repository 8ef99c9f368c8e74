//! Function 4's floats: meters with every Ke and ratios, and counts that come near to a tie with them or meet it.

use crate::dialogue::call;
use crate::layout::RECORD_BYTES;
use crate::random::Random;
use crate::run::Group;
use crate::settings::{right_k, right_settings, Settings};
use crate::ties::{from_tie, near_tie, right_ke, right_ratios};
use crate::twin::{made, Call, Twin};
use metlazuel_check::model::meter::{Ratios, Telemetry};
use metlazuel_check::model::reader::{slice_request, Request, READ_SHOWN};

const METERS: u64 = 50_000;
const SLICES_OF_A_METER: u8 = 20;
/// The largest and the smallest figures, and what the papers name.
const CORNERS: [(u16, u32, u32, u16); 9] = [
    (1, 1, 1, 1),
    (1, 1, 1, 20),
    (1, 1, 1, 65_535),
    (100, 1, 1, 12),
    (673, 1_000, 1_000, 24_929),
    (1_549, 1_000, 1_000, 10_831),
    (10_000, 1, 148_471, 11_300),
    (601, 1_000, 1_000, 55_831),
    (65_535, 1_000, 1_000, 65_535),
];

/// Four figures a slice: most near to a tie, the last any. The reply's floats are compared bit by bit, as are the record and the store.
#[test]
fn near_ties() {
    let mut group = Group::new("function 4 near ties");
    let (mut figures, mut ties) = (0, 0);
    for case in 0..METERS {
        let random = &mut Random::of(group.seed, case);
        let (ke, ratios) = (right_ke(random), right_ratios(random));
        let weight = u64::from(ke) * u64::from(ratios.ki) * u64::from(ratios.ku);
        let mut twin = meter(&mut group, case, random, ke, ratios);
        for slot in 0..SLICES_OF_A_METER {
            let mut counts: [u16; 4] = std::array::from_fn(|_| near_tie(random, weight));
            counts[3] = random.word() >> random.below(16);
            ask(&mut group, case, &mut twin, slot, counts);
            figures += counts.len();
            ties += counts.iter().filter(|counts| **counts > 0 && from_tie(u64::from(**counts) * weight) == 0).count();
        }
    }
    assert!(ties > figures / 20, "{ties} of {figures} figures were ties or all but ties");
    println!("{ties} of {figures} figures were ties or all but ties");
    group.end(&[0]);
}

#[test]
fn corners() {
    let mut group = Group::new("function 4 in the corners");
    for (case, (ke, ki, ku, counts)) in (0..).zip(CORNERS) {
        let random = &mut Random::of(group.seed, case);
        let mut twin = meter(&mut group, case, random, ke, Ratios { ki, ku });
        ask(&mut group, case, &mut twin, 0, [counts, counts - 1, counts.saturating_add(1), 0]);
    }
    group.end(&[0]);
}

fn meter(group: &mut Group, case: u64, random: &mut Random, ke: u16, ratios: Ratios) -> Twin {
    let telemetry = Telemetry { k: right_k(random, ke), ke, reserve: random.word() };
    let settings = Settings { telemetry, ..right_settings(random) };
    let (answer, twin) = made(&settings, &random.bytes(RECORD_BYTES));
    group.call(case, answer, || format!("{settings:?}"));
    let mut twin = twin.expect("settings in their ranges");
    call(group, case, &mut twin, &Call::Ratios(ratios));
    twin
}

/// The slice put and asked for.
fn ask(group: &mut Group, case: u64, twin: &mut Twin, slot: u8, counts: [u16; 4]) {
    call(group, case, twin, &Call::Slice([5, 17, slot], counts));
    let address = twin.record.as_ref().expect("a record").address;
    let request = Request { function: READ_SHOWN, ..slice_request(address, 5, 17, slot) };
    call(group, case, twin, &Call::Frame(request.frame().expect("in range"), vec![0xA5; 64]));
}
