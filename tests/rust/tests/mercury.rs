//! The Mercury 206 there and back: what the bench answers from figures, the reader decodes to them; the figures of every accepted reply
//! give it back.

#[path = "compare/damage.rs"]
#[allow(dead_code)]
mod damage;
#[path = "compare/random.rs"]
#[allow(dead_code)]
mod random;

use damage::{damaged, damaged_and_sealed};
use metlazuel_check::model::crc::sealed;
use metlazuel_check::model::mercury::{answer, decode, request, Figures, Reading};
use metlazuel_check::model::refusal::Refusal;
use random::Random;
use std::collections::BTreeSet;

const CASES: u64 = 30_000;
const SEED: u64 = 1;
const CODES: [u8; 3] = [0x27, 0x63, 0x81];

/// The reply to a right request.
fn replied(address: u32, figures: &Figures, code: u8) -> Vec<u8> {
    let mut out = [0; 64];
    let asked = request(address, code).expect("one of the three commands");
    let (outcome, length) = answer(address, figures, &asked, &mut out);
    assert_eq!(outcome, Ok(()));
    out[..length].to_vec()
}

/// What a reply with a command says of the figures.
fn said(figures: &Figures, code: u8) -> Reading {
    let Figures { tariffs, voltage, current, power, frequency, rest } = *figures;
    match code {
        0x27 => Reading::Tariffs(tariffs),
        0x63 => Reading::Instant { voltage, current, power },
        _ => Reading::Frequency { frequency, rest },
    }
}

/// Figures that a reading leaves at zero are no part of its reply.
fn figures_of(reading: Reading) -> Figures {
    match reading {
        Reading::Tariffs(tariffs) => Figures { tariffs, ..Figures::ZEROS },
        Reading::Instant { voltage, current, power } => Figures { voltage, current, power, ..Figures::ZEROS },
        Reading::Frequency { frequency, rest } => Figures { frequency, rest, ..Figures::ZEROS },
    }
}

fn any_figures(random: &mut Random) -> Figures {
    Figures {
        tariffs: std::array::from_fn(|_| below(random, 100_000_000)),
        voltage: below(random, 10_000) as u16,
        current: below(random, 10_000) as u16,
        power: below(random, 1_000_000),
        frequency: below(random, 10_000) as u16,
        rest: std::array::from_fn(|_| random.byte()),
    }
}

/// A bound now and then.
fn below(random: &mut Random, most: u32) -> u32 {
    match random.below(8) {
        0 => 0,
        1 => most - 1,
        _ => random.below(most as usize) as u32,
    }
}

fn any_address(random: &mut Random) -> u32 {
    if random.one_in(8) {
        random.pick(&[0, 1, 1_234, u32::MAX])
    } else {
        random.long()
    }
}

#[test]
fn figures_come_back() {
    for case in 0..CASES {
        let random = &mut Random::of(SEED, case);
        let (address, figures) = (any_address(random), any_figures(random));
        for code in CODES {
            let reply = replied(address, &figures, code);
            assert_eq!(decode(address, code, &reply), Ok(said(&figures, code)), "{figures:?}");
        }
    }
}

/// Replies of random digits, damaged or of any bytes: an accepted one is the reply of its figures.
#[test]
fn accepted_replies_come_back() {
    let mut numbers = BTreeSet::new();
    for case in 0..CASES {
        let random = &mut Random::of(SEED + 1, case);
        let (address, code) = (any_address(random), random.pick(&CODES));
        let right = replied(address, &any_figures(random), code);
        let reply = match random.below(6) {
            0 => damaged(random, right),
            1 => damaged_and_sealed(random, &right),
            2 => {
                let data = random.bytes(right.len() - 7);
                sealed([&right[..5], &data].concat())
            }
            _ => right,
        };
        let outcome = decode(address, code, &reply);
        numbers.insert(outcome.map_or_else(Refusal::number, |_| 0));
        if let Ok(reading) = outcome {
            assert_eq!(replied(address, &figures_of(reading), code), reply);
        }
    }
    assert_eq!(numbers, BTreeSet::from([0, 40, 41]));
}

/// The bench answers the three right requests to its own address, and no other bytes.
#[test]
fn the_bench_answers_its_own_requests_alone() {
    let mut answered = 0;
    for case in 0..CASES {
        let random = &mut Random::of(SEED + 2, case);
        let (address, figures) = (any_address(random), any_figures(random));
        let to = if random.one_in(4) { any_address(random) } else { address };
        let right = request(to, random.pick(&CODES)).expect("one of the three commands");
        let frame = match random.below(4) {
            0 => damaged(random, right),
            1 => damaged_and_sealed(random, &right),
            _ => right,
        };
        let own = CODES.iter().any(|code| request(address, *code).as_ref() == Ok(&frame));
        let mut out = [0xA5; 70];
        let (outcome, length) = answer(address, &figures, &frame, &mut out);
        assert_eq!(outcome, if own { Ok(()) } else { Err(Refusal::MercuryFrame) }, "{frame:?} to {address}");
        assert!(out[length..].iter().all(|byte| *byte == 0xA5), "past the reply");
        assert_eq!(own, length > 0);
        answered += u64::from(own);
    }
    assert!(answered > CASES / 4 && answered < CASES);
}
