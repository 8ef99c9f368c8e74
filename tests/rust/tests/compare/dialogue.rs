//! Dialogues: a meter made, and then commands, seconds, slices, powers and ratios as they come.

use crate::damage::{change_byte, damaged, damaged_and_sealed};
use crate::frames::{addressed, command, key, read, Keys};
use crate::layout::RECORD_BYTES;
use crate::random::Random;
use crate::run::Group;
use crate::settings::{any_ratios, any_settings, right_settings};
use crate::twin::{made, Call, Twin};
use metlazuel_check::model::meter::{Record, PLACES, PLACE_BYTES, STORE_BYTES};

const DIALOGUES: u64 = 2_000;
const STEPS: usize = 1_000;
const MAKINGS: u64 = 100_000;
const ROUNDS: u64 = 30;
/// Right frames have at most 64 bytes, and a reply's output at least as many.
const ROOM: usize = 64;

#[test]
fn makings() {
    let mut group = Group::new("meters made");
    for case in 0..MAKINGS {
        let random = &mut Random::of(group.seed, case);
        let settings = any_settings(random);
        let length = if random.one_in(4) { random.below(100) } else { RECORD_BYTES };
        let lent = random.bytes(length);
        let (answer, _) = made(&settings, &lent);
        group.call(case, answer, || format!("{settings:?} into {length} bytes"));
    }
    group.end(&[0, 1, 27]);
}

#[test]
fn dialogues() {
    let mut group = Group::new("dialogues");
    for case in 0..DIALOGUES {
        let random = &mut Random::of(group.seed, case);
        let keys = if random.one_in(4) { Keys::All } else { Keys::Few };
        let mut twin = new_twin(&mut group, case, random);
        if random.one_in(3) {
            twin.lend_store(strange_store(random));
        }
        for _ in 0..STEPS {
            step(&mut group, case, random, &mut twin, keys);
        }
    }
    group.end(&[0, 1, 2, 10, 11, 12, 13, 14, 15, 16, 27, 28]);
}

/// More slices than there are places, so that the oldest go, and reads between them.
#[test]
fn rounds() {
    let mut group = Group::new("rounds of the store");
    for case in 0..ROUNDS {
        let random = &mut Random::of(group.seed, case);
        let mut twin = new_twin(&mut group, case, random);
        for _ in 0..2 * PLACES {
            let slice = slice_call(random, &twin, Keys::All);
            call(&mut group, case, &mut twin, &slice);
            if random.one_in(4) {
                let reading = read_call(random, &twin);
                call(&mut group, case, &mut twin, &reading);
            }
        }
    }
    group.end(&[0, 1, 2, 12, 15, 27]);
}

pub fn new_twin(group: &mut Group, case: u64, random: &mut Random) -> Twin {
    let settings = right_settings(random);
    let (answer, twin) = made(&settings, &random.bytes(RECORD_BYTES));
    group.call(case, answer, || format!("{settings:?}"));
    twin.expect("settings in their ranges")
}

/// Places with few keys, so that some stand twice, and with illegal ones.
fn strange_store(random: &mut Random) -> Vec<u8> {
    let mut store = vec![0; STORE_BYTES];
    let filled = random.below(PLACES + 1);
    for place in store.chunks_exact_mut(PLACE_BYTES).take(filled) {
        place.fill_with(|| random.byte());
        place[0] = random.within(0, 3);
        place[1] = random.within(29, 32);
        place[2] = random.within(30, 99);
    }
    store
}

/// One call with both, compared.
pub fn call(group: &mut Group, case: u64, twin: &mut Twin, call: &Call) {
    let before = twin.kept.clone();
    let answer = twin.call(call);
    group.call(case, answer, || format!("{call:?} with the record {before:?}"));
}

fn step(group: &mut Group, case: u64, random: &mut Random, twin: &mut Twin, keys: Keys) {
    match random.below(42) {
        0..=21 => call(group, case, twin, &frame_call(random, twin, keys)),
        22..=27 => seconds(group, case, random, twin),
        28..=34 => call(group, case, twin, &slice_call(random, twin, keys)),
        35..=37 => call(group, case, twin, &powers_call(random)),
        38 | 39 => call(group, case, twin, &Call::Ratios(any_ratios(random))),
        _ => damaged_meter(group, case, random, twin, keys),
    }
}

fn seconds(group: &mut Group, case: u64, random: &mut Random, twin: &mut Twin) {
    let passed = match random.below(120) {
        0 => 3_700,
        1..=6 => 236 + random.below(8),
        _ => 1 + random.below(20),
    };
    for _ in 0..passed {
        call(group, case, twin, &Call::Second);
    }
}

fn record(twin: &Twin) -> &Record {
    twin.record.as_ref().expect("a dialogue keeps a record")
}

fn frame_call(random: &mut Random, twin: &Twin, keys: Keys) -> Call {
    let words = command(random, record(twin), keys);
    let right = addressed(random, record(twin), &words);
    let frame = match random.below(12) {
        0 => damaged(random, right),
        1 => damaged_and_sealed(random, &right),
        2 if random.one_in(8) => random_bytes(random, 80),
        _ => right,
    };
    Call::Frame(frame, output(random))
}

fn read_call(random: &mut Random, twin: &Twin) -> Call {
    let words = read(random, record(twin), Keys::All);
    Call::Frame(addressed(random, record(twin), &words), output(random))
}

fn random_bytes(random: &mut Random, most: usize) -> Vec<u8> {
    let length = random.below(most);
    random.bytes(length)
}

/// A lent output, now and then too short or longer than it need be.
fn output(random: &mut Random) -> Vec<u8> {
    match random.below(16) {
        0 => random_bytes(random, 100),
        1 => random.bytes(ROOM - 1),
        _ => random.bytes(ROOM),
    }
}

fn slice_call(random: &mut Random, twin: &Twin, keys: Keys) -> Call {
    let key = key(random, record(twin).minutes, keys);
    let counts = if random.one_in(8) { [0; 4] } else { std::array::from_fn(|_| random.word()) };
    Call::Slice(key, counts)
}

fn powers_call(random: &mut Random) -> Call {
    let parameter = if random.one_in(16) { random.byte() } else { random.within(8, 9) };
    Call::Powers(parameter, std::array::from_fn(|_| power(random)))
}

/// The bits of a power: in range, at the bounds, or no finite number.
fn power(random: &mut Random) -> u32 {
    let sign = u32::from(random.byte() & 1) << 31;
    let size = match random.below(40) {
        0 => 1_000_000_f32.to_bits() + 1,
        1 => random.pick(&[0x7F80_0000, 0x7FC0_0000, 0x7F80_0001, 0x7FFF_FFFF]),
        2 => random.long() >> 1,
        3..=5 => 1_000_000_f32.to_bits(),
        6..=8 => random.pick(&[0, 1, 0x007F_FFFF, 0x0080_0000]),
        9..=20 => random.below(1_000_000_f32.to_bits() as usize) as u32,
        _ => (random.below(1_000_000_000) as f32 / 1_000.0).to_bits(),
    };
    size | sign
}

/// Calls with a damaged copy of the meter; the dialogue goes on with the sound one.
fn damaged_meter(group: &mut Group, case: u64, random: &mut Random, twin: &Twin, keys: Keys) {
    let calls = [
        frame_call(random, twin, keys),
        slice_call(random, twin, keys),
        Call::Second,
        powers_call(random),
        Call::Ratios(any_ratios(random)),
        frame_call(random, twin, keys),
    ];
    let mut copy = twin.clone();
    damage(random, &mut copy);
    for one in &calls {
        call(group, case, &mut copy, one);
    }
}

/// A byte of the record most often; else its length, or the store's.
fn damage(random: &mut Random, twin: &mut Twin) {
    let mut kept = twin.kept.clone();
    match random.below(16) {
        0 => twin.lend_store(vec![0; random.pick(&[0, 1, STORE_BYTES - 11, STORE_BYTES - 1, STORE_BYTES + 1])]),
        1 => twin.keep(damaged(random, kept)),
        _ => {
            change_byte(random, &mut kept);
            twin.keep(kept);
        }
    }
}
