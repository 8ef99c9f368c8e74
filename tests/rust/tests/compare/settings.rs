//! What a meter is made with.

use crate::random::Random;
use crate::ties::right_ratios;
use crate::times::{first_time, spoiled};
use metlazuel_check::model::calendar::Moment;
use metlazuel_check::model::meter::{Ratios, Telemetry};

#[derive(Clone, Copy, Debug)]
pub struct Settings {
    pub address: u8,
    pub minutes: u8,
    pub telemetry: Telemetry,
    pub clock: Moment,
    /// 0 winter, 1 summer; any other is none
    pub season: u8,
}

/// Settings in their ranges.
pub fn right_settings(random: &mut Random) -> Settings {
    let ke = any_ke(random);
    Settings {
        address: random.within(1, 255),
        minutes: random.pick(&[15, 30]),
        telemetry: Telemetry { k: right_k(random, ke), ke, reserve: random.word() },
        clock: first_time(random),
        season: random.within(0, 1),
    }
}

/// Settings of which one may be out of its range.
pub fn any_settings(random: &mut Random) -> Settings {
    let mut settings = right_settings(random);
    match random.below(6) {
        0 => settings.address = random.within(0, 1),
        1 => settings.minutes = random.pick(&[0, 1, 14, 16, 29, 31, 45, 60, 255]),
        2 => settings.telemetry = any_telemetry(random, settings.telemetry.ke),
        3 => settings.clock = spoiled(random, settings.clock),
        4 => settings.season = random.byte(),
        _ => {}
    }
    settings
}

fn any_ke(random: &mut Random) -> u16 {
    match random.below(4) {
        0 => random.pick(&[1, 2, 20, 100, 255, 256, 4_999, 5_000, 40_000, 65_535]),
        1 => random.word().max(1),
        _ => u16::from(random.byte()).max(1),
    }
}

/// The least and the most K for a Ke: K x Ke from 40,000 to 5,000,000.
fn bounds(ke: u16) -> (u32, u32) {
    (40_000_u32.div_ceil(u32::from(ke)), 5_000_000 / u32::from(ke))
}

pub fn right_k(random: &mut Random, ke: u16) -> u32 {
    let (least, most) = bounds(ke);
    match random.below(3) {
        0 => least,
        1 => most,
        _ => least + random.below((most - least + 1) as usize) as u32,
    }
}

/// At the bounds and past them, for the Ke of the record or another, and products past 32 bits.
pub fn any_telemetry(random: &mut Random, stored: u16) -> Telemetry {
    let ke = match random.below(8) {
        0 => random.word(),
        1 => stored.wrapping_add(1),
        _ => stored,
    };
    let (least, most) = bounds(ke.max(1));
    let k = match random.below(8) {
        0 => least - 1,
        1 => least,
        2 => most,
        3 => most + 1,
        4 => random.long(),
        5 => wrapping_k(random, ke.max(1), least),
        _ => right_k(random, ke.max(1)),
    };
    Telemetry { k, ke, reserve: random.word() }
}

/// A K whose product with Ke is in range only when it is cut to 32 bits.
fn wrapping_k(random: &mut Random, ke: u16, least: u32) -> u32 {
    let turn = ((1_u64 << 32) / u64::from(ke)) as u32;
    turn.wrapping_add(least).wrapping_add(random.within(0, 2).into())
}

/// In their range most often; else at its bounds and past them, and products past 32 bits that are in range when they are cut.
pub fn any_ratios(random: &mut Random) -> Ratios {
    let (ki, ku) = match random.below(8) {
        0 => (random.below(3) as u32, random.below(3) as u32),
        1 => random.pick(&[(1_000, 1_000), (1_001, 1_000), (1, 1_000_000), (1_000_001, 1), (2, 500_000), (500_001, 2)]),
        2 => random.pick(&[(65_536, 65_536), (65_537, 65_536), (u32::MAX, u32::MAX), (1 << 31, 2), (u32::MAX, 1)]),
        3 => (random.long(), random.long() >> random.below(32)),
        _ => return right_ratios(random),
    };
    Ratios { ki, ku }
}
