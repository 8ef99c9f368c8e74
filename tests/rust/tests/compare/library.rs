//! The archive's functions as include/metlazuel.h declares them, with slices around them.

mod c {
    extern "C" {
        pub fn metlazuel_crc16(bytes: *const u8, n: usize) -> u16;
        pub fn metlazuel_read_file(
            file: *const u8,
            n: usize,
            out: *mut u8,
            room: usize,
            figures: *mut u32,
            numbers: usize,
            length: *mut usize,
        ) -> u8;
        pub fn metlazuel_day_report(
            log: *const u8,
            n: usize,
            figures: *const u32,
            numbers: usize,
            day: u8,
            row: *mut u32,
            room: usize,
        ) -> u8;
        pub fn metlazuel_write_file(log: *const u8, n: usize, out: *mut u8, room: usize, length: *mut usize) -> u8;
        pub fn metlazuel_log_fresh(
            log: *mut u8,
            room: usize,
            figures: *mut u32,
            numbers: usize,
            year: u8,
            month: u8,
            day: u8,
            days: u8,
            minutes: u8,
            ke: u16,
            seasons: u8,
            length: *mut usize,
        ) -> u8;
        pub fn metlazuel_cell(
            log: *const u8,
            n: usize,
            day: u8,
            slot: u8,
            kind: *mut u8,
            counts: *mut u16,
            lapses: *mut u8,
        ) -> u8;
        pub fn metlazuel_next_gap(log: *const u8, n: usize, day: u8, from: u8, slot: *mut u8) -> u8;
        pub fn metlazuel_ask(
            log: *const u8,
            n: usize,
            ask: *mut u8,
            size: usize,
            address: u8,
            day: u8,
            slot: u8,
            out: *mut u8,
            room: usize,
        ) -> u8;
        pub fn metlazuel_lapse(log: *mut u8, n: usize, ask: *mut u8, size: usize) -> u8;
        pub fn metlazuel_take(
            log: *mut u8,
            n: usize,
            figures: *mut u32,
            numbers: usize,
            ask: *mut u8,
            size: usize,
            reply: *const u8,
            bytes: usize,
            result: *mut u8,
            length: *mut usize,
        ) -> u8;
        pub fn metlazuel_request(
            address: u8,
            parameter: u8,
            offset: u8,
            tariff: u8,
            detail: u8,
            out: *mut u8,
            room: usize,
        ) -> u8;
        pub fn metlazuel_request4(
            address: u8,
            parameter: u8,
            offset: u8,
            tariff: u8,
            detail: u8,
            out: *mut u8,
            room: usize,
        ) -> u8;
        pub fn metlazuel_decode4(
            address: u8,
            parameter: u8,
            offset: u8,
            tariff: u8,
            detail: u8,
            reply: *const u8,
            bytes: usize,
            figures: *mut u32,
            room: usize,
            count: *mut usize,
            result: *mut u8,
            length: *mut usize,
        ) -> u8;
        pub fn metlazuel_decode(
            address: u8,
            parameter: u8,
            offset: u8,
            tariff: u8,
            detail: u8,
            reply: *const u8,
            bytes: usize,
            figures: *mut u32,
            room: usize,
            count: *mut usize,
            result: *mut u8,
            length: *mut usize,
        ) -> u8;
        pub fn metlazuel_meter_make(
            kept: *mut u8,
            n: usize,
            address: u8,
            minutes: u8,
            k: u32,
            ke: u16,
            reserve: u16,
            year: u8,
            month: u8,
            day: u8,
            hour: u8,
            minute: u8,
            second: u8,
            season: u8,
        ) -> u8;
        pub fn metlazuel_meter_answer(
            kept: *mut u8,
            n: usize,
            store: *mut u8,
            size: usize,
            frame: *const u8,
            bytes: usize,
            out: *mut u8,
            room: usize,
            length: *mut usize,
        ) -> u8;
        pub fn metlazuel_meter_second(kept: *mut u8, n: usize) -> u8;
        pub fn metlazuel_meter_slice(
            kept: *mut u8,
            n: usize,
            store: *mut u8,
            size: usize,
            month: u8,
            day: u8,
            number: u8,
            eplus: u16,
            eminus: u16,
            rplus: u16,
            rminus: u16,
        ) -> u8;
        pub fn metlazuel_meter_powers(kept: *mut u8, n: usize, parameter: u8, a: u32, b: u32, c: u32) -> u8;
        pub fn metlazuel_meter_ratios(kept: *mut u8, n: usize, ki: u32, ku: u32) -> u8;
        pub fn metlazuel_mercury_request(address: u32, command: u8, out: *mut u8, room: usize) -> u8;
        pub fn metlazuel_mercury_decode(
            address: u32,
            command: u8,
            reply: *const u8,
            bytes: usize,
            figures: *mut u32,
            room: usize,
            count: *mut usize,
        ) -> u8;
        pub fn metlazuel_mercury_answer(
            address: u32,
            first: u32,
            second: u32,
            third: u32,
            fourth: u32,
            voltage: u16,
            current: u16,
            power: u32,
            frequency: u16,
            rest: *const u8,
            size: usize,
            request: *const u8,
            bytes: usize,
            out: *mut u8,
            room: usize,
            length: *mut usize,
        ) -> u8;
    }
}

use crate::settings::Settings;
use metlazuel_check::model::calendar::Moment;
use metlazuel_check::model::log::{Ask, Header};
use metlazuel_check::model::mercury::Figures;
use metlazuel_check::model::meter::Ratios;
use metlazuel_check::model::reader::{Request, READ};

/// Numbers on both sides of what is lent, which must stay as they are.
const GUARD: u8 = 0xC3;
const GUARDS: usize = 16;
/// No number of document 01: a byte outside of what was lent was written.
const WRITTEN_PAST: u8 = 255;

/// A call that is lent a copy between guards.
fn guarded<T: Copy + PartialEq + From<u8>>(lent: &mut [T], call: impl FnOnce(&mut [T]) -> u8) -> u8 {
    let guard = [T::from(GUARD); GUARDS];
    let mut copy = [&guard[..], lent, &guard].concat();
    let within = GUARDS..GUARDS + lent.len();
    let number = call(&mut copy[within.clone()]);
    lent.copy_from_slice(&copy[within]);
    if copy.starts_with(&guard) && copy.ends_with(&guard) {
        number
    } else {
        WRITTEN_PAST
    }
}

// Each call below lends memory as long as it says, and no two of its slices overlap.

pub fn crc16(bytes: &[u8]) -> u16 {
    unsafe { c::metlazuel_crc16(bytes.as_ptr(), bytes.len()) }
}

pub fn read_file(file: &[u8], out: &mut [u8], figures: &mut [u32], length: &mut usize) -> u8 {
    guarded(out, |out| {
        guarded(figures, |figures| unsafe {
            let (n, room, numbers) = (file.len(), out.len(), figures.len());
            let (file, out, figures) = (file.as_ptr(), out.as_mut_ptr(), figures.as_mut_ptr());
            c::metlazuel_read_file(file, n, out, room, figures, numbers, length)
        })
    })
}

pub fn day_report(log: &[u8], figures: &[u32], day: u8, row: &mut [u32]) -> u8 {
    guarded(row, |row| unsafe {
        let (n, numbers, room) = (log.len(), figures.len(), row.len());
        c::metlazuel_day_report(log.as_ptr(), n, figures.as_ptr(), numbers, day, row.as_mut_ptr(), room)
    })
}

pub fn write_file(log: &[u8], out: &mut [u8], length: &mut usize) -> u8 {
    guarded(out, |out| unsafe { c::metlazuel_write_file(log.as_ptr(), log.len(), out.as_mut_ptr(), out.len(), length) })
}

pub fn fresh(log: &mut [u8], figures: &mut [u32], header: &Header, length: &mut usize) -> u8 {
    let Header { year, month, day, days, minutes, ke, seasons } = *header;
    guarded(log, |log| {
        guarded(figures, |figures| unsafe {
            let (room, numbers) = (log.len(), figures.len());
            let (log, figures) = (log.as_mut_ptr(), figures.as_mut_ptr());
            c::metlazuel_log_fresh(log, room, figures, numbers, year, month, day, days, minutes, ke, seasons, length)
        })
    })
}

/// What a cell is told as: its kind, its counts, its lapses.
pub type Lookup = (u8, [u16; 4], u8);

pub fn cell(log: &[u8], day: u8, slot: u8, (kind, counts, lapses): &mut Lookup) -> u8 {
    guarded(counts, |counts| unsafe {
        c::metlazuel_cell(log.as_ptr(), log.len(), day, slot, kind, counts.as_mut_ptr(), lapses)
    })
}

pub fn next_gap(log: &[u8], day: u8, from: u8, slot: &mut u8) -> u8 {
    unsafe { c::metlazuel_next_gap(log.as_ptr(), log.len(), day, from, slot) }
}

pub fn ask(log: &[u8], kept: &mut [u8], ask: Ask, out: &mut [u8]) -> u8 {
    let Ask { address, day, slot } = ask;
    guarded(kept, |kept| {
        guarded(out, |out| unsafe {
            let (n, size, room) = (log.len(), kept.len(), out.len());
            let (log, kept, out) = (log.as_ptr(), kept.as_mut_ptr(), out.as_mut_ptr());
            c::metlazuel_ask(log, n, kept, size, address, day, slot, out, room)
        })
    })
}

pub fn lapse(log: &mut [u8], kept: &mut [u8]) -> u8 {
    guarded(log, |log| {
        guarded(kept, |kept| unsafe {
            let (n, size) = (log.len(), kept.len());
            c::metlazuel_lapse(log.as_mut_ptr(), n, kept.as_mut_ptr(), size)
        })
    })
}

/// What a reply's call is lent beside the log: the meter's result and the length received.
pub type Said<'a> = (&'a mut u8, &'a mut usize);

pub fn take(log: &mut [u8], figures: &mut [u32], kept: &mut [u8], reply: &[u8], (result, length): Said) -> u8 {
    guarded(log, |log| {
        guarded(figures, |figures| {
            guarded(kept, |kept| unsafe {
                let (n, numbers, size, bytes) = (log.len(), figures.len(), kept.len(), reply.len());
                let (log, figures, kept, reply) =
                    (log.as_mut_ptr(), figures.as_mut_ptr(), kept.as_mut_ptr(), reply.as_ptr());
                c::metlazuel_take(log, n, figures, numbers, kept, size, reply, bytes, result, length)
            })
        })
    })
}

/// Each function has a call of its own.
pub fn request(request: &Request, out: &mut [u8]) -> u8 {
    let Request { address, function, parameter, offset, tariff, detail } = *request;
    let call = if function == READ { c::metlazuel_request } else { c::metlazuel_request4 };
    guarded(out, |out| unsafe { call(address, parameter, offset, tariff, detail, out.as_mut_ptr(), out.len()) })
}

/// What is lent beside the figures: their count, the meter's result, the length received.
pub type Told<'a> = (&'a mut usize, &'a mut u8, &'a mut usize);

pub fn decode(request: &Request, reply: &[u8], figures: &mut [u32], (count, result, length): Told) -> u8 {
    let Request { address, function, parameter, offset, tariff, detail } = *request;
    let call = if function == READ { c::metlazuel_decode } else { c::metlazuel_decode4 };
    guarded(figures, |figures| unsafe {
        let (bytes, room) = (reply.len(), figures.len());
        let (reply, figures) = (reply.as_ptr(), figures.as_mut_ptr());
        call(address, parameter, offset, tariff, detail, reply, bytes, figures, room, count, result, length)
    })
}

pub fn make(kept: &mut [u8], settings: &Settings) -> u8 {
    let Settings { address, minutes, telemetry: t, clock, season } = *settings;
    let Moment { year, month, day, hour, minute, second } = clock;
    guarded(kept, |kept| unsafe {
        let (n, kept) = (kept.len(), kept.as_mut_ptr());
        c::metlazuel_meter_make(
            kept, n, address, minutes, t.k, t.ke, t.reserve, year, month, day, hour, minute, second, season,
        )
    })
}

pub fn answer(kept: &mut [u8], store: &mut [u8], frame: &[u8], out: &mut [u8], length: &mut usize) -> u8 {
    guarded(kept, |kept| guarded(out, |out| answer_within(kept, store, frame, out, length)))
}

fn answer_within(kept: &mut [u8], store: &mut [u8], frame: &[u8], out: &mut [u8], length: &mut usize) -> u8 {
    let (n, size, bytes, room) = (kept.len(), store.len(), frame.len(), out.len());
    let (kept, store, frame, out) = (kept.as_mut_ptr(), store.as_mut_ptr(), frame.as_ptr(), out.as_mut_ptr());
    unsafe { c::metlazuel_meter_answer(kept, n, store, size, frame, bytes, out, room, length) }
}

pub fn second(kept: &mut [u8]) -> u8 {
    guarded(kept, |kept| unsafe { c::metlazuel_meter_second(kept.as_mut_ptr(), kept.len()) })
}

pub fn slice(kept: &mut [u8], store: &mut [u8], key: [u8; 3], counts: [u16; 4]) -> u8 {
    let ([month, day, number], [eplus, eminus, rplus, rminus]) = (key, counts);
    guarded(kept, |kept| unsafe {
        let (n, size) = (kept.len(), store.len());
        let (kept, store) = (kept.as_mut_ptr(), store.as_mut_ptr());
        c::metlazuel_meter_slice(kept, n, store, size, month, day, number, eplus, eminus, rplus, rminus)
    })
}

pub fn powers(kept: &mut [u8], parameter: u8, [a, b, c]: [u32; 3]) -> u8 {
    guarded(kept, |kept| unsafe { c::metlazuel_meter_powers(kept.as_mut_ptr(), kept.len(), parameter, a, b, c) })
}

pub fn ratios(kept: &mut [u8], ratios: Ratios) -> u8 {
    let Ratios { ki, ku } = ratios;
    guarded(kept, |kept| unsafe { c::metlazuel_meter_ratios(kept.as_mut_ptr(), kept.len(), ki, ku) })
}

pub fn mercury_request(address: u32, command: u8, out: &mut [u8]) -> u8 {
    guarded(out, |out| unsafe { c::metlazuel_mercury_request(address, command, out.as_mut_ptr(), out.len()) })
}

pub fn mercury_decode(address: u32, command: u8, reply: &[u8], figures: &mut [u32], count: &mut usize) -> u8 {
    guarded(figures, |figures| unsafe {
        let (bytes, room) = (reply.len(), figures.len());
        c::metlazuel_mercury_decode(address, command, reply.as_ptr(), bytes, figures.as_mut_ptr(), room, count)
    })
}

pub fn mercury_answer(address: u32, figures: &Figures, request: &[u8], out: &mut [u8], length: &mut usize) -> u8 {
    let Figures { tariffs: [first, second, third, fourth], voltage, current, power, frequency, rest } = *figures;
    guarded(out, |out| unsafe {
        let (size, bytes, room) = (rest.len(), request.len(), out.len());
        let (rest, request, out) = (rest.as_ptr(), request.as_ptr(), out.as_mut_ptr());
        c::metlazuel_mercury_answer(
            address, first, second, third, fourth, voltage, current, power, frequency, rest, size, request, bytes, out,
            room, length,
        )
    })
}
