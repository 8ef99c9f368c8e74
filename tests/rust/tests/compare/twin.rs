//! Two bench meters that get the same calls: the model's and the library's.

use crate::layout::{bytes_of, record_of, season_of, RECORD_BYTES};
use crate::library;
use crate::run::{same, same_bytes, Answer, Same};
use crate::settings::Settings;
use metlazuel_check::model::meter::{answer, empty_store, make, Phases, Ratios, Record, STORE_BYTES};
use metlazuel_check::model::reader::{READ, READ_SHOWN};
use metlazuel_check::model::refusal::Refusal;

#[derive(Clone, Debug)]
pub enum Call {
    /// A frame, and the output as it is lent.
    Frame(Vec<u8>, Vec<u8>),
    Second,
    Slice([u8; 3], [u16; 4]),
    /// A parameter and the bits of three floats.
    Powers(u8, [u32; 3]),
    Ratios(Ratios),
}

#[derive(Clone)]
pub struct Twin {
    /// The model's record; none where the kept bytes are none.
    pub record: Option<Record>,
    /// The bytes that the library should keep.
    pub kept: Vec<u8>,
    /// The model's store.
    pub store: Vec<u8>,
    library_kept: Vec<u8>,
    library_store: Vec<u8>,
}

/// The functions that read, which change nothing of the record and so leave its bytes as they are.
const READS: [u8; 2] = [READ, READ_SHOWN];

/// The number of an outcome.
pub fn number<T>(outcome: &Result<T, Refusal>) -> u8 {
    match outcome {
        Ok(_) => 0,
        Err(refusal) => refusal.number(),
    }
}

/// What a reply's call stores through its result: only a 24 does.
pub fn told_result<T>(outcome: &Result<T, Refusal>, lent: u8) -> u8 {
    match outcome {
        Err(Refusal::MeterRefused(result)) => *result,
        _ => lent,
    }
}

/// What a reply's call stores through its length: only a 50 does.
pub fn told_length<T>(outcome: &Result<T, Refusal>, lent: usize) -> usize {
    match outcome {
        Err(Refusal::ReplyLength(length)) => *length,
        _ => lent,
    }
}

/// Makes a meter with both into bytes that are lent, and the twin where it is done.
pub fn made(settings: &Settings, lent: &[u8]) -> (Answer, Option<Twin>) {
    let outcome = model_make(settings, lent.len());
    let mut kept = lent.to_vec();
    if let Ok(record) = &outcome {
        kept[..RECORD_BYTES].copy_from_slice(&bytes_of(record));
    }
    let mut library_kept = lent.to_vec();
    let theirs = library::make(&mut library_kept, settings);
    let alike = same("number", number(&outcome), theirs).and(same_bytes("record", &kept, &library_kept));
    let answer = alike.map(|()| theirs);
    let twin = outcome.ok().filter(|_| lent.len() == RECORD_BYTES).map(|record| Twin {
        record: Some(record),
        kept,
        store: empty_store(),
        library_kept,
        library_store: empty_store(),
    });
    (answer, twin)
}

/// 1 stands before 27; a season that there is not is a setting out of range.
fn model_make(settings: &Settings, room: usize) -> Result<Record, Refusal> {
    if room < RECORD_BYTES {
        return Err(Refusal::OutputTooShort);
    }
    let season = season_of(settings.season).ok_or(Refusal::OutOfRange)?;
    make(settings.address, settings.minutes, settings.telemetry, settings.clock, season)
}

impl Twin {
    /// Other bytes in the place of the record, for both.
    pub fn keep(&mut self, kept: Vec<u8>) {
        self.record = record_of(&kept);
        self.library_kept = kept.clone();
        self.kept = kept;
    }

    /// Another store, for both.
    pub fn lend_store(&mut self, store: Vec<u8>) {
        self.library_store = store.clone();
        self.store = store;
    }

    pub fn call(&mut self, call: &Call) -> Answer {
        match call {
            Call::Frame(frame, out) => self.frame(frame, out),
            Call::Second => self.second(),
            Call::Slice(key, counts) => self.slice(*key, *counts),
            Call::Powers(parameter, bits) => self.powers(*parameter, *bits),
            Call::Ratios(ratios) => self.ratios(*ratios),
        }
    }

    /// Where nothing is sent, the lent length is left.
    fn frame(&mut self, frame: &[u8], out: &[u8]) -> Answer {
        let (mut ours, mut theirs) = (out.to_vec(), out.to_vec());
        let (outcome, sent) = self.model_answer(frame, &mut ours);
        if !frame.get(1).is_some_and(|function| READS.contains(function)) {
            self.renew(&outcome);
        }
        let mut library_length = usize::MAX;
        let length = if sent == 0 { library_length } else { sent };
        let library_number =
            library::answer(&mut self.library_kept, &mut self.library_store, frame, &mut theirs, &mut library_length);
        same("number", number(&outcome), library_number)?;
        same("length", length, library_length)?;
        same_bytes("output", &ours, &theirs)?;
        self.same_meters()?;
        Ok(library_number)
    }

    /// Bytes that are no record count as one outside its ranges: 1, then 28.
    fn model_answer(&mut self, frame: &[u8], out: &mut [u8]) -> (Result<(), Refusal>, usize) {
        match &mut self.record {
            Some(record) => answer(record, &mut self.store, frame, out),
            None if out.len() < 64 => (Err(Refusal::OutputTooShort), 0),
            None => (Err(Refusal::Unsound), 0),
        }
    }

    fn second(&mut self) -> Answer {
        let outcome = self.sound_record().map(Record::second);
        self.renew(&outcome);
        let theirs = library::second(&mut self.library_kept);
        same("number", number(&outcome), theirs)?;
        same_bytes("record", &self.kept, &self.library_kept)?;
        Ok(theirs)
    }

    fn slice(&mut self, key: [u8; 3], counts: [u16; 4]) -> Answer {
        let outcome = self.model_slice(key, counts);
        self.renew(&outcome);
        let theirs = library::slice(&mut self.library_kept, &mut self.library_store, key, counts);
        same("number", number(&outcome), theirs)?;
        self.same_meters()?;
        Ok(theirs)
    }

    fn model_slice(&mut self, [month, day, slot]: [u8; 3], counts: [u16; 4]) -> Result<(), Refusal> {
        if self.store.len() != STORE_BYTES {
            return Err(Refusal::Unsound);
        }
        let record = self.record.as_mut().filter(|record| record.sound()).ok_or(Refusal::Unsound)?;
        record.put_slice(&mut self.store, month, day, slot, counts)
    }

    fn powers(&mut self, parameter: u8, bits: [u32; 3]) -> Answer {
        let [a, b, c] = bits.map(f32::from_bits);
        let outcome = self.sound_record().and_then(|record| record.set_power(parameter, Phases { a, b, c }));
        self.renew(&outcome);
        let theirs = library::powers(&mut self.library_kept, parameter, bits);
        same("number", number(&outcome), theirs)?;
        same_bytes("record", &self.kept, &self.library_kept)?;
        Ok(theirs)
    }

    fn ratios(&mut self, ratios: Ratios) -> Answer {
        let outcome = self.sound_record().and_then(|record| record.set_ratios(ratios));
        self.renew(&outcome);
        let theirs = library::ratios(&mut self.library_kept, ratios);
        same("number", number(&outcome), theirs)?;
        same_bytes("record", &self.kept, &self.library_kept)?;
        Ok(theirs)
    }

    /// The bench's calls get 28 from a record outside its ranges.
    fn sound_record(&mut self) -> Result<&mut Record, Refusal> {
        self.record.as_mut().filter(|record| record.sound()).ok_or(Refusal::Unsound)
    }

    /// A call that is done leaves the bytes of the record after it, a refused one the bytes before it.
    fn renew(&mut self, outcome: &Result<(), Refusal>) {
        if let (Ok(()), Some(record)) = (outcome, &self.record) {
            self.kept = bytes_of(record);
        }
    }

    /// The whole record and the whole store.
    fn same_meters(&self) -> Same {
        same_bytes("record", &self.kept, &self.library_kept)?;
        same_bytes("store", &self.store, &self.library_store)
    }
}
