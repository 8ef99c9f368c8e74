//! The console of CONSOLE.md over the model: a line in, a line out, at once.

use metlazuel_check::model::calendar::Moment;
use metlazuel_check::model::log::{self, Ask, Cell, Header, Log};
use metlazuel_check::model::mercury::{self, Reading};
use metlazuel_check::model::meter::{self, Level, Phases, Ratios, Record, Season, Telemetry};
use metlazuel_check::model::reader::{Figures, Request, READ, READ_SHOWN};
use metlazuel_check::model::refusal::Refusal;
use std::io::{self, BufRead, Write};

const LONGEST_LINE: usize = 4_096;
const MOST_SECONDS: u32 = 100_000_000;
/// The Mercury 206 of the start, with all its figures zero.
const MERCURY_ADDRESS: u32 = 1_234;
const START: [&str; 12] = ["1", "30", "400", "100", "0", "2000", "1", "1", "0", "0", "0", "0"];

fn main() -> io::Result<()> {
    let mut console = Console::new();
    let mut input = io::stdin().lock();
    let mut output = io::stdout().lock();
    let mut line = Vec::new();
    while input.read_until(b'\n', &mut line)? > 0 {
        let text = line.strip_suffix(b"\n").unwrap_or(&line);
        // "a carriage return at a line's end is dropped"
        let text = text.strip_suffix(b"\r").unwrap_or(text);
        if !passed_over(text) {
            writeln!(output, "{}", console.line(text))?;
            output.flush()?;
        }
        line.clear();
    }
    Ok(())
}

/// An empty line or one that begins with # prints nothing.
fn passed_over(line: &[u8]) -> bool {
    line.is_empty() || line[0] == b'#'
}

/// What the console keeps: a log image with its figures, an open ask, a meter record and a slice store; a Mercury 206's address and figures.
struct Console {
    log: Log,
    open: Option<Ask>,
    record: Record,
    store: Vec<u8>,
    mercury: (u32, mercury::Figures),
}

/// An answer's line, or None for a line that cannot be read.
type Line = Option<String>;

impl Console {
    fn new() -> Console {
        let record = new_record(&START).expect("readable").expect("in range");
        let mercury = (MERCURY_ADDRESS, mercury::Figures::ZEROS);
        let log = Log { image: vec![], figures: vec![] };
        Console { log, open: None, record, store: meter::empty_store(), mercury }
    }

    fn line(&mut self, line: &[u8]) -> String {
        let text = std::str::from_utf8(line).ok().filter(|text| text.len() <= LONGEST_LINE);
        let words: Option<Vec<&str>> = text.map(|text| text.split(' ').collect());
        words.and_then(|words| self.call(words[0], &words[1..])).unwrap_or_else(|| "?".into())
    }

    fn call(&mut self, name: &str, words: &[&str]) -> Line {
        match name {
            "log" => self.log(words),
            "load" => self.load(words),
            "save" => self.save(words),
            "ask" => self.ask(words),
            "lapse" => self.lapse(words),
            "reply" => self.reply(words),
            "open" => self.open(words),
            "cell" => self.cell(words),
            "report" => self.report(words),
            "request" => request(READ, words),
            "request4" => request(READ_SHOWN, words),
            "decode" => decode(READ, words),
            "decode4" => decode(READ_SHOWN, words),
            "meter" => self.meter(words),
            "power" => self.power(words),
            "ratio" => self.ratio(words),
            "slice" => self.slice(words),
            "second" => self.second(words),
            "frame" => self.frame(words),
            "record" => self.record(words),
            "shown" => self.shown(words),
            "inquire" => self.inquire(READ, words),
            "inquire4" => self.inquire(READ_SHOWN, words),
            "mercury" => self.mercury(words),
            "mercury-frame" => self.mercury_frame(words),
            "mercury-ask" => mercury_ask(words),
            "mercury-decode" => mercury_decode(words),
            _ => None,
        }
    }

    // Log and reader

    fn log(&mut self, words: &[&str]) -> Line {
        let [year, month, day, days, minutes, ke, seasons] = *words else { return None };
        let [month, day, days, minutes, seasons] = bytes(&[month, day, days, minutes, seasons])?;
        let (year, ke) = (since_2000(word(year)?), word(ke)?);
        let log = year.and_then(|year| log::fresh(Header { year, month, day, days, minutes, ke, seasons }));
        Some(done(log.map(|log| self.hold(log))))
    }

    fn load(&mut self, words: &[&str]) -> Line {
        let [path] = *words else { return None };
        let file = std::fs::read(path).ok()?;
        Some(done(log::read_file(&file).map(|log| self.hold(log))))
    }

    /// A new log; the open ask closes with it.
    fn hold(&mut self, log: Log) {
        self.log = log;
        self.open = None;
    }

    fn save(&mut self, words: &[&str]) -> Line {
        let [path] = *words else { return None };
        let file = log::write_file(&self.log.image);
        if let Ok(bytes) = &file {
            std::fs::write(path, bytes).ok()?;
        }
        Some(done(file.map(|_| ())))
    }

    fn ask(&mut self, words: &[&str]) -> Line {
        let [address, day, slot] = bytes(words)?;
        let frame = log::ask(&self.log.image, &mut self.open, Ask { address, day, slot });
        Some(said(frame.map(|frame| hex(&frame))))
    }

    fn lapse(&mut self, words: &[&str]) -> Line {
        let [] = *words else { return None };
        Some(done(log::lapse(&mut self.log.image, &mut self.open)))
    }

    fn reply(&mut self, words: &[&str]) -> Line {
        let reply = string_or_nothing(words)?;
        let Log { image, figures } = &mut self.log;
        Some(done(log::take(image, figures, &mut self.open, &reply)))
    }

    fn open(&self, words: &[&str]) -> Line {
        let [] = *words else { return None };
        Some(said(Ok(match self.open {
            Some(Ask { address, day, slot }) => format!("{address} {day} {slot}"),
            None => "closed".into(),
        })))
    }

    fn cell(&self, words: &[&str]) -> Line {
        let [day, slot] = bytes(words)?;
        Some(said(self.cell_and_lapses(day, slot)))
    }

    fn cell_and_lapses(&self, day: u8, slot: u8) -> Result<String, Refusal> {
        let (cell, lapses) = (log::cell(&self.log.image, day, slot)?, log::lapses(&self.log.image, day, slot)?);
        Ok(match cell {
            Cell::Gap => format!("gap {lapses}"),
            Cell::Empty => format!("empty {lapses}"),
            Cell::Measured(counts) => format!("measured {} {lapses}", list(counts)),
        })
    }

    fn report(&self, words: &[&str]) -> Line {
        let [day] = bytes(words)?;
        Some(said(log::report(&self.log.image, &self.log.figures, day).map(list)))
    }

    // Bench meter

    fn meter(&mut self, words: &[&str]) -> Line {
        let record = new_record(words)?;
        Some(done(record.map(|record| {
            self.record = record;
            self.store = meter::empty_store();
        })))
    }

    fn power(&mut self, words: &[&str]) -> Line {
        let [parameter, a, b, c] = *words else { return None };
        let (parameter, phases) = (byte(parameter)?, Phases { a: float(a)?, b: float(b)?, c: float(c)? });
        Some(done(self.record.set_power(parameter, phases)))
    }

    fn ratio(&mut self, words: &[&str]) -> Line {
        let [ki, ku] = *words else { return None };
        Some(done(self.record.set_ratios(Ratios { ki: long(ki)?, ku: long(ku)? })))
    }

    fn slice(&mut self, words: &[&str]) -> Line {
        let [month, day, number, a, b, c, d] = *words else { return None };
        let [month, day, number] = bytes(&[month, day, number])?;
        let counts = [word(a)?, word(b)?, word(c)?, word(d)?];
        Some(done(self.record.put_slice(&mut self.store, month, day, number, counts)))
    }

    fn second(&mut self, words: &[&str]) -> Line {
        let [seconds] = *words else { return None };
        (0..number(seconds, MOST_SECONDS)?).for_each(|_| self.record.second());
        Some(done(Ok(())))
    }

    /// Number and reply, also for a refusal frame; for silence the number alone.
    fn frame(&mut self, words: &[&str]) -> Line {
        let [frame] = *words else { return None };
        let (outcome, reply) = self.wire(&string(frame)?);
        let number = done(outcome);
        Some(if reply.is_empty() { number } else { format!("{number} {}", hex(&reply)) })
    }

    /// A frame on the wire: what happened, and the reply's bytes, none for silence.
    fn wire(&mut self, frame: &[u8]) -> (Result<(), Refusal>, Vec<u8>) {
        let mut out = [0; 64];
        let (outcome, length) = meter::answer(&mut self.record, &mut self.store, frame, &mut out);
        (outcome, out[..length].to_vec())
    }

    fn record(&self, words: &[&str]) -> Line {
        let [] = *words else { return None };
        let Record { address, protection, clock, season, next, ratios, .. } = &self.record;
        let (level, season) = (level_number(protection.level), season_number(*season));
        let year = 2_000 + u16::from(clock.year);
        let time = list([clock.month, clock.day, clock.hour, clock.minute, clock.second]);
        let Ratios { ki, ku } = ratios;
        Some(format!("0 {address} {level} {} {year} {time} {season} {next} {ki} {ku}", protection.seconds))
    }

    fn shown(&self, words: &[&str]) -> Line {
        let [] = *words else { return None };
        Some(said(Ok(hex(&self.record.shown()))))
    }

    /// A read request sent to the console's own meter and its reply decoded, in one call.
    fn inquire(&mut self, function: u8, words: &[&str]) -> Line {
        let request = read_request(function, words)?;
        Some(said(request.frame().and_then(|frame| self.ask_own_meter(&request, &frame))))
    }

    fn ask_own_meter(&mut self, request: &Request, frame: &[u8]) -> Result<String, Refusal> {
        match self.wire(frame) {
            (Err(silence), reply) if reply.is_empty() => Err(silence),
            (_, reply) => request.decode(&reply).map(figures),
        }
    }

    // Mercury 206

    /// The bench's address and figures; a refused line keeps the ones before.
    fn mercury(&mut self, words: &[&str]) -> Line {
        let bench = mercury_bench(words)?;
        Some(done(bench.1.check().map(|()| self.mercury = bench)))
    }

    /// Number and reply; for silence the number alone.
    fn mercury_frame(&mut self, words: &[&str]) -> Line {
        let [frame] = *words else { return None };
        let ((address, figures), mut out) = (&self.mercury, [0; 64]);
        let (outcome, length) = mercury::answer(*address, figures, &string(frame)?, &mut out);
        Some(said(outcome.map(|()| hex(&out[..length]))))
    }
}

fn mercury_ask(words: &[&str]) -> Line {
    let [address, command] = *words else { return None };
    let frame = mercury::request(long(address)?, byte(command)?);
    Some(said(frame.map(|frame| hex(&frame))))
}

fn mercury_decode(words: &[&str]) -> Line {
    let [address, command, ref reply @ ..] = *words else { return None };
    let (address, command, reply) = (long(address)?, byte(command)?, string_or_nothing(reply)?);
    Some(said(mercury::decode(address, command, &reply).map(reading)))
}

fn request(function: u8, words: &[&str]) -> Line {
    Some(said(read_request(function, words)?.frame().map(|frame| hex(&frame))))
}

fn decode(function: u8, words: &[&str]) -> Line {
    let (request, reply) = words.split_at_checked(5)?;
    let (request, reply) = (read_request(function, request)?, string_or_nothing(reply)?);
    Some(said(request.decode(&reply).map(figures)))
}

// Words read

fn read_request(function: u8, words: &[&str]) -> Option<Request> {
    let [address, parameter, offset, tariff, detail] = bytes(words)?;
    Some(Request { address, function, parameter, offset, tariff, detail })
}

/// ADDRESS MINUTES K KE RESERVE YEAR MONTH DAY HOUR MINUTE SECOND SEASON
fn new_record(words: &[&str]) -> Option<Result<Record, Refusal>> {
    let [address, minutes, k, ke, reserve, year, ref rest @ ..] = *words else { return None };
    let [address, minutes] = bytes(&[address, minutes])?;
    let telemetry = Telemetry { k: number(k, u32::MAX)?, ke: word(ke)?, reserve: word(reserve)? };
    let year = since_2000(word(year)?);
    let [month, day, hour, minute, second, season] = bytes(rest)?;
    Some(year.and_then(|year| {
        let clock = Moment { year, month, day, hour, minute, second };
        meter::make(address, minutes, telemetry, clock, season_of(season)?)
    }))
}

/// ADDRESS T1 T2 T3 T4 VOLTAGE CURRENT POWER FREQUENCY REST
fn mercury_bench(words: &[&str]) -> Option<(u32, mercury::Figures)> {
    let [address, t1, t2, t3, t4, voltage, current, power, frequency, rest] = *words else { return None };
    let figures = mercury::Figures {
        tariffs: [long(t1)?, long(t2)?, long(t3)?, long(t4)?],
        voltage: word(voltage)?,
        current: word(current)?,
        power: long(power)?,
        frequency: word(frequency)?,
        rest: string(rest)?.try_into().ok()?,
    };
    Some((long(address)?, figures))
}

/// Year - 2000; a year outside 2000..2099 is a setting out of range.
fn since_2000(year: u16) -> Result<u8, Refusal> {
    match year {
        2_000..=2_099 => Ok((year - 2_000) as u8),
        _ => Err(Refusal::OutOfRange),
    }
}

fn season_of(number: u8) -> Result<Season, Refusal> {
    match number {
        0 => Ok(Season::Winter),
        1 => Ok(Season::Summer),
        _ => Err(Refusal::OutOfRange),
    }
}

/// Exactly N numbers of one byte.
fn bytes<const N: usize>(words: &[&str]) -> Option<[u8; N]> {
    let bytes: Option<Vec<u8>> = words.iter().map(|text| byte(text)).collect();
    bytes?.try_into().ok()
}

fn byte(text: &str) -> Option<u8> {
    number(text, u32::from(u8::MAX)).map(|number| number as u8)
}

fn word(text: &str) -> Option<u16> {
    number(text, u32::from(u16::MAX)).map(|number| number as u16)
}

fn long(text: &str) -> Option<u32> {
    number(text, u32::MAX)
}

/// A decimal number without sign, up to `most`.
fn number(text: &str, most: u32) -> Option<u32> {
    if text.is_empty() || !text.bytes().all(|digit| digit.is_ascii_digit()) {
        return None;
    }
    text.parse().ok().filter(|number| *number <= most)
}

/// Exactly 8 hex digits, the float's bits as a number.
fn float(text: &str) -> Option<f32> {
    let bytes: [u8; 4] = string(text)?.try_into().ok()?;
    Some(f32::from_bits(u32::from_be_bytes(bytes)))
}

/// A byte string: pairs of hex digits, at least one.
fn string(text: &str) -> Option<Vec<u8>> {
    let digits: Option<Vec<u8>> = text.chars().map(|digit| digit.to_digit(16).map(|d| d as u8)).collect();
    let digits = digits.filter(|digits| !digits.is_empty() && digits.len() % 2 == 0)?;
    Some(digits.chunks_exact(2).map(|pair| pair[0] << 4 | pair[1]).collect())
}

/// A byte string as the last word, or no word for no bytes.
fn string_or_nothing(words: &[&str]) -> Option<Vec<u8>> {
    match *words {
        [] => Some(vec![]),
        [text] => string(text),
        _ => None,
    }
}

// Words said

/// The answer's number and, for a 0, what comes with it; a 24 comes with the meter's result, a 50 with the length received.
fn said(answer: Result<String, Refusal>) -> String {
    match answer {
        Ok(words) => format!("0 {words}"),
        Err(Refusal::MeterRefused(result)) => format!("24 {result}"),
        Err(Refusal::ReplyLength(length)) => format!("50 {length}"),
        Err(refusal) => refusal.number().to_string(),
    }
}

/// As `said`, where nothing comes with a 0.
fn done(answer: Result<(), Refusal>) -> String {
    match answer {
        Ok(()) => "0".into(),
        Err(refusal) => said(Err(refusal)),
    }
}

fn hex(bytes: &[u8]) -> String {
    bytes.iter().map(|byte| format!("{byte:02X}")).collect()
}

fn list<T: ToString>(items: impl IntoIterator<Item = T>) -> String {
    let words: Vec<String> = items.into_iter().map(|item| item.to_string()).collect();
    words.join(" ")
}

fn figures(figures: Figures) -> String {
    match figures {
        Figures::Address(address) => address.to_string(),
        Figures::Powers(powers) => list(powers.iter().map(|power| format!("{:08X}", power.to_bits()))),
        Figures::Telemetry { k, ke, reserve } => format!("{k} {ke} {reserve}"),
        Figures::Date(bytes) | Figures::Mask(bytes) => list(bytes),
        Figures::Slice(counts) => list(counts),
        Figures::SliceShown(energies) => list(energies.map(|bits| format!("{bits:08X}"))),
        Figures::SixSlices(rows) => list(rows.into_iter().flatten()),
    }
}

fn reading(reading: Reading) -> String {
    match reading {
        Reading::Tariffs(tariffs) => list(tariffs),
        Reading::Instant { voltage, current, power } => format!("{voltage} {current} {power}"),
        Reading::Frequency { frequency, rest } => format!("{frequency} {}", hex(&rest)),
    }
}

fn level_number(level: Level) -> u8 {
    match level {
        Level::Shut => 0,
        Level::Auxiliary => 1,
        Level::Main => 2,
    }
}

fn season_number(season: Season) -> u8 {
    match season {
        Season::Winter => 0,
        Season::Summer => 1,
    }
}
