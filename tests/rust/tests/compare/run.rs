//! The seed, the counts of compared calls, and what a difference says.

use std::collections::BTreeSet;
use std::fmt::Debug;
use std::io::Write;
use std::time::Instant;

/// What differed, if anything.
pub type Same = Result<(), String>;
/// The number that both gave a call, or what differed.
pub type Answer = Result<u8, String>;

pub fn same<T: PartialEq + Debug>(what: &str, model: T, library: T) -> Same {
    if model == library {
        Ok(())
    } else {
        Err(format!("{what}: the model has {model:?}, the library {library:?}"))
    }
}

/// Of long bytes only the first place where they differ is told.
pub fn same_bytes(what: &str, model: &[u8], library: &[u8]) -> Same {
    if model == library {
        return Ok(());
    }
    let at = model.iter().zip(library).position(|(ours, theirs)| ours != theirs);
    let part = |bytes: &[u8]| bytes.iter().skip(at.unwrap_or(0)).take(16).copied().collect::<Vec<u8>>();
    Err(format!("{what} from byte {at:?}: the model has {:?}, the library {:?}", part(model), part(library)))
}

/// Of long rows of numbers likewise.
pub fn same_numbers(what: &str, model: &[u32], library: &[u32]) -> Same {
    match model.iter().zip(library).position(|(ours, theirs)| ours != theirs) {
        None => same("how many", model.len(), library.len()),
        Some(at) => Err(format!("{what}, number {at}: the model has {}, the library {}", model[at], library[at])),
    }
}

/// METLAZUEL_SEED, else 1.
pub fn seed() -> u64 {
    match std::env::var("METLAZUEL_SEED") {
        Ok(text) => text.parse().expect("METLAZUEL_SEED is a whole number"),
        Err(_) => 1,
    }
}

/// One group of comparisons: counts the calls and says so at its end.
pub struct Group {
    name: &'static str,
    pub seed: u64,
    start: Instant,
    calls: u64,
    numbers: BTreeSet<u8>,
}

impl Group {
    pub fn new(name: &'static str) -> Group {
        Group { name, seed: seed(), start: Instant::now(), calls: 0, numbers: BTreeSet::new() }
    }

    /// Counts a call; a difference ends the run with its case, its seed and the call.
    pub fn call(&mut self, case: u64, answer: Answer, call: impl FnOnce() -> String) {
        self.calls += 1;
        match answer {
            Ok(number) => drop(self.numbers.insert(number)),
            Err(difference) => {
                panic!("{}, seed {}, case {case}, call {}: {difference}\n{}", self.name, self.seed, self.calls, call())
            }
        }
    }

    /// Tests that the cases led to just these numbers of document 01, and says how many calls there were.
    /// Written past the test harness, which keeps what a test prints.
    pub fn end(self, numbers: &[u8]) {
        assert_eq!(self.numbers, numbers.iter().copied().collect(), "{}: the numbers given", self.name);
        let seconds = self.start.elapsed().as_secs_f32();
        let line = format!("{}: {} calls compared, seed {}, {seconds:.1} s", self.name, self.calls, self.seed);
        writeln!(std::io::stderr(), "{line}").expect("standard error");
    }
}
