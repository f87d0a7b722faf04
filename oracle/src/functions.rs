// The table of recorded functions, and the records made from it.

use crate::arguments::{random, Arg};
use crate::cases::cases;
use crate::record::{Arguments, Record, Words};
use crate::values::Rng;

pub mod born_wolf;
pub mod calls;
pub mod complex;
pub mod edition_1;
pub mod exports;
pub mod names;
pub mod polarization;
pub mod quarter_waves;
pub mod scalar;
pub mod shorthand;
pub mod thin_film;
pub mod train;

/// The groups, in the order of their numbers.
pub const GROUPS: [&str; 15] = [
    "ieee",
    "elementary",
    "complex",
    "thin_film",
    "fresnel",
    "polarization",
    "names",
    "shorthand",
    "born_wolf",
    "quarter_waves",
    "sheet",
    "train",
    "exports",
    "edition_1",
    "calls",
];

/// The default sample: the fewest records in all, the fewest random ones, and the most bytes, which win.
pub const SAMPLE_RECORDS: usize = 20_000;
pub const SAMPLE_RANDOM: usize = 10_000;
pub const SAMPLE_BYTES: usize = 4 << 20;

/// The most bytes of a sample of all groups together.
pub const WHOLE_SAMPLE_BYTES: usize = 8 << 20;

pub struct Function {
    pub number: u16,
    pub group: &'static str,
    pub name: &'static str,
    pub args: &'static [Arg],
    /// How often it stands in one round of random records.
    pub weight: usize,
    /// The reference: argument words to result words.
    pub call: fn(&mut Arguments, &mut Words),
}

impl Function {
    pub fn record(&self, arguments: Vec<u64>) -> Record {
        let mut read = Arguments::new(&arguments);
        let mut results = Words::default();
        (self.call)(&mut read, &mut results);
        assert!(read.is_done(), "{}: words left over", self.name);
        Record {
            function: self.number,
            results: results.0,
            arguments,
        }
    }

    /// The fixed cases. The exports call functions of the other groups, which have them all: one in twenty is enough.
    pub fn cases(&self) -> Vec<Vec<u64>> {
        let one_in = if self.group == "exports" { 20 } else { 1 };
        cases(self.args).into_iter().step_by(one_in).collect()
    }
}

/// All functions, in the order of their numbers.
pub fn table() -> Vec<Function> {
    let mut all = scalar::table();
    all.extend(complex::table());
    all.extend(thin_film::table());
    all.extend(polarization::table());
    all.extend(names::table());
    all.extend(shorthand::table());
    all.extend(born_wolf::table());
    all.extend(quarter_waves::table());
    all.extend(train::table());
    all.extend(exports::table());
    all.extend(edition_1::table());
    all.extend(calls::table());
    all.sort_by_key(|f| f.number);
    all
}

/// The functions of the groups asked for; all of them if none is.
pub fn of_groups(groups: &[String]) -> Vec<Function> {
    let mut all = table();
    all.retain(|f| groups.is_empty() || groups.iter().any(|group| group == f.group));
    all
}

/// Random records without end, round after round over the functions.
pub struct Stream {
    functions: Vec<Function>,
    round: Vec<usize>,
    rng: Rng,
    at: usize,
}

impl Stream {
    pub fn new(functions: Vec<Function>, seed: u64) -> Self {
        let most = functions.iter().map(|f| f.weight).max().unwrap_or(0);
        let mut round = Vec::new();
        for turn in 0..most {
            round.extend((0..functions.len()).filter(|i| functions[*i].weight > turn));
        }
        // A group of constants alone still has something to send.
        if round.is_empty() {
            round.extend(0..functions.len());
        }
        Self {
            functions,
            round,
            rng: Rng::new(seed),
            at: 0,
        }
    }

    pub fn next_record(&mut self) -> Record {
        let function = &self.functions[self.round[self.at]];
        self.at = (self.at + 1) % self.round.len();
        let words = random(function.args, &mut self.rng);
        function.record(words)
    }
}

/// The default sample: all fixed cases, then random records.
pub fn sample(groups: &[String], seed: u64) -> Vec<u8> {
    let functions = of_groups(groups);
    let mut out = Vec::new();
    let mut fixed = 0;
    for function in &functions {
        for case in function.cases() {
            function.record(case).write(&mut out);
            fixed += 1;
        }
    }
    let most = if groups.is_empty() {
        WHOLE_SAMPLE_BYTES
    } else {
        SAMPLE_BYTES
    };
    let mut stream = Stream::new(functions, seed);
    for _ in 0..SAMPLE_RANDOM.max(SAMPLE_RECORDS.saturating_sub(fixed)) {
        let before = out.len();
        stream.next_record().write(&mut out);
        if out.len() > most {
            out.truncate(before);
            break;
        }
    }
    out
}
