//! Compares the proved readings with the Rust, in one process: `readings few|short|full [SEED]`.

mod check;
mod library;
mod refusals;
mod routines;
mod text;
mod texts;

use std::collections::HashMap;
use std::process::exit;
use std::time::Instant;

use cases::pieces::every_text;
use cases::random::Random;
use cases::{Case, Outcome};

use check::Check;
use routines::{Reading, READINGS};

/// How much of each routine is tried.
struct Size {
    /// The longest texts over the two alphabets, and the longest parts.
    narrow: usize,
    wide: usize,
    parts: usize,
    /// How many random texts.
    random: usize,
    /// The lengths of long texts are this far apart.
    step: usize,
}

const FEW: Size = Size { narrow: 3, wide: 3, parts: 2, random: 5_000, step: 4093 };
const SHORT: Size = Size { narrow: 4, wide: 3, parts: 3, random: 50_000, step: 1021 };
const FULL: Size = Size { narrow: 6, wide: 5, parts: 4, random: 1_000_000, step: READINGS.len() };

/// One random text in this many is also read as a part, if it is short.
const PART_OF: usize = 8;
const SHORT_PART: usize = 40;

fn main() {
    oracle::quiet_panics();
    let words: Vec<String> = std::env::args().skip(1).collect();
    let size = match words.first().map(String::as_str) {
        Some("few") => FEW,
        Some("short") => SHORT,
        Some("full") => FULL,
        _ => usage(),
    };
    let seed = match words.get(1) {
        Some(word) => word.parse().unwrap_or_else(|_| usage()),
        None => 1,
    };
    println!("readings: seed {}", seed);
    match compare(&size, seed) {
        Ok(count) => println!("ok readings ({} cases)", count),
        Err(difference) => {
            println!("FAILED readings\n{}", difference);
            exit(1)
        }
    }
}

fn usage() -> ! {
    eprintln!("readings few|short|full [SEED]");
    exit(2)
}

/// The number of cases, or the first difference.
fn compare(size: &Size, seed: u64) -> Result<u64, String> {
    let mut count = refusals::all_given()?;
    for (index, reading) in READINGS.into_iter().enumerate() {
        let start = Instant::now();
        let mut tries = Tries::new(reading);
        tries.short_texts(size)?;
        tries.pairs()?;
        tries.parts(size)?;
        let mut random = Random::new(seed);
        tries.random_texts(size, &mut random)?;
        tries.long_texts(index, size, &mut random)?;
        tries.all_met()?;
        let (name, seconds) = (reading.name(), start.elapsed().as_secs_f64());
        println!("  {}: {} with the Rust, {} parts, {:.1} s", name, tries.rust, tries.parts, seconds);
        count += tries.rust + tries.parts;
    }
    Ok(count)
}

/// The cases of one routine, counted.
struct Tries {
    reading: &'static Reading,
    case: Case,
    rust: u64,
    parts: u64,
    /// How often random texts ended in each way.
    met: HashMap<Met, u64>,
}

/// The kind of an answer's last token, or its refusal.
#[derive(PartialEq, Eq, Hash, Debug)]
enum Met {
    Kind(u32),
    Refusal(u32),
}

impl Tries {
    fn new(reading: &'static Reading) -> Self {
        let case = Case { routine: reading.routine, ..Case::default() };
        Tries { reading, case, rust: 0, parts: 0, met: HashMap::new() }
    }

    /// Every text over the alphabets, alone and with the closer after it.
    fn short_texts(&mut self, size: &Size) -> Result<(), String> {
        for label in self.reading.labels {
            self.case.label = label.to_vec();
            let closer = (self.reading.closer)(label);
            for (alphabet, most) in [(self.reading.narrow, size.narrow), (self.reading.wide, size.wide)] {
                every_text(alphabet, most, |text| {
                    self.source(text);
                    self.with_rust()?;
                    self.case.source.extend_from_slice(&closer);
                    self.with_rust()
                })?;
            }
        }
        Ok(())
    }

    /// Every byte and pair of bytes after each prefix.
    fn pairs(&mut self) -> Result<(), String> {
        self.case.label = self.reading.labels[0].to_vec();
        let closer = (self.reading.closer)(&self.case.label);
        texts::every_pair(self.reading.prefixes, &closer, |text| {
            self.source(text);
            self.with_rust()
        })
    }

    /// Every short text as a part with more to come.
    fn parts(&mut self, size: &Size) -> Result<(), String> {
        for label in self.reading.labels {
            self.case.label = label.to_vec();
            for (alphabet, most) in [(self.reading.narrow, size.parts), (self.reading.wide, size.parts - 1)] {
                every_text(alphabet, most, |text| {
                    self.source(text);
                    self.as_part()
                })?;
            }
        }
        Ok(())
    }

    fn random_texts(&mut self, size: &Size, random: &mut Random) -> Result<(), String> {
        for index in 0..size.random {
            texts::fill(self.reading, &mut self.case, index, random);
            self.with_rust()?;
            self.count_answer();
            if index % PART_OF == 0 && self.case.source.len() <= SHORT_PART {
                self.as_part()?;
            }
        }
        Ok(())
    }

    /// Texts of lengths up to the longest; in steps of the number of routines, each length is some routine's.
    fn long_texts(&mut self, first: usize, size: &Size, random: &mut Random) -> Result<(), String> {
        let lengths = (first..texts::LONGEST).step_by(size.step).chain([texts::LONGEST]);
        for (index, length) in lengths.enumerate() {
            texts::fill_to(self.reading, &mut self.case, length, index, random);
            self.with_rust()?;
        }
        Ok(())
    }

    fn count_answer(&mut self) {
        let answer = (self.reading.proved)(&self.case, true);
        let met = match (answer.outcome, answer.tokens.last()) {
            (Outcome::Accepted { .. }, Some(token)) => Met::Kind(token.kind),
            (Outcome::Refused { number, .. }, _) => Met::Refusal(number),
            _ => return,
        };
        *self.met.entry(met).or_insert(0) += 1;
    }

    /// Every way to end was met among the random texts.
    fn all_met(&self) -> Result<(), String> {
        let kinds = self.reading.kinds.iter().map(|kind| Met::Kind(*kind));
        let mut ways = kinds.chain(self.reading.refusals.iter().map(|number| Met::Refusal(*number)));
        match ways.find(|way| !self.met.contains_key(way)) {
            Some(way) => Err(format!("  no random text of {} ended in {:?}", self.reading.name(), way)),
            None => Ok(()),
        }
    }

    fn source(&mut self, text: &[u8]) {
        self.case.source.clear();
        self.case.source.extend_from_slice(text);
    }

    fn with_rust(&mut self) -> Result<(), String> {
        self.rust += 1;
        self.hold(check::same_as_rust)
    }

    fn as_part(&mut self) -> Result<(), String> {
        self.parts += 1;
        self.hold(check::waits_exactly)
    }

    /// A case that fails is told by the smallest that is found below it.
    fn hold(&self, check: Check) -> Result<(), String> {
        if check(self.reading, &self.case).is_none() {
            return Ok(());
        }
        let case = check::smaller(self.reading, &self.case, check);
        Err(check::report(self.reading, &case, check))
    }
}
