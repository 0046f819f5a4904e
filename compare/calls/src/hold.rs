//! A call made on the proved library and held to what is told of it.

use cases::call::{DEPTH, SLOT, SLOTS};
use cases::{Call, Function, Given, Told};
use telling::Teller;

use crate::ends;
use crate::octals::{is_manual, under_both};
use crate::smaller::smaller;

/// Frames that a step may find on top, and the three readings.
const FRAMES: usize = 9;
const ROUTINES: usize = FRAMES + 3;
const WAIT: u32 = 6;

/// The routines that have octal escapes, and walks after all routines.
const WITH_OCTALS: [usize; 5] = [1, 2, 4, FRAMES + 2, ROUTINES];

/// Refusals by which a walk may be stopped: the others are its first step's, or none of a step.
const STOPPING: [usize; 10] = [1, 2, 3, 4, 5, 6, 7, 8, 9, 13];

/// Makes calls and counts what was met.
#[derive(Default)]
pub struct Held {
    teller: Teller,
    pub count: u64,
    refusals: [u64; 14],
    kinds: [u64; 22],
    /// How often each frame's step was done and had to wait, and each reading, in the order of their functions.
    done: [u64; ROUTINES],
    waits: [u64; ROUTINES],
    /// How often a walk of one step or more was done, finished and refused at its first step, and by what one was stopped.
    walks: [u64; 3],
    stops: [u64; 14],
    /// How often an octal escape over 255 was refused under the Rust's choice, and read under the manual's.
    refused_octals: [u64; ROUTINES + 1],
    read_octals: [u64; ROUTINES + 1],
}

impl Held {
    /// What the call comes to, where the library gives just that; else a small call that fails, and both answers.
    pub fn hold(&mut self, call: &Call) -> Result<Told, String> {
        self.count += 1;
        let told = self.teller.told(call);
        let given = told.given(call);
        if host::make(call).as_ref() != Ok(&given) {
            let small = smaller(call, |call| self.fails(call));
            return Err(self.report(&small));
        }
        self.hold_under_both(call, &given)?;
        if !ends::are_right(call, &told) {
            let report = self.report(call);
            return Err(format!("{}\n  is told and given alike, but an end is not where its step ended", report));
        }
        self.count_told(call, &told);
        Ok(told)
    }

    /// Holds the same call under the other choice for octal escapes to what is given.
    fn hold_under_both(&mut self, call: &Call, given: &Given) -> Result<(), String> {
        let is_wrong = |call: &Call| host::make(call).map_or(false, |given| under_both(call, &given).is_err());
        match under_both(call, given) {
            Err(wrong) => Err(format!("{}\n  {}", self.report(&smaller(call, is_wrong)), wrong)),
            Ok(false) => Ok(()),
            Ok(true) => {
                let met = if is_manual(call) { &mut self.read_octals } else { &mut self.refused_octals };
                met[routine_of(call).unwrap_or(ROUTINES)] += 1;
                Ok(())
            }
        }
    }

    fn count_told(&mut self, call: &Call, told: &Told) {
        let routine = routine_of(call);
        self.count_walk(call, told);
        if let Some((_, records, _)) = told.written() {
            records.iter().for_each(|record| self.kinds[record[0] as usize] += 1);
        }
        match told {
            Told::Short => {}
            Told::Stopped { number, .. } => self.refusals[*number as usize] += 1,
            Told::Refused { number, .. } => {
                self.refusals[*number as usize] += 1;
                if let (Some(routine), WAIT) = (routine, *number) {
                    self.waits[routine] += 1;
                }
            }
            Told::Done { .. } => {
                if let Some(routine) = routine {
                    self.done[routine] += 1;
                }
            }
        }
    }

    fn count_walk(&mut self, call: &Call, told: &Told) {
        if call.function != Function::Walk || call.arguments[0] == 0 {
            return;
        }
        match told {
            Told::Short => {}
            Told::Done { finished, .. } => self.walks[usize::from(*finished)] += 1,
            Told::Refused { .. } => self.walks[2] += 1,
            Told::Stopped { number, .. } => self.stops[*number as usize] += 1,
        }
    }

    /// Holds a call that must be refused with a number, or done for 0.
    pub fn hold_to(&mut self, call: &Call, number: u32) -> Result<Told, String> {
        let told = self.hold(call)?;
        if told.refusal().0 != number {
            return Err(format!("{}\n  is told and given alike, but {} was meant", self.report(call), number));
        }
        Ok(told)
    }

    /// Counts a call that was made outside `hold`.
    pub fn made(&mut self) {
        self.count += 1;
    }

    fn fails(&mut self, call: &Call) -> bool {
        host::make(call).as_ref() != Ok(&self.teller.told(call).given(call))
    }

    fn report(&mut self, call: &Call) -> String {
        let (mut line, mut told, mut got) = (Vec::new(), Vec::new(), Vec::new());
        call.write(&mut line);
        self.teller.told(call).write(&mut told);
        match host::make(call) {
            Ok(given) => given.write(call, &mut got),
            Err(wrong) => got.extend_from_slice(wrong.as_bytes()),
        }
        let text = |bytes: &[u8]| String::from_utf8_lossy(bytes).into_owned();
        format!("  call  {}\n  told  {}\n  given {}", text(&line), text(&told), text(&got))
    }

    /// Every refusal and every kind was met, every routine was done and had to wait, walks came to all that they can, and
    /// octal escapes over 255 were refused and read: how often the rarest; else the first that was not.
    pub fn all_met(&self) -> Result<String, String> {
        let parts = [
            rarest("refusal", 1..14, &self.refusals)?,
            rarest("kind", 1..22, &self.kinds)?,
            rarest("routine done:", 0..ROUTINES, &self.done)?,
            rarest("routine waiting:", 0..ROUTINES, &self.waits)?,
            rarest("walk done, finished or refused:", 0..3, &self.walks)?,
            rarest("walk stopped by", STOPPING, &self.stops)?,
            rarest("octal escape over 255 refused in routine", WITH_OCTALS, &self.refused_octals)?,
            rarest("read in routine", WITH_OCTALS, &self.read_octals)?,
        ];
        Ok(format!("rarest: {}", parts.join(", ")))
    }
}

fn rarest(what: &str, places: impl IntoIterator<Item = usize>, counts: &[u64]) -> Result<String, String> {
    match places.into_iter().min_by_key(|place| counts[*place]) {
        Some(place) if counts[place] > 0 => Ok(format!("{} {} {} times", what, place, counts[place])),
        place => Err(format!("  {} {:?} was never met", what, place)),
    }
}

/// Which routine a call runs: a step's top frame, or a reading.
fn routine_of(call: &Call) -> Option<usize> {
    match call.function {
        Function::ReadNumber => Some(FRAMES),
        Function::ReadSingle => Some(FRAMES + 1),
        Function::ReadDouble => Some(FRAMES + 2),
        Function::Step => {
            let top = SLOTS + SLOT * call.number(DEPTH).saturating_sub(1);
            Some(call.number(top)).filter(|frame| *frame < FRAMES)
        }
        _ => None,
    }
}
