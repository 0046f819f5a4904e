//! Times by turns: the processor's time of this thread, so that what other programs take is not counted, and medians.

use std::os::raw::{c_int, c_long};

use oracle::lexer::error::SyntaxResult;
use oracle::lexer::token::Token;

/// Rounds of every measurement; a median is that of this many.
pub const ROUNDS: usize = 51;

/// Linux's number of the clock for the thread's own processor time.
const THREAD_CLOCK: c_int = 3;

#[repr(C)]
struct Time {
    seconds: c_long,
    nanoseconds: c_long,
}

extern "C" {
    fn clock_gettime(clock: c_int, time: *mut Time) -> c_int;
}

fn now() -> f64 {
    let mut time = Time { seconds: 0, nanoseconds: 0 };
    // The one thing that is written is the time lent.
    let status = unsafe { clock_gettime(THREAD_CLOCK, &mut time) };
    assert_eq!(status, 0, "there is no clock for a thread's own time");
    time.seconds as f64 * 1e9 + time.nanoseconds as f64
}

/// What a work gives, dropped after the clock is read: the Rust's tokens, or none.
pub type Given = Option<SyntaxResult<Vec<Token>>>;

/// A work that is timed.
pub type Work<'a> = Box<dyn FnMut() -> Given + 'a>;

/// The nanoseconds of each work in each round.
pub struct Turns {
    times: Vec<Vec<f64>>,
}

/// Works done by turns, each of them first in its turn. One round ahead is not counted.
pub fn by_turns(works: &mut [Work<'_>]) -> Turns {
    let mut times = vec![Vec::new(); works.len()];
    for round in 0..=ROUNDS {
        for turn in 0..works.len() {
            let place = (round + turn) % works.len();
            let time = timed(&mut works[place]);
            if round > 0 {
                times[place].push(time);
            }
        }
    }
    Turns { times }
}

impl Turns {
    /// The median of a work.
    pub fn of(&self, work: usize) -> f64 {
        median(self.times[work].clone())
    }

    /// The median of what a work takes against another in the same round, when the machine is as busy for both.
    pub fn ratio(&self, work: usize, other: usize) -> f64 {
        median(self.times[work].iter().zip(&self.times[other]).map(|(time, other)| time / other).collect())
    }
}

fn timed(work: &mut dyn FnMut() -> Given) -> f64 {
    let start = now();
    let given = work();
    let time = now() - start;
    drop(given);
    time
}

fn median(mut times: Vec<f64>) -> f64 {
    times.sort_by(f64::total_cmp);
    times[times.len() / 2]
}
