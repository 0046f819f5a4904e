//! The stack that a call takes: a thread's stack is filled with a pattern below the call, and what the call changed is counted.

use std::thread;

use crate::kinds::{script, KINDS};
use crate::sides::{Reader, Way, MOST_BYTES};

/// The thread's stack, what is filled of it, and what lies between: the frames of the fill itself.
const STACK: usize = 1 << 20;
const FILLED: usize = 1 << 18;
const APART: usize = 1 << 8;

const PATTERN: u8 = 0xa5;

/// Bytes of stack for the deepest call of each way of reading, over the scripts of all kinds.
pub fn table() -> Result<(), String> {
    println!("| bytes of stack, the deepest call | walk | single step |\n|---|---|---|");
    for kind in &KINDS {
        let (walk, step) = (deepest(kind.name, Way::Walk)?, deepest(kind.name, Way::Steps)?);
        println!("| {} | {} | {} |", kind.name, walk, step);
    }
    Ok(())
}

fn deepest(kind: &'static str, way: Way) -> Result<usize, String> {
    let measured = thread::Builder::new().stack_size(STACK).spawn(move || {
        let kind = KINDS.iter().find(|it| it.name == kind).expect("it is one of the kinds");
        let script = script(kind, MOST_BYTES);
        let mut reader = Reader::new();
        let lowest = fill();
        let read = reader.read(way, &script, script.len());
        read.map(|_| changed(lowest))
    });
    measured.map_err(|error| error.to_string())?.join().map_err(|_| "the call ended the thread".to_string())?
}

/// Fills what lies below this call, and gives its lowest address.
#[inline(never)]
fn fill() -> usize {
    let here = 0u8;
    let lowest = (&here as *const u8 as usize) - APART - FILLED;
    for address in lowest..lowest + FILLED {
        // Below this frame lies nothing but the rest of the thread's stack, which is larger than what is filled.
        unsafe { (address as *mut u8).write_volatile(PATTERN) };
    }
    lowest
}

/// How many bytes up to the fill's frame lie above the lowest that is no longer as it was filled.
#[inline(never)]
fn changed(lowest: usize) -> usize {
    let is_filled = |address: &usize| unsafe { (*address as *const u8).read_volatile() == PATTERN };
    let kept = (lowest..lowest + FILLED).take_while(is_filled).count();
    FILLED + APART - kept
}
