//! The proved library beside the Rust, in time and instructions: `bench`, `bench short`, `bench stack`,
//! `bench run walk|steps|sheet|pieces|rust NAME TIMES`.

mod instructions;
mod kinds;
mod sides;
mod stack;
mod tables;
mod times;

use std::process::exit;

use instructions::{PIECES, RUST, SHEET, STEPS, WALK};
use kinds::{script, script_named, INDENTATION, KINDS, MOST_OF_A_STEP, NOWDOC, ONE_BLOCK, ONE_BYTE, ONE_COMMENT};
use sides::{hold, hold_sheets, Reader, Way, MOST_BYTES};

/// What a streamed script grows by.
const PIECE: usize = 4_096;

fn main() {
    let words: Vec<String> = std::env::args().skip(1).collect();
    let words: Vec<&str> = words.iter().map(String::as_str).collect();
    let done = match words[..] {
        [] => hold_all().and_then(|()| tables::all()),
        ["stack"] => stack::table(),
        ["short"] => hold_all().and_then(|()| short()),
        ["run", side, name, times] => run(side, name, times),
        _ => usage(),
    };
    if let Err(wrong) = done {
        println!("FAILED bench\n{}", wrong);
        exit(1)
    }
}

fn usage() -> ! {
    eprintln!("bench | bench short | bench stack | bench run walk|steps|sheet|pieces|rust NAME TIMES");
    exit(2)
}

/// The sheet reading of nowdoc blocks may take so many times the instructions of the ported one.
const MOST_OF_A_SHEET: f64 = 2.0;

/// A text that comes in pieces may take so many times the instructions of the whole one.
const MOST_OF_PIECES: f64 = 2.0;

/// Sees to it that both sides read the same in every script that is measured, and our two readings of nowdoc blocks the same rows.
fn hold_all() -> Result<(), String> {
    let mut reader = Reader::new();
    for kind in &KINDS {
        let told = |wrong| format!("{}: {}", kind.name, wrong);
        hold(&mut reader, &script(kind, MOST_BYTES), PIECE).map_err(told)?;
        if kind.name == NOWDOC {
            hold_sheets(&script(kind, MOST_BYTES), INDENTATION)?;
        }
    }
    hold(&mut reader, &kinds::one_block(MOST_BYTES), PIECE)?;
    hold(&mut reader, &kinds::one_comment(MOST_BYTES), PIECE)
}

/// A test for each kind: the walk takes no more instructions a byte than the kind's limit, a tenth over what it took when that was set,
/// nor than the Rust. One for a long comment, beside nowdoc text; one for sheets, which the Rust does not read, beside the ported
/// reading of the same blocks; two for texts in pieces; and one for a call for each step.
fn short() -> Result<(), String> {
    for kind in &KINDS {
        let (ours, rust) = (instructions::a_byte(WALK, kind.name)?, instructions::a_byte(RUST, kind.name)?);
        let said = format!("{} ({:.1} instructions a byte of {:.1}, the Rust {:.1})", kind.name, ours, kind.most, rust);
        if ours > rust || ours > kind.most {
            return Err(said);
        }
        println!("ok bench: {}", said);
    }
    let (block, comment) = (instructions::a_byte(WALK, ONE_BLOCK)?, instructions::a_byte(WALK, ONE_COMMENT)?);
    let said = format!("{} ({:.1} instructions a byte, {} {:.1})", ONE_COMMENT, comment, ONE_BLOCK, block);
    if comment > block {
        return Err(said);
    }
    println!("ok bench: {}", said);
    short_sheet()?;
    short_pieces(ONE_BLOCK)?;
    short_pieces(ONE_COMMENT)?;
    short_step()
}

/// A call for each step, of one byte.
fn short_step() -> Result<(), String> {
    let step = instructions::a_byte(STEPS, ONE_BYTE)?;
    let said = format!("{} ({:.0} instructions of {:.0})", ONE_BYTE, step, MOST_OF_A_STEP);
    if step > MOST_OF_A_STEP {
        return Err(said);
    }
    println!("ok bench: {}", said);
    Ok(())
}

fn short_sheet() -> Result<(), String> {
    let (sheet, ported) = (instructions::a_byte(SHEET, NOWDOC)?, instructions::a_byte(WALK, NOWDOC)?);
    let said = format!("{} ({:.1} instructions a byte, {} as ported {:.1})", SHEET, sheet, NOWDOC, ported);
    if sheet > MOST_OF_A_SHEET * ported {
        return Err(said);
    }
    println!("ok bench: {}", said);
    Ok(())
}

/// One long text in pieces, read as the hosts do, beside the whole one.
fn short_pieces(name: &str) -> Result<(), String> {
    let (pieces, whole) = (instructions::a_byte(PIECES, name)?, instructions::a_byte(WALK, name)?);
    let said = format!("{} in {} ({:.1} instructions a byte, whole {:.1})", name, PIECES, pieces, whole);
    if pieces > MOST_OF_PIECES * whole {
        return Err(said);
    }
    println!("ok bench: {}", said);
    Ok(())
}

/// Reads the script of a name as often as told, on one side, for callgrind. The Rust's tokens are kept: none is freed.
fn run(side: &str, name: &str, times: &str) -> Result<(), String> {
    let (script, times) = match (script_named(name, MOST_BYTES), times.parse::<usize>()) {
        (Some(script), Ok(times)) => (script, times),
        _ => usage(),
    };
    let mut reader = match side {
        SHEET => Reader::of_sheets(),
        PIECES => Reader::of_hosts(),
        _ => Reader::new(),
    };
    for _ in 0..times {
        match side {
            WALK | SHEET => drop(reader.read(Way::Walk, &script, script.len())?),
            PIECES => drop(reader.read(Way::Walk, &script, PIECE)?),
            STEPS => drop(reader.read(Way::Steps, &script, script.len())?),
            RUST => std::mem::forget(oracle::tokenize(&script)),
            _ => usage(),
        }
    }
    Ok(())
}
