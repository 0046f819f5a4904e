//! The tables of docs/SPEED.md, as Markdown.

use crate::instructions::{self, RUST, SHEET, STEPS, WALK};
use crate::kinds::{
    one_block, one_byte_steps, one_comment, script, script_named, Kind, KINDS, NOWDOC, ONE_BLOCK, ONE_BYTE, ONE_COMMENT,
};
use crate::sides::{Reader, Way, MOST_BYTES};
use crate::times::{by_turns, Work};
use crate::{stack, PIECE};

/// How many kinds, and functions of each, are shown with where their instructions go.
const SLOWEST: usize = 3;
const FUNCTIONS: usize = 6;

/// The sizes of scripts, in KB.
const SIZES: [usize; 7] = [1, 2, 4, 8, 16, 32, 64];

pub fn all() -> Result<(), String> {
    times()?;
    println!();
    single_steps()?;
    println!();
    sizes()?;
    println!();
    pieces()?;
    println!();
    stack::table()?;
    println!();
    sheets()?;
    println!();
    let ratios = counts()?;
    if !ratios.is_empty() {
        println!();
        functions(ratios)?;
    }
    Ok(())
}

/// Instructions a byte for both sides. Gives the kinds with their ratios, or none without valgrind.
fn counts() -> Result<Vec<(f64, &'static Kind)>, String> {
    let mut ratios = Vec::new();
    if !instructions::are_there() {
        println!("valgrind is not here, so no instructions are counted.");
        return Ok(ratios);
    }
    println!("| 64 KB, instructions a byte | walk | the Rust | ratio | single steps |\n|---|---|---|---|---|");
    for kind in &KINDS {
        let (walk, rust) = (instructions::a_byte(WALK, kind.name)?, instructions::a_byte(RUST, kind.name)?);
        let steps = instructions::a_byte(STEPS, kind.name)?;
        println!("| {} | {:.1} | {:.1} | {:.2} | {:.1} |", kind.name, walk, rust, walk / rust, steps);
        ratios.push((walk / rust, kind));
    }
    Ok(ratios)
}

/// Nanoseconds a byte for both sides, by turns.
fn times() -> Result<(), String> {
    println!("| 64 KB, ns a byte | walk | the Rust | ratio | one to |\n|---|---|---|---|---|");
    for kind in &KINDS {
        let script = script(kind, MOST_BYTES);
        let bytes = script.len() as f64;
        let walk = reading(Way::Walk, &script, script.len(), 1)?;
        let turns = by_turns(&mut [walk, Box::new(|| Some(oracle::tokenize(&script)))]);
        let ratio = turns.ratio(0, 1);
        print!("| {} | {:.2} | {:.1} ", kind.name, turns.of(0) / bytes, turns.of(1) / bytes);
        println!("| {:.3} | {:.1} |", ratio, 1.0 / ratio);
    }
    Ok(())
}

/// The sheet reading of nowdoc blocks beside the ported one; the Rust has no other than that.
fn sheets() -> Result<(), String> {
    let script = script_named(NOWDOC, MOST_BYTES).ok_or("there is no such kind")?;
    let works =
        [Reader::of_sheets(), Reader::new()].map(|reader| reading_by(reader, Way::Walk, &script, script.len(), 1));
    let turns = by_turns(&mut works.into_iter().collect::<Result<Vec<_>, String>>()?);
    let a_byte = |work: usize| turns.of(work) / script.len() as f64;
    println!("| 64 KB of nowdoc blocks | as sheets | as ported | ratio |\n|---|---|---|---|");
    println!("| ns a byte | {:.2} | {:.2} | {:.2} |", a_byte(0), a_byte(1), turns.ratio(0, 1));
    if instructions::are_there() {
        let (sheet, ported) = (instructions::a_byte(SHEET, NOWDOC)?, instructions::a_byte(WALK, NOWDOC)?);
        println!("| instructions a byte | {:.1} | {:.1} | {:.2} |", sheet, ported, sheet / ported);
    }
    Ok(())
}

/// Nanoseconds a step: in a walk, and a call for each.
fn single_steps() -> Result<(), String> {
    println!("| 64 KB, ns a step | bytes a step | walk | single steps |\n|---|---|---|---|");
    single_steps_of(ONE_BYTE, &one_byte_steps(MOST_BYTES))?;
    KINDS.iter().try_for_each(|kind| single_steps_of(kind.name, &script(kind, MOST_BYTES)))
}

fn single_steps_of(name: &str, script: &[u8]) -> Result<(), String> {
    let steps = Reader::new().read(Way::Steps, script, script.len())?.calls as f64;
    let works = [Way::Walk, Way::Steps].map(|way| reading(way, script, script.len(), 1));
    let turns = by_turns(&mut works.into_iter().collect::<Result<Vec<_>, String>>()?);
    let (walk, single) = (turns.of(0) / steps, turns.of(1) / steps);
    println!("| {} | {:.1} | {:.1} | {:.0} |", name, script.len() as f64 / steps, walk, single);
    Ok(())
}

/// Nanoseconds a byte for scripts of each size, each read as often as makes 64 KB.
fn sizes() -> Result<(), String> {
    let columns: Vec<String> = SIZES.iter().map(|size| format!("{} KB", size)).collect();
    println!("| walk, ns a byte | {} |\n|---{}|", columns.join(" | "), "|---".repeat(SIZES.len()));
    for kind in &KINDS {
        sizes_of(kind.name, |size| script(kind, size))?;
    }
    sizes_of(ONE_BLOCK, one_block)?;
    sizes_of(ONE_COMMENT, one_comment)
}

fn sizes_of(name: &str, script_of: impl Fn(usize) -> Vec<u8>) -> Result<(), String> {
    let scripts = SIZES.map(|size| script_of(size * 1024));
    let often = SIZES.map(|size| MOST_BYTES / 1024 / size);
    let works: Result<Vec<_>, _> =
        scripts.iter().zip(often).map(|(it, often)| reading(Way::Walk, it, it.len(), often)).collect();
    let turns = by_turns(&mut works?);
    let bytes = |place: usize| (often[place] * scripts[place].len()) as f64;
    let columns: Vec<String> = (0..SIZES.len()).map(|place| format!("{:.2}", turns.of(place) / bytes(place))).collect();
    println!("| {} | {} |", name, columns.join(" | "));
    Ok(())
}

/// A work: the script read to its end in pieces, so many times, with tables of its own. One that is refused is none.
fn reading(way: Way, script: &[u8], piece: usize, often: usize) -> Result<Work<'_>, String> {
    reading_by(Reader::new(), way, script, piece, often)
}

fn reading_by(mut reader: Reader, way: Way, script: &[u8], piece: usize, often: usize) -> Result<Work<'_>, String> {
    reader.read(way, script, piece)?;
    Ok(Box::new(move || {
        for _ in 0..often {
            reader.read(way, script, piece).expect("it was not refused before");
        }
        None
    }))
}

/// Nanoseconds a byte for a script that comes in pieces, beside the whole one.
fn pieces() -> Result<(), String> {
    println!("| 64 KB in pieces of 4 KB, ns a byte | whole | each piece read | ratio | waits | as the hosts do | ratio | waits |");
    println!("|---|---|---|---|---|---|---|---|");
    for kind in &KINDS {
        pieces_of(kind.name, &script(kind, MOST_BYTES))?;
    }
    pieces_of(ONE_BLOCK, &one_block(MOST_BYTES))?;
    pieces_of(ONE_COMMENT, &one_comment(MOST_BYTES))
}

fn pieces_of(name: &str, script: &[u8]) -> Result<(), String> {
    let waits = Reader::new().read(Way::Walk, script, PIECE)?.waits;
    let fewer = Reader::of_hosts().read(Way::Walk, script, PIECE)?.waits;
    let turns = by_turns(&mut [
        reading(Way::Walk, script, script.len(), 1)?,
        reading(Way::Walk, script, PIECE, 1)?,
        reading_by(Reader::of_hosts(), Way::Walk, script, PIECE, 1)?,
    ]);
    let a_byte = |work: usize| turns.of(work) / script.len() as f64;
    let asked = |work: usize, waits: usize| format!("{:.2} | {:.2} | {}", a_byte(work), turns.ratio(work, 0), waits);
    println!("| {} | {:.2} | {} | {} |", name, a_byte(0), asked(1, waits), asked(2, fewer));
    Ok(())
}

/// Our functions with the most instructions of their own, for the kinds with the highest ratios.
fn functions(mut ratios: Vec<(f64, &'static Kind)>) -> Result<(), String> {
    ratios.sort_by(|one, other| other.0.total_cmp(&one.0));
    println!("| slowest against the Rust | own instructions of our functions |\n|---|---|");
    for (_, kind) in &ratios[..SLOWEST] {
        let shares = instructions::by_function(kind.name)?;
        let named = shares.iter().take(FUNCTIONS).map(|(name, share)| format!("`{}` {:.0} %", name, share * 100.0));
        println!("| {} | {} |", kind.name, named.collect::<Vec<_>>().join(", "));
    }
    Ok(())
}
