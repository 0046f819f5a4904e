//! Instructions by valgrind's callgrind, of this program run under it; two runs' difference, so that the start cancels.

use std::collections::HashMap;
use std::path::Path;
use std::process::{Command, Output, Stdio};

use crate::kinds::script_named;
use crate::sides::MOST_BYTES;

/// How often the script is read in the shorter and in the longer run.
const FEW: u64 = 1;
const MANY: u64 = 3;

/// What is measured, by the words that `bench run` takes.
pub const WALK: &str = "walk";
pub const STEPS: &str = "steps";
pub const SHEET: &str = "sheet";
pub const PIECES: &str = "pieces";
pub const RUST: &str = "rust";

/// Whether valgrind can be called here.
pub fn are_there() -> bool {
    let called = Command::new("valgrind").arg("--version").stdout(Stdio::null()).status();
    called.map_or(false, |status| status.success())
}

/// Instructions a byte, of one reading of the script of a name.
pub fn a_byte(side: &str, name: &str) -> Result<f64, String> {
    let none = Path::new("/dev/null");
    let (few, many) = (collected(side, name, FEW, none)?, collected(side, name, MANY, none)?);
    let script = script_named(name, MOST_BYTES).ok_or_else(|| format!("there is no script `{}`", name))?;
    let bytes = script.len() as u64 * (MANY - FEW);
    Ok(many.saturating_sub(few) as f64 / bytes as f64)
}

/// What callgrind collected in a run that reads the script `times` times; the profile goes to a file.
fn collected(side: &str, name: &str, times: u64, profile: &Path) -> Result<u64, String> {
    let program = std::env::current_exe().map_err(|error| error.to_string())?;
    let mut call = Command::new("valgrind");
    call.arg("--tool=callgrind").arg(format!("--callgrind-out-file={}", profile.display())).arg(program);
    let said = output(call.args(["run", side, name, &times.to_string()]))?.stderr;
    let said = String::from_utf8_lossy(&said);
    let number = said.lines().find_map(|line| line.split("Collected : ").nth(1)).and_then(|it| it.trim().parse().ok());
    number.ok_or_else(|| format!("callgrind says no count:\n{}", said))
}

fn output(call: &mut Command) -> Result<Output, String> {
    let output = call.output().map_err(|error| format!("{:?}: {}", call.get_program(), error))?;
    if output.status.success() {
        return Ok(output);
    }
    Err(format!("{:?} failed:\n{}", call.get_program(), String::from_utf8_lossy(&output.stderr)))
}

/// Our functions with the most instructions of their own for one reading of the script of a name, each with its share of all.
pub fn by_function(name: &str) -> Result<Vec<(String, f64)>, String> {
    let (few, many) = (own_counts(name, FEW)?, own_counts(name, MANY)?);
    let grown = |(name, count): (&String, &u64)| (name.clone(), count - few.get(name).unwrap_or(&0).min(count));
    let counts: Vec<(String, u64)> = many.iter().map(grown).collect();
    let all = counts.iter().map(|(_, count)| count).sum::<u64>() as f64;
    let mut shares: Vec<(String, f64)> = counts.into_iter().map(|(name, count)| (name, count as f64 / all)).collect();
    shares.sort_by(|one, other| other.1.total_cmp(&one.1));
    Ok(shares)
}

/// Each function's own instructions in a walk, by name.
fn own_counts(name: &str, times: u64) -> Result<HashMap<String, u64>, String> {
    let profile = std::env::temp_dir().join(format!("bench-{}.callgrind", std::process::id()));
    collected(WALK, name, times, &profile)?;
    let said = output(Command::new("callgrind_annotate").arg("--threshold=100").arg(&profile))?.stdout;
    std::fs::remove_file(&profile).map_err(|error| error.to_string())?;
    let mut counts = HashMap::new();
    for (name, count) in String::from_utf8_lossy(&said).lines().filter_map(counted) {
        *counts.entry(name).or_insert(0) += count;
    }
    Ok(counts)
}

/// A line `1,234 (5.6%)  FILE:FUNCTION [OBJECT]` of callgrind_annotate.
fn counted(line: &str) -> Option<(String, u64)> {
    let (count, rest) = line.trim_start().split_once(' ')?;
    let count = count.replace(',', "").parse().ok()?;
    let named = rest.split_once(')')?.1.trim_start().split(" [").next()?;
    Some((named.split_once(':')?.1.to_string(), count))
}
