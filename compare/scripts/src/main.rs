//! Compares what the program rows prints with the Rust, script by script: `scripts ROWS few|short|full [SEED]`.
//! `scripts say` answers each script of standard input, a line of hex each, by the Rust: `HEX => ROW / ROW / ..`.

mod walk;

use std::collections::BTreeMap;
use std::io::Write;
use std::process::{exit, Command, Stdio};

use cases::hex;
use cases::pieces;
use cases::random::Random;

/// The longest script that rows reads.
const LONGEST: usize = 16_384;

fn main() {
    oracle::quiet_panics();
    let words: Vec<String> = std::env::args().skip(1).collect();
    if words == ["say"] {
        return say();
    }
    let (rows, count) = match (words.first(), words.get(1).map(String::as_str)) {
        (Some(rows), Some("few")) => (rows, 400),
        (Some(rows), Some("short")) => (rows, 4_000),
        (Some(rows), Some("full")) => (rows, 200_000),
        _ => usage(),
    };
    let seed = match words.get(2) {
        Some(word) => word.parse().unwrap_or_else(|_| usage()),
        None => 1,
    };
    println!("scripts: seed {}", seed);
    match compare(rows, count, seed) {
        Ok(ends) => println!("ok scripts ({} cases: {})", ends.values().sum::<u64>(), told(&ends)),
        Err(difference) => {
            println!("FAILED scripts\n{}", difference);
            exit(1)
        }
    }
}

fn usage() -> ! {
    eprintln!("scripts ROWS few|short|full [SEED], or scripts say");
    exit(2)
}

/// Answers the lines of standard input; what is no script is passed on as it is.
fn say() {
    for line in std::io::stdin().lines().map(|line| line.expect("standard input can be read")) {
        let mut script = Vec::new();
        if hex::read_repeats(line.as_bytes(), &mut script).is_err() {
            println!("{}", line);
        } else {
            println!("{} => {}", line, said(&script).join(" / "));
        }
    }
}

/// How often scripts ended in each way, or the first difference.
fn compare(rows: &str, count: u64, seed: u64) -> Result<BTreeMap<String, u64>, String> {
    let mut ends = BTreeMap::new();
    let mut random = Random::new(seed);
    for script in fixed() {
        *ends.entry(hold(rows, &script)?).or_insert(0) += 1;
    }
    for _ in 0..count {
        *ends.entry(hold(rows, &pieces::script(&mut random))?).or_insert(0) += 1;
    }
    for number in [1, 2, 3, 4, 9, 11] {
        if !ends.contains_key(&format!("refused {}", number)) {
            return Err(format!("  no script was refused with {}", number));
        }
    }
    Ok(ends)
}

/// Scripts at the limits: none, all that is read and one byte more, a full stack and one frame more.
fn fixed() -> Vec<Vec<u8>> {
    let deep = |count| [b"<?php ".to_vec(), vec![b'{'; count]].concat();
    let label = |count| [b"<?php <<<".to_vec(), vec![b'E'; count], b"\n\n".to_vec(), vec![b'E'; count]].concat();
    let quote = |count: usize| [b"<?php '".to_vec(), vec![b'\n'; count - 8], b"'".to_vec()].concat();
    vec![Vec::new(), quote(LONGEST), quote(LONGEST + 1), deep(63), deep(64), label(64), label(65)]
}

/// How the script ends, where rows prints what the Rust says; else both, of a script made as small as it goes.
fn hold(rows: &str, script: &[u8]) -> Result<String, String> {
    let (said, printed) = both(rows, script)?;
    if said == printed {
        let last = said.last().cloned().unwrap_or_default();
        return Ok(last.split(' ').take(if last.starts_with("refused") { 2 } else { 1 }).collect::<Vec<_>>().join(" "));
    }
    let mut small = script.to_vec();
    let mut at = 0;
    while at < small.len() {
        let mut shorter = small.clone();
        shorter.remove(at);
        let (said, printed) = both(rows, &shorter)?;
        if said == printed {
            at += 1;
        } else {
            small = shorter;
            at = 0;
        }
    }
    let (said, printed) = both(rows, &small)?;
    let hex: String = small.iter().map(|byte| format!("{:02x}", byte)).collect();
    Err(format!("  script {}\n  the Rust {}\n  rows     {}", hex, said.join(" / "), printed.join(" / ")))
}

/// What the Rust says of a script, and what rows prints.
fn both(rows: &str, script: &[u8]) -> Result<(Vec<String>, Vec<String>), String> {
    let printed = run(rows, script).map_err(|wrong| format!("  {} does not run: {}", rows, wrong))?;
    Ok((said(script), String::from_utf8_lossy(&printed).lines().map(str::to_string).collect()))
}

fn said(script: &[u8]) -> Vec<String> {
    if script.len() > LONGEST {
        return vec!["refused 11 1 1 0".to_string()];
    }
    walk::rows_of(script)
}

fn run(rows: &str, script: &[u8]) -> std::io::Result<Vec<u8>> {
    let mut child = Command::new(rows).stdin(Stdio::piped()).stdout(Stdio::piped()).spawn()?;
    // A program that has read enough may close its input.
    let _ = child.stdin.take().map(|mut input| input.write_all(script));
    Ok(child.wait_with_output()?.stdout)
}

fn told(ends: &BTreeMap<String, u64>) -> String {
    ends.iter().map(|(end, count)| format!("{} {}", count, end)).collect::<Vec<_>>().join(", ")
}
