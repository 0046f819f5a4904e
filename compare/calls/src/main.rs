//! Calls of the host's boundary, each held to what is told of it, in one process: `calls few|short|full [SEED]`.

mod classes;
mod comments;
mod cuts;
mod ends;
mod filled;
mod finds;
mod forged;
mod hold;
mod leaps;
mod limits;
mod lines;
mod lists;
mod octals;
mod plain;
mod shorts;
mod smaller;
mod sources;
mod walks;

use std::process::exit;
use std::time::Instant;

use cases::random::Random;

use hold::Held;

/// Tries a number of things at random, or tells what failed.
type Tries = fn(held: &mut Held, count: usize, random: &mut Random) -> Result<(), String>;

/// The groups: a name, the tries, and how many of them in few, in short and in full.
const GROUPS: [(&str, Tries, [usize; 3]); 28] = [
    ("fresh sessions", forged::fresh_sessions, [200, 2_000, 20_000]),
    ("forged sessions", forged::forged_sessions, [40_000, 400_000, 6_000_000]),
    ("every short text", shorts::short_texts, [1, 2, 3]),
    ("octal escapes", octals::octal_escapes, [2_000, 20_000, 400_000]),
    ("comments beside the Rust", comments::beside_the_rust, [4, 4, 6]),
    ("broken calls", forged::broken_calls, [15_000, 150_000, 2_000_000]),
    ("whole scripts", walks::whole_scripts, [1_000, 10_000, 100_000]),
    ("walks with other calls between", walks::mixed_walks, [1_000, 10_000, 150_000]),
    ("scripts cut at random places", cuts::cut_scripts, [400, 4_000, 60_000]),
    ("tables too small", walks::small_tables, [300, 3_000, 40_000]),
    ("walks in one call", leaps::walks_in_one_call, [400, 4_000, 60_000]),
    ("65,535 to 65,537 bytes of source and pool", limits::lengths, [30, 300, 3_000]),
    ("65,536 to 65,538 places", limits::places, [20, 60, 600]),
    ("62 to 65 frames", limits::frames, [1, 1, 1]),
    ("scripts at the limits", limits::scripts, [1, 3, 30]),
    ("labels of 0 to 66 bytes", limits::labels, [1, 1, 1]),
    ("long walks in one call", leaps::long_walks, [1, 2, 20]),
    ("literals read alone", ends::literals_alone, [2_000, 20_000, 400_000]),
    ("classes of bytes", classes::every_byte, [1, 1, 1]),
    ("peek_identifier", plain::peek_identifier, [2_000, 20_000, 400_000]),
    ("past", plain::past, [2_000, 20_000, 400_000]),
    ("record files", plain::record_files, [1_000, 10_000, 200_000]),
    ("record files there and back", plain::there_and_back, [200, 2_000, 40_000]),
    ("look-ups in the largest lists", lists::largest_lists, [2, 10, 100]),
    ("look-ups in forged lists", lists::forged_lists, [8_000, 80_000, 1_000_000]),
    ("look-ups in filled lists", filled::filled_lists, [300, 3_000, 60_000]),
    ("look-ups in lists that agree on the trail", lists::agreeing_lists, [1_000, 10_000, 200_000]),
    ("call lines", lines::come_back, [200, 2_000, 40_000]),
];

fn main() {
    oracle::quiet_panics();
    let words: Vec<String> = std::env::args().skip(1).collect();
    let size = match words.first().map(String::as_str) {
        Some("few") => 0,
        Some("short") => 1,
        Some("full") => 2,
        _ => usage(),
    };
    let seed = match words.get(1) {
        Some(word) => word.parse().unwrap_or_else(|_| usage()),
        None => 1,
    };
    println!("calls: seed {}", seed);
    exit(if compare(size, seed) { 0 } else { 1 })
}

fn usage() -> ! {
    eprintln!("calls few|short|full [SEED]");
    exit(2)
}

/// Whether every group is as told, and every refusal and kind was met.
fn compare(size: usize, seed: u64) -> bool {
    let start = Instant::now();
    let mut held = Held::default();
    let mut good = true;
    for (name, tries, counts) in GROUPS {
        let (before, begun) = (held.count, Instant::now());
        let result = tries(&mut held, counts[size], &mut Random::new(seed));
        let said = format!("{} calls, {:.1} s", held.count - before, begun.elapsed().as_secs_f64());
        good &= say(name, result.map(|_| said));
    }
    good &= say("every refusal, kind and routine was met", held.all_met());
    println!("calls: {} in all, {:.1} s", held.count, start.elapsed().as_secs_f64());
    good
}

fn say(name: &str, result: Result<String, String>) -> bool {
    match &result {
        Ok(said) => println!("ok calls: {} ({})", name, said),
        Err(difference) => println!("FAILED calls: {}\n{}", name, difference),
    }
    result.is_ok()
}
