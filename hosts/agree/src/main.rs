//! Holds hosts to the program rows, byte for byte, at piece sizes 1, 2, 3, 7, 64 and whole: `agree SEED COUNT ROWS HOST
//! [-- HOST..]`, where COUNT is how many scripts are tried, and a HOST a program and its words. Then, on scripts that are longer than rows takes, to what
//! was worked by hand.

mod run;
mod scripts;

use std::collections::BTreeMap;
use std::process::exit;
use std::thread::{available_parallelism, scope};

use run::{Folder, Given, Lent, Program};

/// The piece sizes; the last is larger than any script.
const PIECES: [usize; 6] = [1, 2, 3, 7, 64, 100_000];

/// How many characters of a script or an output are shown.
const MOST_SHOWN: usize = 2_000;

fn main() {
    let words: Vec<String> = std::env::args().skip(1).collect();
    let (tries, rows, hosts) = match asked(&words) {
        Some(asked) => asked,
        None => usage(),
    };
    let folder = Folder::new().unwrap_or_else(|wrong| {
        eprintln!("agree: no folder for scripts can be made ({}): make room for temporary files", wrong);
        exit(2)
    });
    println!("agree: seed {}", tries.seed);
    let good = say("agree", with_rows(&rows, &hosts, &folder, &tries));
    let good = say("agree limits", at_the_limits(&hosts, &folder)) && good;
    drop(folder);
    exit(if good { 0 } else { 1 })
}

/// Which scripts are tried with rows, and how many.
struct Tries {
    seed: u64,
    count: usize,
}

/// The scripts, rows and the hosts.
fn asked(words: &[String]) -> Option<(Tries, Program<'_>, Vec<Program<'_>>)> {
    let (seed, words) = words.split_first()?;
    let (count, words) = words.split_first()?;
    let tries = Tries { seed: seed.parse().ok()?, count: count.parse().ok()? };
    let (rows, words) = words.split_first()?;
    let host = |words| <[String]>::split_first(words).map(|(path, words)| Program { path, words });
    let hosts: Option<Vec<Program>> = words.split(|word| word == "--").map(host).collect();
    Some((tries, Program { path: rows, words: &[] }, hosts?))
}

fn usage() -> ! {
    eprintln!(
        "agree SEED COUNT ROWS HOST [-- HOST..], where SEED and COUNT are whole numbers, ROWS is a program, HOST a program \
         and its words"
    );
    exit(2)
}

/// Prints how a test went.
fn say(name: &str, result: Result<String, String>) -> bool {
    match &result {
        Ok(counts) => println!("ok {} ({})", name, counts),
        Err(difference) => println!("FAILED {}\n{}", name, difference),
    }
    result.is_ok()
}

/// How often the scripts ended in each way, or the first difference between a host and rows.
fn with_rows(rows: &Program, hosts: &[Program], folder: &Folder, tries: &Tries) -> Result<String, String> {
    let scripts = scripts::short(tries.count, tries.seed);
    let lanes = available_parallelism().map_or(1, usize::from);
    let results: Vec<_> = scope(|scope| {
        let started: Vec<_> = (0..lanes)
            .map(|lane| (lane..scripts.len()).step_by(lanes).map(|place| (place, &scripts[place])))
            .map(|share| scope.spawn(move || share_with_rows(rows, hosts, folder, share)))
            .collect();
        started.into_iter().map(|lane| lane.join().unwrap_or_else(|_| Err("  a lane broke off".to_string()))).collect()
    });
    let mut ends = BTreeMap::new();
    for result in results {
        for end in result? {
            *ends.entry(end).or_insert(0) += 1;
        }
    }
    for number in [1, 2, 3, 4, 9] {
        if !ends.contains_key(&format!("refused {}", number)) {
            return Err(format!("  no script was refused with {}", number));
        }
    }
    let told: Vec<String> = ends.iter().map(|(end, count)| format!("{} {}", count, end)).collect();
    Ok(format!("{} cases: {}; {} hosts, {} piece sizes", scripts.len(), told.join(", "), hosts.len(), PIECES.len()))
}

/// How each of some scripts ended. Scripts and piece sizes take turns in coming from a file and from standard input.
fn share_with_rows<'a>(
    rows: &Program,
    hosts: &[Program],
    folder: &Folder,
    share: impl Iterator<Item = (usize, &'a Vec<u8>)>,
) -> Result<Vec<String>, String> {
    let mut ends = Vec::new();
    for (place, script) in share {
        let lent = folder.lend(place, script)?;
        let printed = rows.run(&lent, None, false)?.printed;
        for (turn, piece) in PIECES.iter().enumerate() {
            for host in hosts {
                hold(host, &lent, *piece, (place + turn) % 2 == 0, &printed)?;
            }
        }
        ends.push(way(&printed));
    }
    Ok(ends)
}

/// How many scripts were tried that rows can't read, or the first difference from what was worked by hand.
fn at_the_limits(hosts: &[Program], folder: &Folder) -> Result<String, String> {
    let scripts = scripts::long();
    for (script, pieces, printed) in &scripts {
        let lent = folder.lend(0, script)?;
        for (piece, host) in pieces.iter().flat_map(|piece| hosts.iter().map(move |host| (piece, host))) {
            hold(host, &lent, *piece, true, printed)?;
        }
    }
    Ok(format!("{} cases", scripts.len()))
}

/// The host must print just that, and its status must tell whether the script is refused.
fn hold(host: &Program, lent: &Lent, piece: usize, from_file: bool, printed: &[u8]) -> Result<(), String> {
    let expected = Given { printed: printed.to_vec(), status: i32::from(way(printed).starts_with("refused")) };
    let given = host.run(lent, Some(piece), from_file)?;
    if given == expected {
        return Ok(());
    }
    let mut hex = Vec::new();
    cases::hex::write(lent.script, &mut hex);
    let from = if from_file { "a file" } else { "standard input" };
    let lines = [
        format!("  {} by pieces of {}, {}", host.path, piece, from),
        format!("  script {}", cut(&String::from_utf8_lossy(&hex))),
        format!("  wanted {}", cut(&expected.to_string())),
        format!("  given  {}", cut(&given.to_string())),
    ];
    Err(lines.join("\n"))
}

/// A text without what is too much to look at.
fn cut(text: &str) -> String {
    match text.char_indices().nth(MOST_SHOWN) {
        Some((end, _)) => format!("{}.. ({} characters in all)", &text[..end], text.chars().count()),
        None => text.to_string(),
    }
}

/// How a script ended: `end`, or `refused` and the number.
fn way(printed: &[u8]) -> String {
    let text = String::from_utf8_lossy(printed);
    let mut words = text.lines().last().unwrap_or_default().split(' ');
    match (words.next(), words.next()) {
        (Some("refused"), Some(number)) => format!("refused {}", number),
        (Some(word), _) => word.to_string(),
        _ => String::new(),
    }
}
