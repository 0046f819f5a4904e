//! Writes the stored list of calls, a file a group, into a folder: `make_calls FOLDER`. What each call must give is told,
//! by the Rust's own routines and by documents 01 and 02, and never by the library that the list is replayed on.

mod closers;
mod comments;
mod edges;
mod ends;
mod finds;
mod forged;
mod hosts;
mod limits;
mod octals;
mod routines;
mod sessions;
mod walks;
mod worked;

use std::collections::{BTreeSet, HashSet};
use std::io;
use std::path::Path;

use cases::random::Random;
use cases::{Call, Told};
use telling::find::found;
use telling::Teller;

/// The lines after the first of each file.
const ORIGIN: &str =
    "# CALL => GIVEN as in compare/README.md, from fixed seeds: what the Rust answers, and where it has no such thing what\n\
     # compare/telling tells of documents 01 and 02. The library had no part in it. compare/oracle/make-answers makes it again.";

/// The list has at least and at most this many calls.
const LEAST: usize = 13_600;
const MOST: usize = 14_600;

/// A group's name, what it holds, and its calls.
type Group = (&'static str, &'static str, fn(&mut Random, &mut Teller) -> Vec<Call>);

/// A call, with a title where it was worked by hand.
type Line = (Option<&'static str>, Call);

/// The name of the group of `ends`, and what it holds.
const ENDS: (&str, &str) =
    ("ends", "where the step or reading ended that wrote a record; literals and comments, each among others and alone");

/// The name of the group of `octals`, and what it holds.
const OCTALS: (&str, &str) = (
    "octals",
    "octal escapes as the Rust and as the manual has them, the choice that every call keeps, and what is none",
);

const EDGES: [Group; 9] = [
    ("parts", "parts with more announced, which wait or are settled, in each mode and reading", edges::parts),
    ("tables", "list and pool just large enough, and too small by one, in each mode and reading", edges::tables),
    (
        "forged",
        "sessions at each bound, and past it by one; numbers that are no frame, choices or label",
        forged::calls,
    ),
    ("limits", "65,535 to 65,537 bytes, 63 to 65 frames, labels of 64 and 65 bytes, the largest tables", limits::calls),
    ("hosts", "fresh, skip, push and pop", hosts::calls),
    ("slices", "sessions and answers that are too short, which is seen before anything else", hosts::short_slices),
    ("walk", "scripts walked in one call: with any most, in parts, in tables that fill on the way", walks::calls),
    ("closers", "the label of a block and each byte behind it, and rows that begin with the label", closers::calls),
    (
        "comments",
        "how comments begin and end, whole and in parts, and the other frames, which have none",
        comments::calls,
    ),
];

/// Refusals by which a walk can be stopped after steps that were done.
const STOPPING: [u32; 10] = [1, 2, 3, 4, 5, 6, 7, 8, 9, 13];

/// What the list as a whole has met.
#[derive(Default)]
struct Met {
    calls: usize,
    refusals: BTreeSet<u32>,
    kinds: BTreeSet<u32>,
    stops: BTreeSet<u32>,
}

fn main() -> io::Result<()> {
    let folder = std::env::args().nth(1).expect("make_calls FOLDER");
    let folder = Path::new(&folder);
    oracle::quiet_panics();
    std::fs::create_dir_all(folder)?;
    let mut met = Met::default();
    let mut teller = Teller::default();
    for (index, mode) in routines::MODES.iter().enumerate() {
        let calls = mode.calls(&mut Random::new(index as u64 + 1));
        write_group(folder, (mode.name, mode.what), &untitled(calls), &mut teller, &mut met)?;
    }
    for (index, (name, what, make)) in EDGES.iter().enumerate() {
        let calls = make(&mut Random::new(index as u64 + 101), &mut teller);
        write_group(folder, (name, what), &untitled(calls), &mut teller, &mut met)?;
    }
    let lines = ends::lines(&mut teller);
    write_group(folder, ENDS, &lines, &mut teller, &mut met)?;
    let lines = octals::lines(&mut teller);
    write_group(folder, OCTALS, &lines, &mut teller, &mut met)?;
    write_finds(folder, &mut teller, &mut met)?;
    assert!(met.calls >= LEAST && met.calls <= MOST, "the list has {} calls", met.calls);
    assert_eq!(met.refusals, (1..=13).collect(), "each refusal is met");
    assert_eq!(met.kinds, (1..=21).collect(), "each kind is met");
    assert_eq!(met.stops, BTreeSet::from(STOPPING), "a walk is stopped by each refusal that can stop it");
    Ok(())
}

/// Calls without titles.
fn untitled(calls: Vec<Call>) -> Vec<Line> {
    calls.into_iter().map(|call| (None, call)).collect()
}

/// Writes the calls of a group, each once, with what each must give and the title of one that was worked by hand.
fn write_group(
    folder: &Path,
    (name, what): (&str, &str),
    lines: &[Line],
    teller: &mut Teller,
    met: &mut Met,
) -> io::Result<()> {
    let mut text = head(name, what);
    let mut seen = HashSet::new();
    for (title, call) in lines {
        let mut line = Vec::new();
        call.write(&mut line);
        if !seen.insert(line.clone()) {
            continue;
        }
        let told = teller.told(call);
        met.add(&told);
        text.extend(title.iter().flat_map(|title| format!("# {}\n", title).into_bytes()));
        text.extend_from_slice(&line);
        text.extend_from_slice(b" => ");
        told.write(&mut text);
        text.push(b'\n');
    }
    std::fs::write(folder.join(name).with_extension("txt"), text)
}

/// Writes the look-ups, each once, with what each must give and the title of one that was worked by hand.
fn write_finds(folder: &Path, teller: &mut Teller, met: &mut Met) -> io::Result<()> {
    let what = "which record of a list is under the finger";
    let mut text = head("find", what);
    let mut seen = HashSet::new();
    for (title, lookup) in finds::lines(&mut Random::new(201), teller) {
        let mut line = Vec::new();
        lookup.write(&mut line);
        if !seen.insert(line.clone()) {
            continue;
        }
        met.calls += 1;
        text.extend(title.iter().flat_map(|title| format!("# {}\n", title).into_bytes()));
        text.extend_from_slice(&line);
        text.extend_from_slice(b" => ");
        found(&lookup).write(&mut text);
        text.push(b'\n');
    }
    std::fs::write(folder.join("find.txt"), text)
}

/// The first lines of a group's file.
fn head(name: &str, what: &str) -> Vec<u8> {
    format!("# What the calls of the group `{}` must give: {}.\n{}\n", name, what, ORIGIN).into_bytes()
}

impl Met {
    fn add(&mut self, told: &Told) {
        self.calls += 1;
        self.refusals.extend(Some(told.refusal().0).filter(|number| *number != 0));
        if let Some((_, records, _)) = told.written() {
            self.kinds.extend(records.iter().map(|record| record[0]));
        }
        if let Told::Stopped { number, .. } = told {
            self.stops.insert(*number);
        }
    }
}
