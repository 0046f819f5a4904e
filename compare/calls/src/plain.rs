//! Calls without a session, at random: `peek_identifier`, `past`, and the record file both ways.

use cases::call::{list_pattern, pool_pattern, RECORD, RECORD_END};
use cases::hex::shown;
use cases::random::Random;
use cases::Span;
use telling::bytes::{identifier_run, is_start, past as past_bytes};
use telling::session::{MOST_BYTES, MOST_TOKENS};

use crate::forged::wild;
use crate::hold::Held;
use crate::smaller::{drop_parts, without_bytes};
use crate::sources::script;

/// Bytes of a number, and of a record in a file.
const NUMBER: usize = 4;
const FILE_RECORD: usize = 32;

/// No number of a place that `past` takes is larger.
const LARGEST: u32 = 65_537;

pub fn peek_identifier(held: &mut Held, count: usize, random: &mut Random) -> Result<(), String> {
    for _ in 0..count {
        let source = script(random);
        let at = if random.below(8) == 0 { wild(random) as usize } else { random.below(source.len() + 1) };
        held.made();
        hold(source, |source| {
            let rest = source.get(at..).unwrap_or(&[]);
            let told = if rest.first().map_or(false, |byte| is_start(*byte)) { identifier_run(rest) } else { 0 };
            let got = host::peek_identifier(source, at);
            (got != told).then(|| format!("peek_identifier at {}: told {}, given {}", at, told, got))
        })?;
    }
    Ok(())
}

/// Tells what is wrong with the call on these bytes, or on fewer of them.
fn hold(bytes: Vec<u8>, wrong: impl Fn(&[u8]) -> Option<String>) -> Result<(), String> {
    if wrong(&bytes).is_none() {
        return Ok(());
    }
    let mut best = bytes;
    drop_parts(
        &mut best,
        Vec::len,
        |bytes, start, width| without_bytes(bytes, start, width),
        |tried| wrong(tried).is_some(),
    );
    Err(format!("  bytes {}\n  {}", shown(&best), wrong(&best).unwrap_or_default()))
}

pub fn past(held: &mut Held, count: usize, random: &mut Random) -> Result<(), String> {
    for index in 0..count {
        let mut part = script(random);
        if index % 100 == 0 {
            part.resize(MOST_BYTES - 1 + random.below(3), b'\n');
        }
        let length = if random.below(8) == 0 { random.below(6) } else { 3 };
        let span: Vec<u32> = (0..length).map(|_| place_number(random)).collect();
        held.made();
        hold(part, |part| {
            let told = told_past(part, &span);
            let mut numbers = span.clone();
            let got = (host::past(part, &mut numbers), numbers);
            (got != told).then(|| format!("past from {:?}: told {:?}, given {:?}", span, told, got))
        })?;
    }
    Ok(())
}

fn place_number(random: &mut Random) -> u32 {
    match random.below(8) {
        0 => wild(random),
        _ => random.below(LARGEST as usize + 1) as u32,
    }
}

/// The refusal or 0, and the numbers afterwards.
fn told_past(part: &[u8], span: &[u32]) -> (u32, Vec<u32>) {
    let refused = |number| (number, span.to_vec());
    if part.len() > MOST_BYTES {
        return refused(11);
    }
    if span.len() != 3 {
        return refused(10);
    }
    if span.iter().any(|number| *number > LARGEST) {
        return refused(12);
    }
    let number = |place: usize| span[place] as usize;
    let to = past_bytes(Span { line: number(0), column: number(1), position: number(2) }, part);
    (0, vec![to.line as u32, to.column as u32, to.position as u32])
}

pub fn record_files(held: &mut Held, count: usize, random: &mut Random) -> Result<(), String> {
    for index in 0..count {
        let is_large = index % 200 == 0;
        to_file(held, is_large, random)?;
        to_list(held, is_large, random)?;
    }
    Ok(())
}

/// A number of records, and a length around so many, or within the next; a large one lies at the bound.
fn length(is_large: bool, record: usize, random: &mut Random) -> usize {
    let records = if is_large { MOST_TOKENS - 1 + random.below(3) } else { random.below(5) };
    let more = [0, 0, 0, 1, record - 1, random.below(record)][random.below(6)];
    (records * record + more).saturating_sub([0, 0, 0, 1][random.below(4)])
}

fn to_file(held: &mut Held, is_large: bool, random: &mut Random) -> Result<(), String> {
    let list: Vec<u32> = (0..length(is_large, RECORD, random)).map(list_pattern).collect();
    let room = match random.below(3) {
        0 => length(is_large, FILE_RECORD, random),
        _ => list.len() * NUMBER + random.below(4),
    };
    let before: Vec<u8> = (0..room).map(pool_pattern).collect();
    let number = match list.len() {
        length if length / RECORD > MOST_TOKENS => 11,
        length if length % RECORD != 0 => 10,
        length if length * NUMBER > room => 8,
        _ => 0,
    };
    let mut told = before.clone();
    if number == 0 {
        let bytes: Vec<u8> = list.iter().flat_map(|number| number.to_le_bytes()).collect();
        told[..bytes.len()].copy_from_slice(&bytes);
    }
    let mut got = before;
    held.made();
    let given = host::list_to_file(&list, &mut got);
    same("list_to_file", (list.len(), room), (number, told), (given, got))
}

fn to_list(held: &mut Held, is_large: bool, random: &mut Random) -> Result<(), String> {
    let file: Vec<u8> = (0..length(is_large, FILE_RECORD, random)).map(pool_pattern).collect();
    let room = match random.below(3) {
        0 => length(is_large, RECORD, random),
        _ => file.len() / NUMBER + random.below(4),
    };
    let before: Vec<u32> = (0..room).map(list_pattern).collect();
    let number = match file.len() {
        length if length / FILE_RECORD > MOST_TOKENS || room / RECORD > MOST_TOKENS => 11,
        length if length % FILE_RECORD != 0 => 10,
        length if length / FILE_RECORD > room / RECORD => 7,
        _ => 0,
    };
    let mut told = before.clone();
    if number == 0 {
        for (place, bytes) in file.chunks_exact(NUMBER).enumerate() {
            told[place] = u32::from_le_bytes(bytes.try_into().unwrap());
        }
    }
    let mut got = before;
    held.made();
    let given = host::file_to_list(&file, &mut got);
    same("file_to_list", (file.len(), room), (number, told), (given, got))
}

/// Lists to a file and back, as a new writer leaves them and as an old one did, whose ends are 0: the file is the same
/// bytes both times, and the list the same numbers.
pub fn there_and_back(held: &mut Held, count: usize, random: &mut Random) -> Result<(), String> {
    for index in 0..count {
        let records = if index % 500 == 0 { MOST_TOKENS } else { random.below(6) };
        let mut list: Vec<u32> = (0..records * RECORD).map(|_| random.number() as u32).collect();
        let way = random.below(3);
        for record in list.chunks_exact_mut(RECORD) {
            record[RECORD_END] = [0, wild(random), record[RECORD_END]][way];
        }
        let written = written(held, &list)?;
        let read = read(held, &written)?;
        if read != list || self::written(held, &read)? != written {
            let place = (0..list.len()).find(|place| read[*place] != list[*place]);
            return Err(format!("  a list of {} records comes back as another, from {:?} on", records, place));
        }
        let is_old =
            |file: &[u8]| file.chunks_exact(FILE_RECORD).all(|record| record[RECORD_END * NUMBER..] == [0; NUMBER]);
        if way == 0 && !is_old(&written) {
            return Err(format!("  a list of {} records without ends gets some in the file", records));
        }
    }
    Ok(())
}

/// The file of a list, in just enough room.
fn written(held: &mut Held, list: &[u32]) -> Result<Vec<u8>, String> {
    let mut file: Vec<u8> = (0..list.len() * NUMBER).map(pool_pattern).collect();
    held.made();
    match host::list_to_file(list, &mut file) {
        0 => Ok(file),
        number => Err(format!("  a list of {} numbers is refused with {}", list.len(), number)),
    }
}

/// The list of a file, in just enough room.
fn read(held: &mut Held, file: &[u8]) -> Result<Vec<u32>, String> {
    let mut list: Vec<u32> = (0..file.len() / NUMBER).map(list_pattern).collect();
    held.made();
    match host::file_to_list(file, &mut list) {
        0 => Ok(list),
        number => Err(format!("  a file of {} bytes is refused with {}", file.len(), number)),
    }
}

/// Tells lengths, both refusals and the first place that differs.
fn same<T: PartialEq>(
    name: &str,
    lengths: (usize, usize),
    told: (u32, Vec<T>),
    given: (u32, Vec<T>),
) -> Result<(), String> {
    if told == given {
        return Ok(());
    }
    let place = (0..told.1.len()).find(|place| told.1[*place] != given.1[*place]);
    Err(format!("  {} of lengths {:?}: told {}, given {}, first apart at {:?}", name, lengths, told.0, given.0, place))
}
