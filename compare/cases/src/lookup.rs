//! A look-up: a call of `find`, which asks for the last record of a list at or before a byte. As a line, five words:
//! `find COUNT BYTE FOUND LIST`.

use crate::call::{as_small, list_pattern, RECORD, RECORD_END, RECORD_POSITION};
use crate::case::number;

/// How many numbers `find` writes at least, and how many with the end.
pub const FOUND: usize = 3;
pub const FOUND_ENDED: usize = 4;

/// No list and no slice of a line is longer.
const MOST_NUMBERS: usize = 1_000_000;

/// So many positions or ends or more that go on by one step are written as a rule.
const LEAST_RUN: usize = 4;

/// What is lent to `find`, and its numbers.
#[derive(Clone, Debug, PartialEq, Eq)]
pub struct Lookup {
    pub list: Vec<u32>,
    /// How many of its records are looked through, and the byte.
    pub count: usize,
    pub byte: usize,
    /// How long the slice for what is found is; before the call each place holds its pattern.
    pub found: usize,
}

impl Lookup {
    /// A look-up in a list of so many numbers whose first records have these positions; the other numbers are patterns.
    pub fn new(length: usize, positions: &[u32], count: usize, byte: usize) -> Lookup {
        let list = (0..length).map(list_pattern).collect();
        Lookup { list, count, byte, found: FOUND }.with(RECORD_POSITION, positions)
    }

    /// The same whose first records have these numbers at a place.
    pub fn with(mut self, place: usize, numbers: &[u32]) -> Lookup {
        for (record, number) in self.list.chunks_exact_mut(RECORD).zip(numbers) {
            record[place] = *number;
        }
        self
    }

    /// How many whole records the list has room for.
    pub fn places(&self) -> usize {
        self.list.len() / RECORD
    }

    /// The position of a record within the places.
    pub fn position(&self, record: usize) -> u32 {
        self.list[record * RECORD + RECORD_POSITION]
    }

    /// The eighth number of a record within the places.
    pub fn end(&self, record: usize) -> u32 {
        self.list[record * RECORD + RECORD_END]
    }

    /// The numbers at a place of all records up to the last that does not hold its pattern there.
    pub fn given(&self, place: usize) -> Vec<u32> {
        let number = |record: usize| self.list[record * RECORD + place];
        let is_given = |record: &usize| number(*record) != list_pattern(record * RECORD + place);
        let given = (0..self.places()).rev().find(is_given).map_or(0, |record| record + 1);
        (0..given).map(number).collect()
    }

    /// The same with the pattern at each place that is no position and no end: what a line can say.
    pub fn patterned(&self) -> Lookup {
        let plain = Lookup::new(self.list.len(), &self.given(RECORD_POSITION), self.count, self.byte);
        Lookup { found: self.found, ..plain.with(RECORD_END, &self.given(RECORD_END)) }
    }

    /// Whether a line of calls is a look-up.
    pub fn is_line(line: &[u8]) -> bool {
        line.starts_with(b"find ")
    }

    /// The look-up that a line says, or in plain words what is wrong with the line.
    pub fn read(line: &[u8]) -> Result<Lookup, String> {
        let words: Vec<&[u8]> = line.split(|byte| *byte == b' ').collect();
        if words.len() != 5 || !Lookup::is_line(line) {
            return Err("a look-up is five words: find COUNT BYTE FOUND LIST".to_string());
        }
        let (length, positions, ends) = read_list(words[4])?;
        let found = number("slice for what is found", words[3])?;
        let most = positions.len().max(ends.len());
        if found > MOST_NUMBERS || length > MOST_NUMBERS || most > length / RECORD {
            return Err(format!("a list of {} numbers can't be, or has {} positions or ends", length, most));
        }
        let (count, byte) = (number("count", words[1])?, number("byte", words[2])?);
        Ok(Lookup { found, ..Lookup::new(length, &positions, count, byte).with(RECORD_END, &ends) })
    }

    /// Appends the look-up as a line, without its line break.
    pub fn write(&self, out: &mut Vec<u8>) {
        let head = format!("find {} {} {} {}:", self.count, self.byte, self.found, self.list.len());
        out.extend_from_slice(head.as_bytes());
        write_numbers(&self.given(RECORD_POSITION), out);
        let ends = self.given(RECORD_END);
        if !ends.is_empty() {
            out.push(b':');
            write_numbers(&ends, out);
        }
    }
}

/// `LENGTH:POSITIONS` or `LENGTH:POSITIONS:ENDS`.
fn read_list(word: &[u8]) -> Result<(usize, Vec<u32>, Vec<u32>), String> {
    let mut parts = word.splitn(3, |byte| *byte == b':');
    let length = number("list's length", parts.next().unwrap_or_default())?;
    let positions = read_numbers(parts.next().ok_or("a list is LENGTH:POSITIONS or LENGTH:POSITIONS:ENDS")?)?;
    let ends = parts.next().map_or(Ok(Vec::new()), read_numbers)?;
    Ok((length, positions, ends))
}

/// Positions or ends with commas between them; `-` stands for none.
fn read_numbers(word: &[u8]) -> Result<Vec<u32>, String> {
    let mut numbers = Vec::new();
    if word != b"-" {
        word.split(|byte| *byte == b',').try_for_each(|part| read_part(part, &mut numbers))?;
    }
    Ok(numbers)
}

/// `P`, or so many numbers from P on: `P*COUNT`, `P+STEP*COUNT` or `P-STEP*COUNT`.
fn read_part(part: &[u8], numbers: &mut Vec<u32>) -> Result<(), String> {
    let mut halves = part.splitn(2, |byte| *byte == b'*');
    let rule = halves.next().unwrap_or_default();
    let count = halves.next().map_or(Ok(1), |digits| number("count of numbers", digits))?;
    let sign = rule.iter().position(|byte| matches!(byte, b'+' | b'-'));
    let (first, step) = match sign {
        None => (signed(rule)?, 0),
        Some(place) if rule[place] == b'+' => (signed(&rule[..place])?, signed(&rule[place + 1..])?),
        Some(place) => (signed(&rule[..place])?, -signed(&rule[place + 1..])?),
    };
    if count > MOST_NUMBERS {
        return Err(format!("{} numbers are too many", count));
    }
    for index in 0..count as i64 {
        let number = u32::try_from(first + step * index);
        numbers.push(number.map_err(|_| "a position or an end is not of 32 bits".to_string())?);
    }
    Ok(())
}

/// A number of 32 bits, with room for a sign.
fn signed(digits: &[u8]) -> Result<i64, String> {
    as_small("position or end", number("position or end", digits)?).map(i64::from)
}

fn write_numbers(numbers: &[u32], out: &mut Vec<u8>) {
    let mut words = Vec::new();
    let mut rest = numbers;
    while let Some(first) = rest.first() {
        let run = run_of(rest);
        let (word, taken) = if run >= LEAST_RUN { (rule_of(rest, run), run) } else { (first.to_string(), 1) };
        words.push(word);
        rest = &rest[taken..];
    }
    out.extend_from_slice(if words.is_empty() { "-".to_string() } else { words.join(",") }.as_bytes());
}

/// How many numbers from the first on go on by one step.
fn run_of(numbers: &[u32]) -> usize {
    let step = |pair: &[u32]| i64::from(pair[1]) - i64::from(pair[0]);
    let first = numbers.get(..2).map(step);
    1 + numbers.windows(2).take_while(|pair| Some(step(pair)) == first).count()
}

/// The rule of a run of two numbers or more.
fn rule_of(numbers: &[u32], run: usize) -> String {
    let (first, second) = (numbers[0], numbers[1]);
    match second {
        _ if second == first => format!("{}*{}", first, run),
        _ if second > first => format!("{}+{}*{}", first, second - first, run),
        _ => format!("{}-{}*{}", first, first - second, run),
    }
}
