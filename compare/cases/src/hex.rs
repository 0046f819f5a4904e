//! Bytes as hex digits; a lone `-` stands for no bytes. With repeats: `HEX*COUNT`, and parts joined by `+`.

const DIGITS: &[u8; 16] = b"0123456789abcdef";

/// Appends the bytes in lower-case hex.
pub fn write(bytes: &[u8], out: &mut Vec<u8>) {
    if bytes.is_empty() {
        out.push(b'-');
    }
    for byte in bytes {
        out.push(DIGITS[usize::from(byte >> 4)]);
        out.push(DIGITS[usize::from(byte & 15)]);
    }
}

/// Replaces `bytes` by what the word says, or tells what is wrong with the word.
pub fn read(word: &[u8], bytes: &mut Vec<u8>) -> Result<(), &'static str> {
    bytes.clear();
    if word == b"-" {
        return Ok(());
    }
    if word.is_empty() {
        return Err("is left out (`-` stands for no bytes)");
    }
    if word.len() % 2 == 1 {
        return Err("has an odd number of hex digits");
    }
    for pair in word.chunks_exact(2) {
        match (digit_value(pair[0]), digit_value(pair[1])) {
            (Some(high), Some(low)) => bytes.push(high << 4 | low),
            _ => return Err("is not hex"),
        }
    }
    Ok(())
}

/// A run of one byte that has at least this many is written as a repeat.
const LEAST_REPEAT: usize = 8;

/// Appends the bytes with long runs of one byte as repeats.
pub fn write_repeats(bytes: &[u8], out: &mut Vec<u8>) {
    let (mut plain, mut at) = (0, 0);
    while at < bytes.len() {
        let run = bytes[at..].iter().take_while(|byte| **byte == bytes[at]).count();
        if run >= LEAST_REPEAT {
            write_part(&bytes[plain..at], 1, out);
            write_part(&bytes[at..at + 1], run, out);
            plain = at + run;
        }
        at += run;
    }
    write_part(&bytes[plain..], 1, out);
    if bytes.is_empty() {
        out.push(b'-');
    } else {
        out.pop();
    }
}

/// The bytes with repeats, to be printed.
pub fn shown(bytes: &[u8]) -> String {
    let mut out = Vec::new();
    write_repeats(bytes, &mut out);
    String::from_utf8_lossy(&out).into_owned()
}

/// Appends a part and a `+`, or nothing for no bytes.
fn write_part(bytes: &[u8], count: usize, out: &mut Vec<u8>) {
    if bytes.is_empty() {
        return;
    }
    write(bytes, out);
    if count != 1 {
        out.extend_from_slice(format!("*{}", count).as_bytes());
    }
    out.push(b'+');
}

/// Replaces `bytes` by what a word with repeats says, or tells what is wrong with the word.
pub fn read_repeats(word: &[u8], bytes: &mut Vec<u8>) -> Result<(), &'static str> {
    bytes.clear();
    let mut part = Vec::new();
    for segment in word.split(|byte| *byte == b'+') {
        let mut halves = segment.splitn(2, |byte| *byte == b'*');
        read(halves.next().unwrap_or_default(), &mut part)?;
        let count = match halves.next() {
            None => 1,
            Some(digits) => {
                decimal(digits).filter(|count| *count <= MOST_REPEATS).ok_or("has a repeat that is no count")?
            }
        };
        (0..count).for_each(|_| bytes.extend_from_slice(&part));
    }
    Ok(())
}

/// No part is repeated more often.
const MOST_REPEATS: usize = 1_000_000;

/// The number that digits say; none where there is another byte or no digit, or where it is too large.
pub fn decimal(digits: &[u8]) -> Option<usize> {
    if digits.is_empty() || !digits.iter().all(u8::is_ascii_digit) {
        return None;
    }
    std::str::from_utf8(digits).ok()?.parse().ok()
}

fn digit_value(digit: u8) -> Option<u8> {
    match digit {
        b'0'..=b'9' => Some(digit - b'0'),
        b'a'..=b'f' => Some(digit - b'a' + 10),
        b'A'..=b'F' => Some(digit - b'A' + 10),
        _ => None,
    }
}
