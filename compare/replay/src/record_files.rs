//! Record files both ways, each with what the proved library must answer, from document 01 worked by hand.

use host::{file_to_list, list_to_file};

/// Two records, and the file that they are: 32 bytes a record, little-endian. The first is an older writer's, which
/// states no end.
const LIST: [u32; 16] = [5, 0, 1, 2, 3, 0, 258, 0, 12, 2, 65_537, 16_909_060, u32::MAX, 258, 1, 65_536];
const FILE: [u8; 64] = [
    5, 0, 0, 0, 0, 0, 0, 0, 1, 0, 0, 0, 2, 0, 0, 0, 3, 0, 0, 0, 0, 0, 0, 0, 2, 1, 0, 0, 0, 0, 0, 0, //
    12, 0, 0, 0, 2, 0, 0, 0, 1, 0, 1, 0, 4, 3, 2, 1, 255, 255, 255, 255, 2, 1, 0, 0, 1, 0, 0, 0, 0, 0, 1, 0,
];

/// What stands in the room before a call.
const BEFORE: u8 = 0xa5;

/// How many numbers of a list and bytes of room for its file, and the refusal or 0.
const TO_FILE: [(usize, usize, u32); 10] = [
    (16, 64, 0),
    (16, 67, 0),
    (8, 32, 0),
    (0, 0, 0),
    (16, 63, 8),
    (8, 31, 8),
    (15, 64, 10),
    (7, 0, 10),
    (65_538 * 8, 0, 11),
    (65_538 * 8 + 1, 0, 11),
];

/// How many bytes of a file and numbers of room for its list, and the refusal or 0.
const TO_LIST: [(usize, usize, u32); 12] = [
    (64, 16, 0),
    (64, 23, 0),
    (32, 8, 0),
    (0, 0, 0),
    (64, 15, 7),
    (32, 7, 7),
    (63, 16, 10),
    (36, 16, 10),
    (1, 0, 10),
    (65_538 * 32, 16, 11),
    (64, 65_538 * 8, 11),
    (63, 65_538 * 8, 11),
];

/// Says `ok` or what went wrong; a refused call must leave the room as it was, and no call writes after the records.
pub fn all_given() -> bool {
    for (numbers, room, expected) in TO_FILE {
        let list: Vec<u32> = LIST.iter().copied().cycle().take(numbers).collect();
        let mut file = vec![BEFORE; room];
        let number = list_to_file(&list, &mut file);
        let written = if expected == 0 { &FILE[..numbers * 4] } else { &[] };
        if number != expected || !holds(&file, written, BEFORE) {
            return failed(&format!("a list of {} numbers to {} bytes", numbers, room), expected, number);
        }
    }
    for (bytes, room, expected) in TO_LIST {
        let file: Vec<u8> = FILE.iter().copied().cycle().take(bytes).collect();
        let mut list = vec![u32::from(BEFORE); room];
        let number = file_to_list(&file, &mut list);
        let written = if expected == 0 { &LIST[..bytes / 4] } else { &[] };
        if number != expected || !holds(&list, written, u32::from(BEFORE)) {
            return failed(&format!("a file of {} bytes to {} numbers", bytes, room), expected, number);
        }
    }
    println!("ok replay record files ({} cases)", TO_FILE.len() + TO_LIST.len());
    true
}

/// Whether a room holds what was to be written, and after it what stood there before.
fn holds<T: PartialEq>(room: &[T], written: &[T], before: T) -> bool {
    room.starts_with(written) && room[written.len()..].iter().all(|item| *item == before)
}

fn failed(what: &str, expected: u32, number: u32) -> bool {
    println!("FAILED replay record files\n  {}: expected {}, got {}, or other contents", what, expected, number);
    false
}
