//! Calls that the proved library must refuse, each with what it must answer, from document 01 worked by hand.

use host::past;

/// A name, the part's length, the numbers lent, the refusal or 0.
const CALLS: [(&str, usize, &[u32], u32); 9] = [
    ("a whole script", 65_536, &[1, 1, 0], 0),
    ("a script too long by one", 65_537, &[1, 1, 0], 11),
    ("two numbers", 1, &[1, 1], 10),
    ("four numbers", 1, &[1, 1, 0, 0], 10),
    ("no numbers", 0, &[], 10),
    ("the largest good numbers", 1, &[65_537, 65_537, 65_537], 0),
    ("a line too large", 1, &[65_538, 1, 0], 12),
    ("a column too large", 1, &[1, 65_538, 0], 12),
    ("a position too large", 1, &[1, 1, u32::MAX], 12),
];

/// Says `ok` or what went wrong; a refused call must leave the numbers as they were.
pub fn all_given() -> bool {
    for (name, length, lent, expected) in CALLS {
        let part = vec![b'a'; length];
        let mut numbers = lent.to_vec();
        let number = past(&part, &mut numbers);
        if number != expected || (number != 0 && numbers != lent) {
            println!(
                "FAILED replay refusals\n  {}: expected {}, got {}, numbers {:?}",
                name, expected, number, numbers
            );
            return false;
        }
    }
    println!("ok replay refusals ({} cases)", CALLS.len());
    true
}
