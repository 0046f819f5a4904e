//! Sessions that no call gave: each number at its bounds and past them by one, and what is no frame, choices or label.

use cases::call::{BYTES, CHOICES, COLUMN, DEPTH, LINE, POSITION, SLOT, SLOTS, TOKENS};
use cases::random::Random;
use cases::{Call, Function};
use telling::Teller;

use crate::sessions::{bare, plain, put_frames, put_marks, HEREDOC, NOWDOC, SCRIPTING, VAR_OFFSET};

/// Numbers of a session that are changed: place and number.
type Changes = Vec<(usize, u32)>;

/// Calls with several numbers changed.
const RANDOM: usize = 90;

/// Functions and arguments; the first is tried with every change, the others in turn.
const CALLED: [(Function, &[usize]); 6] = [
    (Function::Step, &[]),
    (Function::ReadNumber, &[]),
    (Function::Skip, &[1]),
    (Function::Push, &[4, 0, 64]),
    (Function::Pop, &[]),
    (Function::ReadDouble, &[]),
];

/// Ranges of the source that are labels, or are none for one reason each: no byte, too long, another byte in it, past the
/// end, more than 16 bits.
const LABELS: [(u32, u32); 20] = [
    (0, 0),
    (0, 1),
    (0, 63),
    (0, 64),
    (0, 65),
    (6, 64),
    (7, 64),
    (69, 1),
    (70, 1),
    (71, 1),
    (72, 1),
    (73, 1),
    (73, 0),
    (65_536, 1),
    (65_535, 1),
    (0, 65_537),
    (131_072, 65_537),
    (u32::MAX, 1),
    (1, u32::MAX),
    (u32::MAX, u32::MAX),
];

pub fn calls(random: &mut Random, _: &mut Teller) -> Vec<Call> {
    let mut calls = Vec::new();
    let all = [numbers(), frames(), labels()].concat();
    for (index, changes) in all.iter().enumerate() {
        calls.push(changed(0, changes));
        calls.push(changed(1 + index % (CALLED.len() - 1), changes));
    }
    for _ in 0..RANDOM {
        let several: Changes = (0..2 + random.below(2)).flat_map(|_| all[random.below(all.len())].clone()).collect();
        calls.push(changed(random.below(CALLED.len()), &several));
    }
    calls
}

/// A good session of three frames after 70 identifier bytes and a break, with marks, and some of its numbers changed.
fn changed(called: usize, changes: &[(usize, u32)]) -> Call {
    let (function, arguments) = CALLED[called];
    let head = [vec![b'E'; 70], b"\n".to_vec()].concat();
    let mut call = plain(function, &head, b"1;", bare(SCRIPTING));
    put_frames(&mut call, &[[HEREDOC, 0, 1], bare(VAR_OFFSET), bare(SCRIPTING)]);
    if function.has_tables() {
        put_marks(&mut call, 1, 2);
        call.pool = 20;
    }
    call.arguments = arguments.to_vec();
    for (place, number) in changes {
        call.session[*place] = *number;
    }
    call
}

/// Position, line, column, depth, marks and choices. The position is 71 of 73, the list has four places, the pool 20 bytes.
fn numbers() -> Vec<Changes> {
    let bounds: [(usize, &[u32]); 7] = [
        (POSITION, &[0, 70, 72, 73, 74, u32::MAX]),
        (LINE, &[0, 1, 72, 73, u32::MAX]),
        (COLUMN, &[0, 1, 72, 73, u32::MAX]),
        (DEPTH, &[0, 1, 2, 4, 64, 65, 66, 256, u32::MAX]),
        (TOKENS, &[0, 3, 4, 5, u32::MAX]),
        (BYTES, &[0, 19, 20, 21, u32::MAX]),
        (CHOICES, &[0, 1, 2, 3, 256, u32::MAX]),
    ];
    let mut all = vec![Vec::new()];
    for (place, values) in bounds {
        all.extend(values.iter().map(|value| vec![(place, *value)]));
    }
    all.push(vec![(POSITION, 0), (LINE, 1), (COLUMN, 1)]);
    all.push(vec![(POSITION, 0), (LINE, 2), (COLUMN, 1)]);
    all.push(vec![(POSITION, 0), (LINE, 1), (COLUMN, 2)]);
    all
}

/// Other frames, and numbers that are none, in the three slots below the depth and in two above it.
fn frames() -> Vec<Changes> {
    let mut all = Vec::new();
    for slot in [0, 1, 2, 3, 63] {
        for frame in [0, 2, 6, 7, 8, 9, 10, 256, 65_536, u32::MAX] {
            all.push(vec![(SLOTS + slot * SLOT, frame)]);
        }
    }
    for frame in [7, 8, 6] {
        all.push(vec![(DEPTH, 1), (SLOTS, frame)]);
    }
    all
}

/// Each range as the label of a block at the bottom, on top and above the depth, and after a frame that has no label.
fn labels() -> Vec<Changes> {
    let mut all = Vec::new();
    for (index, (start, len)) in LABELS.iter().enumerate() {
        for (slot, frame) in [(0, HEREDOC), (2, NOWDOC), (3, HEREDOC), (63, NOWDOC), (2, SCRIPTING)] {
            let place = SLOTS + slot * SLOT;
            if slot != 63 || index % 3 == 0 {
                all.push(vec![(place, frame), (place + 1, *start), (place + 2, *len)]);
            }
        }
    }
    all
}
