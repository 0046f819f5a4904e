//! Parts with more announced, and tables that are just large enough or too small by one.

use cases::call::{BYTES, POSITION, RECORD, TOKENS};
use cases::random::Random;
use cases::{Call, Function, Told};
use telling::Teller;

use crate::routines::{Mode, MODES};
use crate::sessions::{bare, plain, put_frames, HEREDOC, INITIAL, NOWDOC, SCRIPTING};

/// So many random parts, and so many calls with four tables each, has a mode.
const PARTS: usize = 34;
const TABLES: usize = 7;

/// Parts on which a reader may answer too early or wait too long, by the top frame's number.
const EDGES: [(u32, &[&[u8]]); 7] = [
    (0, &[b"", b"a", b"<", b"<?", b"<?=", b"<?p", b"<?px", b"<?ph", b"<?phx", b"<?PHP", b"a<b", b"a<?"]),
    (1, &[b"", b"a", b"a;", b"1", b"1;", b"1e", b"1e+", b"1e+x", b"1_", b"1__", b"1.", b"0x", b".", b".5", b".a"]),
    (
        1,
        &[
            b"?", b"?x", b"?>", b"<", b"<<", b"<<<", b"<<<A", b"<<<A\r", b"<<<A\n", b"<<<'A", b"<<<'A'", b"<<<A;",
            b"<a", b"}",
        ],
    ),
    (
        2,
        &[
            b"", b"$", b"$a", b"$a;", b"$a-", b"$a->", b"$a->b", b"$a->1", b"$a?", b"$a?-", b"$a?->", b"$a[", b"{",
            b"{$", b"${",
        ],
    ),
    (
        2,
        &[
            b"\\",
            b"\\4",
            b"\\40",
            b"\\400",
            b"\\x",
            b"\\x4",
            b"\\x41",
            b"\\u",
            b"\\u{",
            b"\\u{110000",
            b"\\u{110000}",
            b"a\"",
        ],
    ),
    (6, &[b"", b"a", b"a}", b"a[", b"a;", b"1", b"$"]),
    (8, &[b"", b"]", b"a"]),
];

/// Parts of a property, which stands on another frame.
const PROPERTIES: [&[u8]; 11] = [b"", b"-", b"->", b"-a", b"?", b"?-", b"?->", b"?a", b"a", b"a;", b"1"];

/// Parts of a block with the label `EO`.
const BLOCKS: [&[u8]; 14] = [
    b"",
    b"a",
    b"\n",
    b"\n ",
    b"\nE",
    b"\nEO",
    b"\nF",
    b"\n \tE",
    b"\n \tEO",
    b"\nE\n",
    b"E",
    b"EO",
    b" a\n  EO",
    b"\r\nEO",
];

pub fn parts(random: &mut Random, _: &mut Teller) -> Vec<Call> {
    let mut calls = Vec::new();
    for (frame, texts) in EDGES {
        calls.extend(texts.iter().map(|text| plain(Function::Step, b"", text, bare(frame))));
    }
    for text in PROPERTIES {
        let mut call = plain(Function::Step, b"", text, bare(7));
        put_frames(&mut call, &[bare(INITIAL), bare(7)]);
        calls.push(call);
    }
    for text in BLOCKS {
        for (frame, choices) in [(HEREDOC, 0), (NOWDOC, 0), (NOWDOC, 1)] {
            let mut call = plain(Function::Step, b"EO\n", text, [frame, 0, 2]);
            call.session[cases::call::CHOICES] = choices;
            calls.push(call);
        }
    }
    for call in calls.clone() {
        // A wait comes before 7 and 8.
        calls.push(Call { list: 0, pool: 0, ..call });
    }
    for depth in [63, 64] {
        for (frame, text) in
            [(1, &b"{"[..]), (2, b"${"), (2, b"$a["), (2, b"$a->"), (2, b"$a->b"), (3, b"{$"), (3, b"{")]
        {
            let mut frames = vec![bare(SCRIPTING); depth];
            frames[depth - 1] = bare(frame);
            let mut call = plain(Function::Step, b"", text, bare(frame));
            put_frames(&mut call, &frames);
            calls.push(call);
        }
    }
    for mode in &MODES {
        calls.extend((0..PARTS).map(|_| cut(mode, random)));
    }
    calls.iter_mut().for_each(|call| call.end = 0);
    calls
}

/// A mode's call whose source is cut somewhere from the cursor on.
fn cut(mode: &Mode, random: &mut Random) -> Call {
    let mut call = mode.sample(random);
    let position = call.session[POSITION] as usize;
    call.source.truncate(position + random.below(call.source.len() - position + 1));
    call
}

pub fn tables(random: &mut Random, teller: &mut Teller) -> Vec<Call> {
    let mut calls = Vec::new();
    for mode in &MODES {
        let mut count = 0;
        while count < TABLES {
            let call = mode.sample(random);
            if let Told::Done { records, values, .. } = teller.told(&call) {
                count += 1;
                calls.extend(sized(&call, records.len(), values.len()));
            }
        }
    }
    calls
}

/// The call with tables that hold just what it writes, then too small by one: the list, the pool, both.
fn sized(call: &Call, records: usize, values: usize) -> [Call; 4] {
    let list = (call.number(TOKENS) + records) * RECORD;
    let pool = call.number(BYTES) + values;
    let with = |list: usize, pool: usize| Call { list, pool, ..call.clone() };
    let (fewer, less) = (list.saturating_sub(1), pool.saturating_sub(1));
    [with(list, pool), with(fewer, pool), with(list, less), with(fewer, less)]
}
