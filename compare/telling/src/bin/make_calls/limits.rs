//! Calls at the limits: the longest source and label, the deepest stack, the largest tables; and the order of refusals.

use cases::call::{BYTES, CHOICES, DEPTH, LINE, RECORD, TOKENS};
use cases::random::Random;
use cases::{Call, Function};
use telling::Teller;

use crate::sessions::{bare, plain, put_frames, Slot, HEREDOC, INITIAL, NOWDOC, SCRIPTING};

const MOST_BYTES: usize = 65_536;
const MOST_TOKENS: usize = 65_537;

pub fn calls(_: &mut Random, _: &mut Teller) -> Vec<Call> {
    let mut calls = Vec::new();
    for length in [MOST_BYTES - 1, MOST_BYTES, MOST_BYTES + 1] {
        calls.extend(long_sources(length));
    }
    for depth in [63, 64, 65] {
        calls.extend(deep(depth));
    }
    for length in [1, 63, 64, 65] {
        calls.extend(labels(length));
    }
    calls.extend(large_tables());
    calls.extend(orders());
    calls
}

/// A source of so many bytes: a head, one byte again and again, and a tail; all of it in the largest pool.
fn long(function: Function, head: &[u8], fill: u8, tail: &[u8], length: usize, top: Slot) -> Call {
    let text = [vec![fill; length - head.len() - tail.len()], tail.to_vec()].concat();
    let call = plain(function, head, &text, top);
    Call { pool: MOST_BYTES, ..call }
}

fn long_sources(length: usize) -> Vec<Call> {
    let block = |frame: u32| [frame, 0, 1];
    let step = Function::Step;
    let mut calls = vec![
        long(step, b"", b'a', b"", length, bare(INITIAL)),
        long(step, b"", b'\n', b"<?php", length, bare(INITIAL)),
        long(step, b"", b'a', b"", length, bare(SCRIPTING)),
        long(step, b"", b'7', b"", length, bare(SCRIPTING)),
        long(step, b"'", b'b', b"'", length, bare(SCRIPTING)),
        long(step, b"", b'a', b"\"", length, bare(2)),
        long(step, b"", b'a', b"$a[", length, bare(3)),
        long(step, b"E\n", b'\n', b"E", length, block(HEREDOC)),
        long(step, b"E\n", b'\n', b"  E", length, block(NOWDOC)),
        long(step, b"E\n", b'a', b"\n\tE", length, block(NOWDOC)),
        long(step, b"", b'a', b"}", length, bare(6)),
        long(Function::ReadNumber, b"", b'1', b"e5", length, bare(SCRIPTING)),
        long(Function::ReadSingle, b"", b'\\', b"'", length, bare(SCRIPTING)),
        long(Function::ReadDouble, b"", b'\n', b"\\u{41}\"", length, bare(SCRIPTING)),
        long(Function::Pop, b"a", b'\n', b"", length, bare(SCRIPTING)),
    ];
    let mut sheet = long(Function::Step, b"E\n", b' ', b"a\n  E", length, block(NOWDOC));
    sheet.session[CHOICES] = 1;
    calls.push(sheet);
    let mut skip = long(Function::Skip, b"", b'\n', b"", length, bare(SCRIPTING));
    skip.arguments = vec![length];
    calls.push(Call { pool: 0, ..skip });
    for call in calls.iter_mut().filter(|call| !call.function.has_tables()) {
        call.pool = 0;
    }
    let mut end = plain(Function::Step, &vec![b'\n'; length], b"", bare(SCRIPTING));
    calls.push(end.clone());
    end.session[LINE] += 1;
    calls.push(end);
    let part = calls[0].clone();
    calls.push(Call { end: 0, ..part });
    calls
}

/// Steps that enter, keep and leave a frame, with so many.
fn deep(depth: usize) -> Vec<Call> {
    let texts: [(u32, &[&[u8]]); 4] = [
        (SCRIPTING, &[b"{", b"}", b"a", b"?>", b"`", b""]),
        (2, &[b"${", b"{$", b"$a[", b"$a->b", b"$a?->b", b"$a;", b"a$a[", b"\""]),
        (HEREDOC, &[b"${", b"{$", b"$a[", b"$a->b", b"x\nE"]),
        (8, &[b"]", b"a"]),
    ];
    let mut calls = Vec::new();
    for (frame, texts) in texts {
        for text in texts {
            let top = if frame == HEREDOC { [frame, 0, 1] } else { bare(frame) };
            let mut call = plain(Function::Step, b"E", text, top);
            let mut frames = vec![bare(SCRIPTING); depth];
            frames[depth - 1] = top;
            put_frames(&mut call, &frames);
            calls.push(call.clone());
            // 9 comes before 7 and 8.
            calls.push(Call { list: 0, pool: 0, ..call });
        }
    }
    calls
}

/// A label of so many bytes: opening a block, with either break and in quotes, and closing one.
fn labels(length: usize) -> Vec<Call> {
    let label = vec![b'L'; length];
    let mut calls = Vec::new();
    for text in [
        [b"<<<", &label[..], b"\n"].concat(),
        [b"<<<", &label[..], b"\r\n"].concat(),
        [b"<<<'", &label[..], b"'\n"].concat(),
        [b"<<<", &label[..]].concat(),
        [b"<<<'", &label[..], b"'"].concat(),
    ] {
        let call = plain(Function::Step, b"", &text, bare(SCRIPTING));
        calls.push(call.clone());
        calls.push(Call { end: 0, ..call });
    }
    for (frame, choices) in [(HEREDOC, 0), (NOWDOC, 0), (NOWDOC, 1)] {
        for less in [0, 1] {
            let text = [b"\n  a\n  ", &label[less..]].concat();
            let mut call = plain(Function::Step, &label, &text, [frame, 0, length as u32]);
            call.session[CHOICES] = choices;
            calls.push(call.clone());
            calls.push(Call { end: 0, ..call });
        }
    }
    calls
}

/// The largest list and pool, and those that are larger by one; marks at their very end.
fn large_tables() -> Vec<Call> {
    let most = MOST_TOKENS * RECORD;
    let mut calls = Vec::new();
    for (list, tokens) in [
        (most, 0),
        (most, 65_536),
        (most, 65_537),
        (most, 65_538),
        (most + 7, 65_536),
        (most + 8, 0),
        (most - 1, 65_536),
    ] {
        let mut call = plain(Function::Step, b"", b"12;", bare(SCRIPTING));
        call.session[TOKENS] = tokens;
        calls.push(Call { list, ..call });
    }
    for text in [&b"'';"[..], b"'a';", b"'ab';"] {
        for (pool, bytes) in
            [(65_536, 0), (65_536, 65_534), (65_536, 65_535), (65_536, 65_536), (65_536, 65_537), (65_537, 0)]
        {
            let mut call = plain(Function::Step, b"", text, bare(SCRIPTING));
            call.session[BYTES] = bytes;
            calls.push(Call { pool, ..call });
        }
    }
    calls
}

/// Calls that two refusals fit: 11 and 12, 12 and 10, 10 and 6, 6 and 7, 1 and 7, 7 and 8.
fn orders() -> Vec<Call> {
    let call = plain(Function::Step, b"", b"'a';", bare(SCRIPTING));
    let mut bad = call.clone();
    bad.session[DEPTH] = 0;
    let reading = plain(Function::ReadSingle, b"", b"", bare(INITIAL));
    let mut bad_reading = reading.clone();
    bad_reading.session[BYTES] = 1000;
    let open = plain(Function::Step, b"", b"'a", bare(SCRIPTING));
    vec![
        Call { pool: MOST_BYTES + 1, ..bad.clone() },
        Call { list: (MOST_TOKENS + 1) * RECORD, ..bad.clone() },
        Call { source: vec![b'a'; MOST_BYTES + 1], ..bad },
        Call { end: 0, list: 0, ..reading.clone() },
        reading,
        bad_reading,
        Call { end: 0, list: 0, pool: 0, ..open.clone() },
        Call { list: 0, pool: 0, ..open },
        Call { list: 0, pool: 0, ..call.clone() },
        Call { list: 7, ..call.clone() },
        Call { pool: 0, ..call },
    ]
}
