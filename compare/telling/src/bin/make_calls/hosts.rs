//! What a host does to a session without reading: fresh, skip, push, pop; and slices that are too short.

use cases::call::{BYTES, CHOICES, SESSION, TOKENS};
use cases::random::Random;
use cases::{Call, Function};
use telling::Teller;

use crate::sessions::{bare, head, plain, put_frames, trimmed, varied};
use crate::sessions::{HEREDOC, INITIAL, NOWDOC, SCRIPTING, VAR_OFFSET};

/// Calls at random of skip, and of push.
const RANDOM: usize = 50;

/// A source whose first 70 bytes are identifier bytes, with a digit at 3.
const NAMED: &[u8] = b"abc4efghijklmnopqrstuvwxyzABCDEFGHIJKLMNOPQRSTUVWXYZ_\x80\x81\x82abcdefghijklmn -;";

pub fn calls(random: &mut Random, _: &mut Teller) -> Vec<Call> {
    let mut calls = fresh();
    for text in [&b""[..], b"a", b"\n", b"a\nb\r\n\nc", b"\x80\xff\0"] {
        for count in 0..text.len() + 2 {
            calls.push(on(Function::Skip, &[count], text));
        }
        calls.push(on(Function::Skip, &[usize::MAX], text));
    }
    for frame in [0, 1, 2, 3, 6, 7, 8, 9, 10, u32::MAX as usize] {
        calls.push(on(Function::Push, &[frame, 0, 0], NAMED));
        calls.push(on(Function::Push, &[frame, 70_000, 3], NAMED));
    }
    for frame in [4, 5] {
        let ranges = [(0, 0), (0, 1), (3, 1), (0, 64), (0, 65), (6, 64), (7, 64), (70, 1), (71, 1), (72, 1), (73, 1)];
        let wild =
            [(69, 1), (69, 2), (65_536, 1), (131_072, 3), (0, 65_537), (u32::MAX as usize, 1), (1, u32::MAX as usize)];
        for (start, len) in ranges.iter().chain(&wild) {
            calls.push(on(Function::Push, &[frame, *start, *len], NAMED));
        }
    }
    for depth in [1, 2, 3, 62, 63, 64] {
        calls.extend(at_depth(depth));
    }
    calls.extend((0..RANDOM).flat_map(|_| [any_skip(random), any_push(random), any_pop(random)]));
    calls
}

/// Choices, lengths of the session and numbers in it.
fn fresh() -> Vec<Call> {
    let mut calls = Vec::new();
    for choices in [0, 1, 2, 3, 256, 65_536, u32::MAX as usize] {
        for session in [vec![0; SESSION], vec![9; SESSION], vec![u32::MAX; SESSION + 2]] {
            let call = on(Function::Fresh, &[choices], b"");
            calls.push(Call { session, ..call });
        }
    }
    calls
}

/// A call on a fresh Scripting session.
fn on(function: Function, arguments: &[usize], text: &[u8]) -> Call {
    let call = plain(function, b"", text, bare(SCRIPTING));
    Call { arguments: arguments.to_vec(), ..call }
}

/// Push and pop with so many frames.
fn at_depth(depth: usize) -> Vec<Call> {
    let mut calls = Vec::new();
    for (function, arguments) in [
        (Function::Push, vec![1, 0, 0]),
        (Function::Push, vec![4, 0, 2]),
        (Function::Push, vec![4, 0, 0]),
        (Function::Push, vec![9, 0, 0]),
        (Function::Pop, Vec::new()),
    ] {
        let mut call = on(function, &arguments, NAMED);
        let mut frames = vec![bare(VAR_OFFSET); depth];
        frames[0] = [NOWDOC, 1, 5];
        frames[depth - 1] = [HEREDOC, 0, 3];
        put_frames(&mut call, &frames);
        calls.push(call);
    }
    calls
}

fn any_skip(random: &mut Random) -> Call {
    let text: Vec<u8> = (0..random.below(9)).map(|_| *random.pick(&[&b'\n', &b'\n', &b'\r', &b'a', &0x80])).collect();
    let count = random.below(text.len() + 2);
    any(Function::Skip, vec![count], &text, random)
}

fn any_push(random: &mut Random) -> Call {
    let arguments = vec![random.below(10), random.below(9), random.below(4)];
    any(Function::Push, arguments, b"ab c1\n_d", random)
}

fn any_pop(random: &mut Random) -> Call {
    any(Function::Pop, Vec::new(), b"x\ny", random)
}

/// A call on a varied session; its marks have no tables, so they may be any.
fn any(function: Function, arguments: Vec<usize>, text: &[u8], random: &mut Random) -> Call {
    let (head, label) = head(random);
    let top = [*random.pick(&[&0, &1, &2, &3, &4, &5, &6]), label, 1];
    let mut call = varied(plain(function, head, text, top), label, random);
    call.session[TOKENS] = *random.pick(&[&0, &1, &65_538, &u32::MAX]);
    call.session[BYTES] = *random.pick(&[&0, &1, &65_537, &u32::MAX]);
    call.session[CHOICES] = random.below(2) as u32;
    Call { arguments, ..call }
}

/// Each function with slices that are just long enough or too short, also where all else is wrong too.
pub fn short_slices(_: &mut Random, _: &mut Teller) -> Vec<Call> {
    let mut calls = Vec::new();
    for (name, function, arguments) in cases::call::FUNCTIONS {
        let call = plain(function, b"", name.as_bytes(), bare(INITIAL));
        let call = Call { arguments: vec![0; arguments], ..call };
        for (session, answer) in [(199, 5), (198, 5), (199, 4), (198, 4), (0, 5), (199, 0), (0, 0), (1, 1), (200, 6)] {
            let mut lent = call.session.clone();
            lent.resize(session, 0);
            calls.push(trimmed(Call { session: lent.clone(), answer, ..call.clone() }));
            lent.iter_mut().for_each(|number| *number = 9);
            calls.push(trimmed(Call { session: lent, answer, source: vec![b'a'; 65_537], ..call.clone() }));
        }
    }
    calls
}
