//! Walks of many steps in one call: each kind of script, each refusal at the first step and after others, and `most` from 0 on. Every
//! second one tells its steps.

use cases::call::{ANSWER, BYTES, CHOICES, DEPTH, POSITION, RECORD, TOKENS};
use cases::random::Random;
use cases::{Call, Function, Told};
use telling::Teller;

use crate::routines::MODES;
use crate::sessions::{bare, plain, put_frames, DOUBLE_QUOTE, INITIAL, LOOKING_FOR_PROPERTY, SCRIPTING};

/// Walks at random of each mode.
const RANDOM: usize = 5;

/// More steps than any script has.
const HUGE: usize = u32::MAX as usize;

/// Every `most` that a script is walked with.
const MOST: [usize; 5] = [0, 1, 2, 5, HUGE];

/// Whole scripts, accepted and refused.
pub const SCRIPTS: [&[u8]; 30] = [
    b"",
    b"a street\nof text",
    b"a<?php b;\r\n\n c\x80_9 ?>d\n<?= 7 ?>\ne<? f",
    b"<?php 12 0x1E .5 1e3 1_0 7..8 .a",
    b"<?php 'kerb' 'a\\'b\\\\' ''",
    b"<?php \"a\\n\\x41\\101\\u{20ac}\" \"\"",
    b"<?php \"a$b[0]c\" d",
    b"<?php \"${a}b${c[1]}d{$e}f\"",
    b"<?php \"$a->b c$d?->e\";\n",
    b"<?php `ls $a->b {$c} \\n`;",
    b"<?php <<<E\na $b\n  {$c}\n  E;\nd",
    b"<?php <<<Ea\r\n\r\nEa\n.",
    b"<?php <<<'E'\n  a\n   b\n  E;\n",
    b"<?php <<<'_\x80'\n\ta\r\n\t_\x80;",
    b"<?php {{a}b} } ?>c",
    b"<?php <<a <<<1 ? x",
    b"<?php {\"$a[b]{$c[\"d\"]}\"}",
    b"<?php a;\n'open",
    b"<?php a;\n\"open $b",
    b"<?php a;\n<<<E\n$b[",
    b"<?php a;\n`open",
    b"<?php a; \"\\u{110000}\"",
    b"<?php \"$a\\u{d800}\"",
    b"<?php a; \"\\400\"",
    b"<?php <<<E\n$a\n \tE",
    b"<?php <<<E\n\t a\n\t E;",
    b"<?php <<<'E'\n  a\n b\n  E;",
    b"<?php <<<'E'\n\ta\n b\n\tE;",
    b"\xff<?PHP\n\n\n\xff\n\n",
    b"<?php a b.c d{e}f?g<h",
];

pub fn calls(random: &mut Random, teller: &mut Teller) -> Vec<Call> {
    let mut calls = Vec::new();
    for (index, script) in SCRIPTS.iter().enumerate() {
        let call = fresh(script, index as u32 % 2);
        calls.extend(MOST.iter().map(|most| Call { arguments: vec![*most], ..call.clone() }));
        calls.push(part(&call, random));
        calls.extend(small(&call, random, teller));
    }
    calls.extend(deep());
    calls.extend(at_first());
    calls.extend(MODES.iter().filter(|mode| mode.function == Function::Step).flat_map(|mode| {
        let walk = |call: Call| Call { function: Function::Walk, list: call.list + 2 * RECORD, ..call };
        (0..RANDOM)
            .map(|index| Call { arguments: vec![MOST[index % MOST.len()]], ..walk(mode.sample(random)) })
            .collect::<Vec<Call>>()
    }));
    calls.iter_mut().step_by(2).for_each(|call| call.answer = ANSWER + 1);
    calls
}

/// A walk of a whole script from a fresh session on, with ample room.
pub fn fresh(script: &[u8], choices: u32) -> Call {
    let mut call = plain(Function::Walk, b"", script, bare(INITIAL));
    call.session[CHOICES] = choices;
    Call { arguments: vec![HUGE], list: 40 * RECORD, ..call }
}

/// The walk on a part of the script, with more announced.
fn part(call: &Call, random: &mut Random) -> Call {
    let mut part = Call { end: 0, ..call.clone() };
    part.source.truncate(call.source.len() - random.below(call.source.len().min(6) + 1));
    part
}

/// The walk in tables that are too small for it: the list by one place or more, the pool by one byte or more; then with what
/// was written taken out.
fn small(call: &Call, random: &mut Random, teller: &mut Teller) -> Vec<Call> {
    let (records, values) = match teller.told(call).written() {
        Some((_, records, values)) if !values.is_empty() => (records.len(), values.len()),
        _ => return Vec::new(),
    };
    let mut calls = vec![
        Call { list: random.below(records) * RECORD, ..call.clone() },
        Call { pool: random.below(values), ..call.clone() },
    ];
    if let Told::Stopped { mut session, .. } = teller.told(&calls[0]) {
        session[TOKENS] = 0;
        session[BYTES] = 0;
        calls.push(Call { session, list: 2 * RECORD, ..call.clone() });
    }
    calls
}

/// Walks into the last frame and past it, and one that comes to a property that is none.
fn deep() -> Vec<Call> {
    let mut calls = Vec::new();
    for depth in [62, 63, 64] {
        for text in [&b"{{"[..], b";{{a", b";{}{}{\"$a->b", b"a\"$b[c]\"{"] {
            let mut call = Call { arguments: vec![HUGE], ..plain(Function::Walk, b"E\n", text, bare(SCRIPTING)) };
            put_frames(&mut call, &vec![bare(SCRIPTING); depth]);
            calls.push(call);
        }
    }
    for text in [&b"a};"[..], b";}->b}", b"}?->1", b"\n}"] {
        let mut call = Call { arguments: vec![HUGE], ..plain(Function::Walk, b"", text, bare(SCRIPTING)) };
        put_frames(&mut call, &[bare(SCRIPTING), bare(LOOKING_FOR_PROPERTY), bare(SCRIPTING)]);
        calls.push(call);
    }
    calls
}

/// Walks that are refused at the gate, where a walk of no steps is refused too, or at their first step, where it is not.
fn at_first() -> Vec<Call> {
    let call = plain(Function::Walk, b"", b"a;", bare(SCRIPTING));
    let mut all = vec![
        Call { source: vec![b'a'; 65_537], ..call.clone() },
        Call { pool: 65_537, ..call.clone() },
        Call { list: 65_538 * RECORD, ..call.clone() },
        plain(Function::Walk, b"", b"\\400\"", bare(DOUBLE_QUOTE)),
    ];
    for (place, number) in [(DEPTH, 0), (DEPTH, 65), (POSITION, 3), (TOKENS, 4), (BYTES, 1000), (CHOICES, 2)] {
        let mut bad = call.clone();
        bad.session[place] = number;
        all.push(bad);
    }
    let walk = |call: &Call, most: usize| Call { arguments: vec![most], ..call.clone() };
    all.iter().flat_map(|call| [0, 1, HUGE].map(|most| walk(call, most))).collect()
}
