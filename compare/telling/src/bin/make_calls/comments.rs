//! Comments: how they begin and end, whole and as parts, each byte after `/` and `#`; and the same texts in every other frame.

use cases::random::Random;
use cases::{Call, Function};
use telling::Teller;

use crate::sessions::{bare, plain, put_frames};
use crate::sessions::{
    Slot, DOUBLE_QUOTE, HEREDOC, INITIAL, LOOKING_FOR_PROPERTY, LOOKING_FOR_VARNAME, NOWDOC, SCRIPTING, SHELL_EXEC,
    VAR_OFFSET,
};

const TEXTS: [&[u8]; 48] = [
    b"//",
    b"//a",
    b"//a\n",
    b"//a\nb",
    b"//\n",
    b"//a\r",
    b"//a\r\n",
    b"//a\rb\n",
    b"//a?",
    b"//a?>",
    b"//?>",
    b"//??>",
    b"//a? >",
    b"//a?\n>",
    b"//a>?",
    b"//it's\n'a'",
    b"///*\n*/",
    b"// #[\n",
    b"#a",
    b"#\n",
    b"#?",
    b"#?>",
    b"#[",
    b"#[a]\n#b",
    b"##[",
    b"# [",
    b"#a\r",
    b"#'",
    b"#//\n",
    b"/*",
    b"/*/",
    b"/*/*/",
    b"/**",
    b"/**/",
    b"/***/",
    b"/**a*/b",
    b"/*a",
    b"/*a*",
    b"/*a*\n/",
    b"/*a*/",
    b"/*\n\n*/\n",
    b"/*?>*/",
    b"/*'*/'a'",
    b"/*a*/*/",
    b"/*\xff*/",
    b"/ /",
    b"/=",
    b"*/",
];

/// The frames in which no comment begins, over a source that starts with the label `E`.
const OTHERS: [Slot; 8] = [
    bare(INITIAL),
    bare(DOUBLE_QUOTE),
    bare(SHELL_EXEC),
    [HEREDOC, 0, 1],
    [NOWDOC, 0, 1],
    bare(LOOKING_FOR_VARNAME),
    bare(LOOKING_FOR_PROPERTY),
    bare(VAR_OFFSET),
];

/// The most steps of a walk.
const STEPS: usize = 9;

pub fn calls(_: &mut Random, _: &mut Teller) -> Vec<Call> {
    let mut calls = Vec::new();
    for text in TEXTS {
        let call = plain(Function::Step, b"a\n b", text, bare(SCRIPTING));
        calls.push(Call { function: Function::Walk, arguments: vec![STEPS], ..call.clone() });
        calls.push(Call { end: 0, ..call.clone() });
        calls.push(call);
    }
    for byte in 0..=255 {
        for text in [[b'/', byte], [b'#', byte]] {
            calls.push(Call { end: 0, ..plain(Function::Step, b"", &text, bare(SCRIPTING)) });
        }
    }
    for frame in OTHERS {
        for text in TEXTS {
            let mut call = plain(Function::Step, b"E\n", text, bare(SCRIPTING));
            put_frames(&mut call, &[bare(SCRIPTING), frame]);
            calls.push(call);
        }
    }
    calls
}
