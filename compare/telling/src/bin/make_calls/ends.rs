//! Where the step or reading ended that wrote a record (document 02, P4): cases worked by hand, then literals and
//! comments of each form among other bytes, and each alone.

use cases::call::{RECORD_END, RECORD_POSITION};
use cases::{Call, Function};
use telling::Teller;

use crate::sessions::{bare, plain, put_marks, SCRIPTING};
use crate::worked;

/// The cases that are worked by hand.
const WORKED: [worked::Case; 33] = [
    (
        "`<?php 'a' 12;` and a break in one walk: each record bears its own step's end",
        "walk 99 1 199:0,1,1,1 24 8 6 3c3f706870202761272031323b0a",
        "finished 199:14,2,1,1,3,8,0,1 2,0,1,1,0,0,5,5/17,0,1,7,6,5,1,9/19,0,1,11,10,6,2,12 3c3f706870613132 7",
    ),
    (
        "the same in a list of two places: what was written bears the ends of its steps",
        "walk 99 1 199:0,1,1,1 16 8 6 3c3f706870202761272031323b0a",
        "stopped 7 1 11 10 199:10,1,11,1,2,6,0,1 2,0,1,1,0,0,5,5/17,0,1,7,6,5,1,9 3c3f70687061 4",
    ),
    ("an empty script: length 0 and end 0", "step - 1 199:0,1,1,1 8 0 5 -", "finished 199:0,1,1,1,1 1,0,1,1,0,0,0,0 -"),
    (
        "the number reading at 0 where no number stands: length 0 and end 0",
        "read_number - 1 199:0,1,1,1,0,0,0,1 8 0 5 78",
        "done 199:0,1,1,1,1,0,0,1 19,0,1,1,0,0,0,0 -",
    ),
    (
        "the double reading at 0 before an interpolation: length 0 and end 0",
        "read_double - 1 199:0,1,1,1,0,0,0,1 8 0 5 246122",
        "done 199:0,1,1,1,1,0,0,2 5,0,1,1,0,0,0,0 -",
    ),
    (
        "the same by a step, which has passed the quote: length 0, but not end 0",
        "step - 1 199:0,1,1,1,0,0,0,1 8 0 5 22246122",
        "done 199:1,1,2,1,1,0,0,2 5,0,1,1,0,0,0,1 -",
    ),
    (
        "InlineHtml to the script's end",
        "step - 1 199:0,1,1,1 8 2 5 6869",
        "finished 199:2,1,3,1,1,2 1,0,1,1,0,0,2,2 6869",
    ),
    (
        "InlineHtml and OpenTag of one step, a place each: both end at 7",
        "step - 1 199:0,1,1,1 16 7 5 68693c3f7068702078",
        "done 199:7,1,8,1,2,7,0,1 1,0,1,1,0,0,2,7/2,0,1,3,2,2,5,7 68693c3f706870",
    ),
    (
        "StringPart and Variable of one step: both end at 4",
        "step - 1 199:0,1,1,1,0,0,0,2 16 4 5 61622463",
        "done 199:4,1,5,1,2,4,0,2 5,0,1,1,0,0,2,4/10,0,1,1,0,2,2,4 61622463",
    ),
    (
        "StringPart and DoubleQuote",
        "step - 1 199:0,1,1,1,0,0,0,2 16 3 5 6162223b",
        "done 199:3,1,4,1,2,3,0,1 5,0,1,1,0,0,2,3/8,0,1,1,0,2,1,3 616222",
    ),
    (
        "StringPart and DollarLeftBrace",
        "step - 1 199:0,1,1,1,0,0,0,2 16 3 5 61247b627d",
        "done 199:3,1,4,2,2,3,0,2,0,0,6 5,0,1,1,0,0,1,3/6,0,1,1,0,1,2,3 61247b",
    ),
    (
        "StringPart and LeftBrace in backticks: the step does not take the variable",
        "step - 1 199:0,1,1,1,0,0,0,3 16 2 5 617b2462",
        "done 199:2,1,3,2,2,2,0,3,0,0,1 5,0,1,1,0,0,1,2/7,0,1,1,0,1,1,2 617b",
    ),
    (
        "a Variable before its property",
        "step - 1 199:0,1,1,1,0,0,0,2 8 2 5 24612d3e62",
        "done 199:2,1,3,2,1,2,0,2,0,0,7 10,0,1,1,0,0,2,2 2461",
    ),
    (
        "an Arrow before its name",
        "step - 1 199:0,1,1,2,0,0,0,2,0,0,7 8 2 5 2d3e62",
        "done 199:2,1,3,2,1,2,0,2,0,0,7 16,0,1,1,0,0,2,2 2d3e",
    ),
    (
        "a heredoc's last part and its end, which bear one place: both end after the label",
        "step - 1 199:2,2,1,1,0,0,0,4,0,1 16 2 5 450a610a453b",
        "done 199:5,3,2,1,2,2,0,1 5,0,2,1,2,0,1,5/11,0,2,1,2,1,1,5 6145",
    ),
    (
        "a nowdoc block as a sheet: both end after the label",
        "step - 1 199:7,2,1,1,0,0,1,5,4,1 16 2 5 3c3c3c2745270a2020610a2020453b",
        "done 199:14,3,4,1,2,2,1,1 5,0,2,1,7,0,1,14/12,2,2,1,7,1,1,14 6145",
    ),
    (
        "a single-quoted string from quote to quote",
        "step - 1 199:0,1,1,1,0,0,0,1 8 1 5 2761273b",
        "done 199:3,1,4,1,1,1,0,1 17,0,1,1,0,0,1,3 61",
    ),
    ("one without bytes", "step - 1 199:0,1,1,1,0,0,0,1 8 0 5 2727", "done 199:2,1,3,1,1,0,0,1 17,0,1,1,0,0,0,2 -"),
    (
        "one with an escape: the value is shorter than what is written",
        "step - 1 199:0,1,1,1,0,0,0,1 8 3 5 27615c276227",
        "done 199:6,1,7,1,1,3,0,1 17,0,1,1,0,0,3,6 612762",
    ),
    (
        "by its reading, which begins after the opening quote",
        "read_single - 1 199:1,1,2,1,0,0,0,1 8 1 5 276127",
        "done 199:3,1,4,1,1,1,0,1 17,0,1,2,1,0,1,3 61",
    ),
    (
        "a double-quoted string: one byte of value, eight as written",
        "step - 1 199:0,1,1,1,0,0,0,1 8 1 5 225c757b34317d223b",
        "done 199:8,1,9,1,1,1,0,1 18,0,1,1,0,0,1,8 41",
    ),
    (
        "one over a break",
        "step - 1 199:0,1,1,1,0,0,0,1 8 3 5 22610a6222",
        "done 199:5,2,3,1,1,3,0,1 18,0,1,1,0,0,3,5 610a62",
    ),
    (
        "by its reading",
        "read_double - 1 199:1,1,2,1,0,0,0,1 8 1 5 226122",
        "done 199:3,1,4,1,1,1,0,1 18,0,1,2,1,0,1,3 61",
    ),
    (
        "one with an interpolation is no literal: its part ends before it",
        "step - 1 199:0,1,1,1,0,0,0,1 8 2 5 226162246322",
        "done 199:3,1,4,1,1,2,0,2 5,0,1,1,0,0,2,3 6162",
    ),
    (
        "a number with a separator",
        "step - 1 199:0,1,1,1,0,0,0,1 8 4 5 315f302e353b",
        "done 199:5,1,6,1,1,4,0,1 20,0,1,1,0,0,4,5 31302e35",
    ),
    (
        "a number in a part, with more announced: none is written that may go on",
        "step - 0 199:0,1,1,1,0,0,0,1 8 2 5 3132",
        "refused 6 1 1 0",
    ),
    (
        "one that is settled by the byte after it, where it ends",
        "step - 0 199:0,1,1,1,0,0,0,1 8 2 5 31323b",
        "done 199:2,1,3,1,1,2,0,1 19,0,1,1,0,0,2,2 3132",
    ),
    (
        "a comment ends before its break",
        "step - 1 199:0,1,1,1,0,0,0,1 8 4 5 2f2f20610a",
        "done 199:4,1,5,1,1,4,0,1 21,0,1,1,0,0,4,4 2f2f2061",
    ),
    (
        "or before a closing tag",
        "step - 1 199:0,1,1,1,0,0,0,1 8 2 5 23613f3e",
        "done 199:2,1,3,1,1,2,0,1 21,0,1,1,0,0,2,2 2361",
    ),
    (
        "or with its last byte",
        "step - 1 199:0,1,1,1,0,0,0,1 8 5 5 2f2a202a2f61",
        "done 199:5,1,6,1,1,5,0,1 21,0,1,1,0,0,5,5 2f2a202a2f",
    ),
    (
        "not from the source's start, and not the first record: the end is counted from the source's start",
        "step - 1 199:2,2,1,1,1,2,0,1 16 3 5 450a276127",
        "done 199:5,2,4,1,2,3,0,1 17,0,2,1,2,2,1,5 61",
    ),
    (
        "a script whose list and pool were emptied on the way: ends go on",
        "walk 99 1 199:10,1,11,1,0,0,0,1 16 8 5 3c3f706870202761272031323b0a",
        "finished 199:14,2,1,1,1,2,0,1 19,0,1,11,10,0,2,12 3132",
    ),
    (
        "the largest end",
        "step - 1 199:65533,1,1,1,0,0,0,1 8 1 5 61*65533+276127",
        "done 199:65536,1,4,1,1,1,0,1 17,0,1,1,65533,0,1,65536 61",
    ),
];

/// Texts that begin with a literal or a comment, by what reads them; a reading of a string begins after its quote.
const TEXTS: [(Function, &[&[u8]]); 4] = [
    (
        Function::Step,
        &[
            b"'a b'.",
            b"'\\\\';",
            b"'\\a\n\r\n'",
            b"'\"'\"",
            b"\"a'b\";",
            b"\"\\n\\x41\\101\\$a\\\\\" ",
            b"\"$ {\"",
            b"\"\"\"",
            b"7",
            b"12.",
            b"1.5.2",
            b".5;",
            b"1e3e",
            b"1E+5;",
            b"1_000_0_",
            b"0x1Eg",
            b"0b102",
            b"0o78",
            b"017 ",
            b"1..2",
            b"//a\r\nb",
            b"//'a'?>b",
            b"#a #b\n",
            b"# [\n",
            b"/**/*/",
            b"/*/*/",
            b"/*\n'\n*/\n",
            b"/***/;",
        ],
    ),
    (Function::ReadSingle, &[b"a b'.", b"'", b"\\'\\\\'", b"\"\n'a'"]),
    (Function::ReadDouble, &[b"a'b\";", b"\"", b"\\\"\\t\\u{20ac}\"", b"\n$\"\""]),
    (Function::ReadNumber, &[b"7;", b"1_0.5e-3 ", b"0X1e+", b"1.", b"_1", b"e5", b"", b";"]),
];

/// What stands before each text.
const HEAD: &[u8] = b"<?php\n\t";

/// A file's lines: each worked case with its title, then each text after a head, with marks and as a part, and what was
/// read of it alone.
pub fn lines(teller: &mut Teller) -> Vec<(Option<&'static str>, Call)> {
    let mut lines = worked::lines(&WORKED, teller);
    for (function, texts) in TEXTS {
        for text in texts {
            let mut call = plain(function, HEAD, text, bare(SCRIPTING));
            put_marks(&mut call, 2, 3);
            lines.push((None, Call { end: 0, ..call.clone() }));
            lines.extend(alone(&call, teller).map(|alone| (None, alone)));
            lines.push((None, call));
        }
    }
    lines
}

/// The same function on the source from the position of the one record to its end, which must give the same token.
fn alone(call: &Call, teller: &mut Teller) -> Option<Call> {
    let told = teller.told(call);
    let (_, records, values) = told.written()?;
    let [position, end] = [RECORD_POSITION, RECORD_END].map(|place| records[0][place] as usize);
    let alone = plain(call.function, b"", &call.source[position..end], bare(SCRIPTING));
    let [kind, detail, _, _, _, _, length, _] = records[0];
    let record = [kind, detail, 1, 1, 0, 0, length, (end - position) as u32];
    let again = teller.told(&alone);
    assert_eq!(again.written().map(|(_, records, values)| (records, values)), Some((&[record][..], values)));
    Some(alone)
}
