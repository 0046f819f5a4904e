//! The modes and readings, each with the bytes and pieces that it decides on, and the calls made of them.

use cases::call::CHOICES;
use cases::pieces::{every_text, Pieces, CLOSING_LINES, ESCAPES, INTERPOLATIONS, LINES, SCRIPT};
use cases::random::Random;
use cases::{Call, Function};

use crate::sessions::{self, bare, head, plain, put_frames, varied};
use crate::sessions::{DOUBLE_QUOTE, HEREDOC, INITIAL, LOOKING_FOR_PROPERTY, LOOKING_FOR_VARNAME, NOWDOC};
use crate::sessions::{SCRIPTING, SHELL_EXEC, VAR_OFFSET};

/// A mode or a reading.
pub struct Mode {
    pub name: &'static str,
    pub what: &'static str,
    pub function: Function,
    /// The top frame's number, and the choices where they matter.
    pub frame: u32,
    choices: Option<u32>,
    /// Every text of up to `longest` of these bytes is tried.
    bytes: &'static [u8],
    longest: usize,
    /// What longer texts are made of, and what may stand after them; a block's has its label after that.
    pieces: &'static [Pieces],
    closers: Pieces,
}

/// So many calls has a group, before those that are there twice are left out.
const CALLS: usize = 325;

const TAGS: Pieces = &[
    b"<?php", b"<?PhP ", b"<?pHP", b"<?", b"<?=", b"<", b"?", b"a", b"\n", b"<?ph", b"<?p", b"\r\n", b"?>", b"<<",
    b"\0", b"\xff",
];
const ROWS: Pieces = &[
    b"  a\n",
    b" a\n",
    b"\ta\n",
    b"  \n",
    b"\n",
    b"\r\n",
    b"   b\r\n",
    b" \r",
    b"\t\tc\n",
    b" \t\n",
    b"  E\n",
    b"E",
    b"  ",
];
const NAMES: Pieces =
    &[b"a", b"kerb2", b"_", b"\x80\xff", b"9", b"[", b"}", b"->", b"$", b"{", b" ", b"\n", b"Z_", b"[0]", b"\x7f"];
const ARROWS: Pieces = &[b"->", b"?->", b"-", b">", b"?", b"a", b"name9", b"\x80", b"1", b"[", b"\n", b"_", b"?-"];
const OFFSETS: Pieces = &[b"]", b"a", b"1", b"-", b"'k'", b"$i", b"[", b"\n", b"\"", b"0x1", b"\xff", b" "];
const NUMBERS: Pieces = &[
    b"0", b"1", b"7", b"12", b"_1", b"__", b"_", b".", b".5", b"e5", b"E5", b"e+5", b"E-", b"e", b"0x", b"xE", b"0b1",
    b"o7", b"0X_F", b"..", b";", b"8", b"9", b"a", b"\n",
];
const QUOTES: Pieces =
    &[b"a", b"\\'", b"\\\\", b"\\", b"\\n", b"\n", b"\"", b"$a", b"\x80", b"'", b"\r\n", b"\\\"", b"\0"];
const BREAKS: Pieces = &[b"\n", b"\n  ", b"\n\t", b"\r\n ", b"\n \t", b"\n\n"];

/// A mode that a step runs.
const fn step(
    (name, what, frame): (&'static str, &'static str, u32),
    (bytes, longest): (&'static [u8], usize),
    (pieces, closers): (&'static [Pieces], Pieces),
) -> Mode {
    Mode { name, what, function: Function::Step, frame, choices: None, bytes, longest, pieces, closers }
}

pub const MODES: [Mode; 13] = [
    step(("initial", "inline text and tags", INITIAL), (b"<?=phP\na", 2), (&[TAGS], &[b"<?php ", b"<?"])),
    step(("scripting", "every row of the table", SCRIPTING), (b"'\"`{}?><.1a\n", 2), (&[SCRIPT], &[b";", b"'", b"\""])),
    step(
        ("double_quote", "escapes and interpolations up to the quote", DOUBLE_QUOTE),
        (b"\"\\${}[a1-n", 2),
        (&[ESCAPES, INTERPOLATIONS], &[b"\"", b"\";"]),
    ),
    step(
        ("shell_exec", "interpolations up to the backtick", SHELL_EXEC),
        (b"`\\${[a-?>\n", 2),
        (&[ESCAPES, INTERPOLATIONS], &[b"`", b"`;"]),
    ),
    step(
        ("heredoc", "escapes, interpolations and closing lines", HEREDOC),
        (b"\n \tE\\${an\r", 2),
        (&[LINES, ESCAPES, CLOSING_LINES, INTERPOLATIONS], BREAKS),
    ),
    Mode {
        choices: Some(0),
        ..step(
            ("nowdoc", "closing lines in the ported reading", NOWDOC),
            (b"\n \tEa\r$\\", 2),
            (&[LINES, ROWS, CLOSING_LINES], BREAKS),
        )
    },
    Mode {
        choices: Some(1),
        ..step(
            ("sheet", "rows, their indentation and closing lines in the sheet reading", NOWDOC),
            (b"\n \tEa\r", 3),
            (&[ROWS, ROWS, LINES, CLOSING_LINES], BREAKS),
        )
    },
    step(
        ("looking_for_varname", "names behind ${", LOOKING_FOR_VARNAME),
        (b"a_\x801[}-\n $", 2),
        (&[NAMES], &[b"}", b"["]),
    ),
    step(
        ("looking_for_property", "arrows and names", LOOKING_FOR_PROPERTY),
        (b"->?a_\xff1[\n}", 2),
        (&[ARROWS], &[b"", b" "]),
    ),
    step(("var_offset", "bytes up to ]", VAR_OFFSET), (b"][a1-'\n$\"\x80", 2), (&[OFFSETS], &[b"]", b""])),
    Mode {
        function: Function::ReadNumber,
        ..step(
            ("read_number", "number literals, and what is none", SCRIPTING),
            (b"01._eE+-xb;", 2),
            (&[NUMBERS], &[b";", b"", b" "]),
        )
    },
    Mode {
        function: Function::ReadSingle,
        ..step(
            ("read_single", "single-quoted strings behind their quote", SCRIPTING),
            (b"'\\a\n\"$n\x80", 2),
            (&[QUOTES], &[b"'", b"';"]),
        )
    },
    Mode {
        function: Function::ReadDouble,
        ..step(
            ("read_double", "double-quoted strings behind their quote", SCRIPTING),
            (b"\"\\${axu40n", 2),
            (&[ESCAPES, INTERPOLATIONS], &[b"\"", b"\";"]),
        )
    },
];

impl Mode {
    /// The group: every short text in a plain session, alone or closed, and random texts in varied ones.
    pub fn calls(&self, random: &mut Random) -> Vec<Call> {
        let mut calls = Vec::new();
        let short = |text: &[u8]| {
            let is_alone = text.len() < 2 || random.below(2) == 0;
            if is_alone {
                calls.push(self.short(text));
            }
            if text.len() < 2 || !is_alone {
                calls.push(self.short(&[text, self.closers[0], self.label()].concat()));
            }
            Ok::<(), ()>(())
        };
        every_text(self.bytes, self.longest, short).expect("no text stops this");
        while calls.len() < CALLS {
            let mut call = self.sample(random);
            if self.function != Function::Step && random.below(12) == 0 {
                put_frames(&mut call, &[bare(SCRIPTING), bare(*random.pick(&[&0, &2, &6, &8]))]);
            }
            calls.push(call);
        }
        calls
    }

    fn has_label(&self) -> bool {
        self.frame == HEREDOC || self.frame == NOWDOC
    }

    /// The label of plain sessions.
    fn label(&self) -> &'static [u8] {
        if self.has_label() {
            b"E"
        } else {
            b""
        }
    }

    /// A short text in a plain session.
    fn short(&self, text: &[u8]) -> Call {
        let head: &[u8] = if self.has_label() { b"E\n" } else { b"" };
        let mut call = plain(self.function, head, text, [self.frame, 0, u32::from(self.has_label())]);
        if !sessions::is_bottom(self.frame) {
            put_frames(&mut call, &[bare(SCRIPTING), bare(self.frame)]);
        }
        call.session[CHOICES] = self.choices.unwrap_or(0);
        call
    }

    /// A random text in a varied session.
    pub fn sample(&self, random: &mut Random) -> Call {
        let (start, label) = head(random);
        let long = self.label_of(random);
        let (head, at, len) = match long.len() {
            0 | 1 => (start.to_vec(), label, long.len()),
            length => ([&long, &b"\n"[..]].concat(), 0, length),
        };
        let text = self.text(&long, random);
        let top = if self.has_label() { [self.frame, at, len as u32] } else { bare(self.frame) };
        let mut call = varied(plain(self.function, &head, &text, top), if len > 1 { 0 } else { label }, random);
        call.session[CHOICES] = self.choices.unwrap_or(call.session[CHOICES]);
        call
    }

    /// A label: mostly that of the heads, else one of its own, up to 64 bytes long; none where the mode has none.
    fn label_of(&self, random: &mut Random) -> Vec<u8> {
        match random.below(8) {
            _ if !self.has_label() => Vec::new(),
            0 => b"Ea".to_vec(),
            1 => b"EOT".to_vec(),
            2 => [vec![b'E'; random.below(3)], vec![b'_'; 2 + random.below(60)]].concat(),
            _ => b"E".to_vec(),
        }
    }

    fn text(&self, label: &[u8], random: &mut Random) -> Vec<u8> {
        let mut text = Vec::new();
        for _ in 0..random.below(6) {
            let pieces = self.pieces[random.below(self.pieces.len())];
            text.extend_from_slice(random.pick(pieces));
        }
        if random.below(4) > 0 {
            text.extend_from_slice(random.pick(self.closers));
            text.extend_from_slice(label);
        }
        text
    }
}
