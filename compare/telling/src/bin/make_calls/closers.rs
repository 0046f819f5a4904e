//! What stands after a block's label: each byte, and rows that begin with the label.

use cases::call::CHOICES;
use cases::random::Random;
use cases::{Call, Function};
use telling::Teller;

use crate::sessions::{plain, HEREDOC, NOWDOC};

const LABEL: &[u8] = b"EOT";

/// The frames that have a label, and the readings of a nowdoc block.
const BLOCKS: [(u32, u32); 3] = [(HEREDOC, 0), (NOWDOC, 0), (NOWDOC, 1)];

/// Bodies whose rows begin with the label: as a caption, first, last, indented, owing indentation, after mixed blanks.
const CAPTIONS: [&[u8]; 20] = [
    b"EOT",
    b"EOTstrasse",
    b"a\nEOTstrasse",
    b"EOTstrasse\nEOT",
    b"ab\nEOTstrasse\nc\nEOT;",
    b"EOT\nEOTstrasse",
    b"EOTEOT\nEOT",
    b"a\nEOTEOT\nEOTEOT;\nEOT;",
    b"  EOTstrasse\n  EOT",
    b"\tEOTstrasse\n\tEOT;",
    b"EOTstrasse\n  EOT",
    b" EOTstrasse\n  EOT",
    b"  EOTstrasse\n EOT0\n  EOT",
    b" \tEOTstrasse\nEOT",
    b" \tEOTstrasse\n EOT",
    b" \tEOTstrasse\n\tEOT",
    b"EOTstrasse\n \tEOT",
    b"EOTstrasse\r\nEOT\r\n",
    b"EOT\rEOT",
    b"a\n EOT_\n EOT\x80\n EOT9\n EOT",
];

pub fn calls(_: &mut Random, _: &mut Teller) -> Vec<Call> {
    let mut calls = Vec::new();
    for (frame, choices) in BLOCKS {
        let texts = CAPTIONS.iter().map(|text| text.to_vec()).chain((0..=255).map(behind_label));
        for text in texts {
            let mut call = plain(Function::Step, &[LABEL, b"\n"].concat(), &text, [frame, 0, LABEL.len() as u32]);
            call.session[CHOICES] = choices;
            calls.push(call.clone());
            calls.push(Call { end: 0, ..call });
        }
    }
    calls
}

/// A row, and the label with a byte after it.
fn behind_label(byte: u8) -> Vec<u8> {
    [b"a\n", LABEL, &[byte]].concat()
}
