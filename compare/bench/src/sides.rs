//! What is measured on each side: walks or single steps on tables that were made before, and the Rust's `tokenize`.

use cases::call::{ANSWER, BYTES, POSITION, RECORD, SESSION, TOKENS};
use cases::{Span, Token};
use host::Slices;

/// Places of the list. Where a step finds no room in it, both marks are set to 0.
const PLACES: usize = 4_096;

/// Bytes of the pool, and of the longest script: values have no more bytes than the steps pass, so the pool is never too small.
pub const MOST_BYTES: usize = 65_536;

/// The two readings of nowdoc blocks, a finished answer, and the refusals that ask for more of the script and for an
/// empty list (include/puretakoi.h).
const PORTED: u32 = 0;
const SHEET: u32 = 1;
const FINISHED: u32 = 1;
const WAIT: u32 = 6;
const LIST_FULL: u32 = 7;

/// The kind of a text's part.
const STRING_PART: u32 = 5;

/// How a script is read: in as few calls as there can be, or a call for each step.
#[derive(Clone, Copy)]
pub enum Way {
    Walk,
    Steps,
}

/// When a script that comes in pieces is read on after a wait.
#[derive(Clone, Copy, PartialEq, Eq)]
pub enum Asking {
    /// With each piece.
    Always,
    /// As the hosts do: an open text of more than 4,096 bytes is left until it has doubled.
    Doubled,
}

/// An open text of more than so many bytes is left until it has doubled (hosts/rust/src/stream.rs).
const LONG: usize = 4_096;

impl Asking {
    /// How many bytes are lent after a wait at a position, in whole pieces.
    fn lent(self, position: usize, lent: usize, piece: usize) -> usize {
        let open = lent - position;
        let more = if self == Asking::Doubled && open > LONG { open } else { 1 };
        lent + (more + piece - 1) / piece * piece
    }
}

/// Our side: a session and tables, which are used for every script and never cleared.
pub struct Reader {
    reading: u32,
    asking: Asking,
    session: Vec<u32>,
    list: Vec<u32>,
    pool: Vec<u8>,
    answer: Vec<u32>,
}

/// How many calls were made, and how many of them waited.
#[derive(Clone, Copy, Default)]
pub struct Count {
    pub calls: usize,
    pub waits: usize,
}

impl Reader {
    pub fn new() -> Reader {
        let (list, pool) = (vec![0; PLACES * RECORD], vec![0; MOST_BYTES]);
        Reader {
            reading: PORTED,
            asking: Asking::Always,
            session: vec![0; SESSION],
            list,
            pool,
            answer: vec![0; ANSWER],
        }
    }

    /// One that reads nowdoc blocks as sheets.
    pub fn of_sheets() -> Reader {
        Reader { reading: SHEET, ..Reader::new() }
    }

    /// One that reads pieces as the hosts do.
    pub fn of_hosts() -> Reader {
        Reader { asking: Asking::Doubled, ..Reader::new() }
    }

    /// Reads a script to its end; after a wait it is lent with `piece` bytes more. Stops at a refusal, with its number.
    pub fn read(&mut self, way: Way, script: &[u8], piece: usize) -> Result<Count, String> {
        self.read_with(way, script, piece, |_| ())
    }

    /// The same, with a look at the tables before they are emptied and at the end.
    fn read_with(
        &mut self,
        way: Way,
        script: &[u8],
        piece: usize,
        mut look: impl FnMut(&Reader),
    ) -> Result<Count, String> {
        let mut count = Count::default();
        let mut lent = piece.min(script.len());
        host::fresh(self.reading, &mut self.session);
        loop {
            count.calls += 1;
            match self.call(way, &script[..lent], lent == script.len()) {
                0 if self.answer[0] == FINISHED => {
                    look(self);
                    return Ok(count);
                }
                0 => {}
                WAIT => {
                    count.waits += 1;
                    let position = self.session[POSITION] as usize;
                    lent = script.len().min(self.asking.lent(position, lent, piece));
                }
                LIST_FULL if self.session[TOKENS] > 0 => {
                    look(self);
                    self.session[TOKENS] = 0;
                    self.session[BYTES] = 0;
                }
                number => return Err(format!("refused {} at {}", number, self.answer[4])),
            }
        }
    }

    fn call(&mut self, way: Way, source: &[u8], end: bool) -> u32 {
        let Reader { session, list, pool, answer, .. } = self;
        let lent = Slices { source, session, list, pool, answer };
        match way {
            Way::Walk => host::walk(end, u32::MAX, lent),
            Way::Steps => host::step(end, lent),
        }
    }

    /// The tokens of a script.
    fn tokens_of(&mut self, way: Way, script: &[u8], piece: usize) -> Result<Vec<Token>, String> {
        let mut tokens = Vec::new();
        self.read_with(way, script, piece, |reader| {
            let filled = reader.session[TOKENS] as usize * RECORD;
            tokens.extend(reader.list[..filled].chunks_exact(RECORD).map(|it| reader.token(it)));
        })?;
        if self.session[POSITION] as usize != script.len() {
            return Err(format!("stopped at {}", self.session[POSITION]));
        }
        Ok(tokens)
    }

    fn token(&self, record: &[u32]) -> Token {
        let number = |place: usize| record[place] as usize;
        let span = Span { line: number(2), column: number(3), position: number(4) };
        let value = self.pool[number(5)..number(5) + number(6)].to_vec();
        Token { kind: record[0], detail: number(1), span, value }
    }
}

/// The kinds that both sides give everywhere: inline text, tags, parts and ends of texts, literals, comments. For names, variables and
/// punctuation of the script itself the Rust gives tokens and the step none; after a variable's `[` the scripts have no number.
const COMMON: [u32; 15] = [1, 2, 3, 4, 5, 6, 8, 11, 12, 13, 17, 18, 19, 20, 21];

/// Whether both sides accept the script, walked and stepped, whole and in pieces, with the same tokens of the common kinds.
pub fn hold(reader: &mut Reader, script: &[u8], piece: usize) -> Result<(), String> {
    let common = |tokens: Vec<Token>| -> Vec<Token> {
        tokens.into_iter().filter(|token| COMMON.contains(&token.kind)).collect()
    };
    let theirs = common(oracle::tokens_of(script).map_err(|error| format!("the Rust refuses it: {}", error))?);
    for (way, piece) in [(Way::Walk, script.len()), (Way::Walk, piece), (Way::Steps, script.len()), (Way::Steps, piece)]
    {
        let ours = common(reader.tokens_of(way, script, piece)?);
        if let Some((ours, theirs)) = ours.iter().zip(&theirs).find(|(ours, theirs)| ours != theirs) {
            return Err(format!("ours {:?}\nthe Rust's {:?}", ours, theirs));
        }
        if ours.len() != theirs.len() {
            return Err(format!("{} tokens, the Rust {}", ours.len(), theirs.len()));
        }
    }
    Ok(())
}

/// Whether the sheet reading gives the tokens of the ported one, but that each row of a text has lost its indentation: in a
/// script of nowdoc blocks whose rows and closing lines have `width` blanks.
pub fn hold_sheets(script: &[u8], width: usize) -> Result<(), String> {
    let bare = |row: &[u8]| row[width.min(row.len())..].to_vec();
    let ported = Reader::new().tokens_of(Way::Walk, script, script.len())?;
    let sheets = Reader::of_sheets().tokens_of(Way::Walk, script, script.len())?;
    if ported.len() != sheets.len() {
        return Err(format!("{} tokens of sheets, {} as ported", sheets.len(), ported.len()));
    }
    for (mut token, sheet) in ported.into_iter().zip(sheets) {
        if token.kind == STRING_PART {
            let rows: Vec<Vec<u8>> = token.value.split(|byte| *byte == b'\n').map(bare).collect();
            token.value = rows.join(&b'\n');
        }
        if token != sheet {
            return Err(format!("a sheet's {:?}\nas ported, without its indentation {:?}", sheet, token));
        }
    }
    Ok(())
}
