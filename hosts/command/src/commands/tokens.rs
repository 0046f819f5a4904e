//! `tokens`: the tokens of a script with their values, read in pieces.

use std::fs::File;
use std::io::{self, BufWriter, Read, Write};
use std::path::Path;

use puretakoi::{limits, Choices, Event, Octal, Reading, Refusal, Stream, Token};

use crate::commands::arguments::Call;
use crate::commands::octals::{octal_name, octals};
use crate::commands::options::{JSON, NUMBERS, OCTAL, PIECE, SHEET};
use crate::commands::output::{complain, unwritten, ALL_GOOD, NOT_DONE, REFUSED};
use crate::commands::{token, Verb};
use crate::files;
use crate::reading::fault::counted;
use crate::reading::octal::by_the_manual;
use crate::showing::json;

/// The verb.
pub const VERB: Verb = Verb {
    name: "tokens",
    groups: &[&[&SHEET], &[&JSON, &NUMBERS], &[&PIECE], &[&OCTAL]],
    operands: "[FILE]",
    about: "prints the tokens of a script with their places and values",
    more: "\
FILE is a script; none, or -, is standard input. A token is a line: line:column, its byte and the byte up to which its
step was read as 6..12, kind, detail in round brackets, value; the lines of a longer value stand below it. --numbers
prints kind, line, column, position, detail, length of the value and end, last `end` and the position, or `refused`,
the number and its place. --json prints one object. Without --octal an octal escape over 377 is refused.",
    run,
};

/// How many bytes are read at a time where no number is given.
const DEFAULT_PIECE: usize = 4096;

/// The form of what is printed.
#[derive(Clone, Copy, PartialEq, Eq)]
enum Form {
    People,
    Numbers,
    Json,
}

/// Why the tokens are not all printed.
enum Trouble {
    Unread(io::Error),
    Unwritten(io::Error),
}

/// What is read, and how it is printed.
struct Source<'a> {
    path: &'a Path,
    piece: usize,
    choices: Choices,
    form: Form,
}

/// Prints the tokens of the script that is named.
fn run(call: &Call) -> Result<u8, String> {
    let path = match &call.paths[..] {
        [] => Path::new(files::STANDARD),
        [path] => path,
        _ => return Err("more than one script is named: name one, or none for standard input".to_string()),
    };
    let form = match (call.has(&NUMBERS), call.has(&JSON)) {
        (true, _) => Form::Numbers,
        (_, true) => Form::Json,
        _ => Form::People,
    };
    let piece = call.number(&PIECE).unwrap_or(DEFAULT_PIECE).min(limits::MOST_BYTES + 1);
    let source = Source { path, piece, choices: choices(call), form };
    Ok(source.print().unwrap_or_else(|trouble| match trouble {
        Trouble::Unwritten(error) => unwritten(&error),
        Trouble::Unread(error) => {
            complain(&files::unreadable(path, &error));
            NOT_DONE
        }
    }))
}

/// The choices that a call names: without an option those of the lexer that was carried over.
pub fn choices(call: &Call) -> Choices {
    let nowdocs = if call.has(&SHEET) { Reading::Sheet } else { Reading::Ported };
    Choices { nowdocs, octals: octals(call, Octal::Rust) }
}

impl Source<'_> {
    /// Opens the script, reads a piece, prints its tokens, and so on; the status.
    fn print(&self) -> Result<u8, Trouble> {
        let mut input = self.open().map_err(Trouble::Unread)?;
        let mut stream = Stream::new(self.choices);
        self.feed(&mut stream, &mut input)?;
        let mut out = Printer { form: self.form, count: 0, out: BufWriter::new(io::stdout()) };
        out.begin(self).map_err(Trouble::Unwritten)?;
        loop {
            match stream.next() {
                Event::Tokens(tokens) => out.tokens(&tokens).map_err(Trouble::Unwritten)?,
                Event::Wait => {
                    out.out.flush().map_err(Trouble::Unwritten)?;
                    self.feed(&mut stream, &mut input)?;
                }
                Event::Finished(position) => return out.end(Ok(position)).map_err(Trouble::Unwritten),
                Event::Refused(refusal) => {
                    let detail = by_the_manual(stream.source(), refusal);
                    return out.end(Err(Refused { refusal, detail })).map_err(Trouble::Unwritten);
                }
            }
        }
    }

    fn open(&self) -> io::Result<Box<dyn Read>> {
        if files::is_standard(self.path) {
            return Ok(Box::new(io::stdin()));
        }
        File::open(self.path).map(|file| Box::new(file) as Box<dyn Read>)
    }

    /// The next piece goes to the stream; one that is not full is the last.
    fn feed(&self, stream: &mut Stream, input: &mut dyn Read) -> Result<(), Trouble> {
        let mut piece = Vec::new();
        input.take(self.piece as u64).read_to_end(&mut piece).map_err(Trouble::Unread)?;
        stream.feed(&piece).map_err(|refusal| Trouble::Unread(io::Error::new(io::ErrorKind::Other, refusal)))?;
        if piece.len() < self.piece {
            stream.finish();
        }
        Ok(())
    }
}

/// A refusal, and a sentence on what else reads it, if something does.
struct Refused {
    refusal: Refusal,
    detail: Option<String>,
}

/// Prints tokens as they come.
struct Printer<W: Write> {
    form: Form,
    count: usize,
    out: W,
}

impl<W: Write> Printer<W> {
    /// What stands before all tokens.
    fn begin(&mut self, source: &Source) -> io::Result<()> {
        if self.form != Form::Json {
            return Ok(());
        }
        let (path, Choices { nowdocs, octals, .. }) = (json::string(&files::name(source.path)), source.choices);
        let (reading, octal) = (json::string(reading_name(nowdocs)), json::string(octal_name(octals)));
        write!(self.out, "{{\"path\":{},\"reading\":{},\"octal\":{},\"tokens\":[", path, reading, octal)
    }

    fn tokens(&mut self, tokens: &[Token]) -> io::Result<()> {
        for token in tokens {
            match self.form {
                Form::People => writeln!(self.out, "{}", token::line(token))?,
                Form::Numbers => writeln!(self.out, "{}", token::numbers(token))?,
                Form::Json => {
                    let before = if self.count == 0 { "\n" } else { ",\n" };
                    write!(self.out, "{}{}", before, token::object(token))?;
                }
            }
            self.count += 1;
        }
        Ok(())
    }

    /// What stands behind all tokens: how the script ended; the status.
    fn end(&mut self, end: Result<u32, Refused>) -> io::Result<u8> {
        let last = match self.form {
            Form::People => people_end(self.count, &end),
            Form::Numbers => numbers_end(&end),
            Form::Json => format!("],\"end\":{}}}", json_end(&end)),
        };
        writeln!(self.out, "{}", last)?;
        self.out.flush()?;
        Ok(if end.is_ok() { ALL_GOOD } else { REFUSED })
    }
}

/// How a script ended, for a person.
fn people_end(count: usize, end: &Result<u32, Refused>) -> String {
    let tokens = counted(count, "token");
    match end {
        Ok(position) => format!("{}, read to the end, {}", tokens, counted(*position as usize, "byte")),
        Err(Refused { refusal, detail }) => format!("{}, then {}", tokens, in_words(*refusal, detail)),
    }
}

/// A refusal with what to do, and with what else reads it.
pub fn in_words(refusal: Refusal, detail: &Option<String>) -> String {
    let behind = detail.as_ref().map_or_else(String::new, |detail| format!(" {}", detail));
    format!("{}. {}{}", refusal, refusal.advice(), behind)
}

/// How a script ended, as the program rows prints it.
fn numbers_end(end: &Result<u32, Refused>) -> String {
    match end {
        Ok(position) => format!("end {}", position),
        Err(Refused { refusal: Refusal { number, span }, .. }) => {
            format!("refused {} {} {} {}", number, span.line, span.column, span.position)
        }
    }
}

/// How a script ended, as an object.
fn json_end(end: &Result<u32, Refused>) -> String {
    let way = |way: &str| vec![("way", json::string(way))];
    json::object(&match end {
        Ok(position) => [way("finished"), vec![("position", position.to_string())]].concat(),
        Err(Refused { refusal, detail }) => {
            let kind = vec![("number", refusal.number.to_string()), ("name", json::string(refusal.name()))];
            let detail = detail.as_ref().map_or_else(|| "null".to_string(), |detail| json::string(detail));
            let words = [("meaning", refusal.meaning()), ("advice", refusal.advice())];
            let words = words.map(|(name, text)| (name, json::string(text)));
            let told = words.into_iter().chain([("detail", detail)]).collect();
            [way("refused"), kind, json::place_fields(refusal.span), told].concat()
        }
    })
}

/// A reading's name.
pub fn reading_name(reading: Reading) -> &'static str {
    match reading {
        Reading::Ported => "ported",
        Reading::Sheet => "sheet",
    }
}
