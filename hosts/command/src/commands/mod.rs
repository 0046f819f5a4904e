//! The command line: its verbs, and what they share.

pub mod arguments;
pub mod at;
pub mod bytes;
pub mod check;
pub mod choices;
pub mod cut;
pub mod many;
pub mod octals;
pub mod options;
pub mod output;
pub mod place;
pub mod pointed;
pub mod pointed_json;
pub mod pointing;
pub mod printing;
pub mod record_file;
pub mod records;
pub mod token;
pub mod tokens;
pub mod view;

use std::ffi::OsString;

use crate::commands::arguments::{parse, parse_words, Asked, Call, Groups};
use crate::commands::options::{Choice, HELP, VERSION};
use crate::commands::output::{complain, written, ALL_GOOD, NOT_DONE};
use crate::showing::shown::shown;

/// A verb of the command.
pub struct Verb {
    name: &'static str,
    groups: Groups,
    /// What is named behind the options.
    operands: &'static str,
    /// What it does, in a line.
    about: &'static str,
    /// What else `--help` says of it.
    more: &'static str,
    /// Its work: the status, or a sentence on what is wrong with the call.
    run: fn(&Call) -> Result<u8, String>,
}

/// The verbs of scripts, which a wrong call names.
const VERBS: &[&Verb] = &[&view::VERB, &check::VERB, &at::VERB, &cut::VERB, &tokens::VERB, &records::VERB];

/// The verbs that read no script.
const BESIDE: &[&Verb] = &[&bytes::VERB];

/// How the command is called.
const USAGE: &str = "usage: puretakoi VERB [OPTION..] PATH..";

/// What all helps end with.
const STATUSES: &str =
    "Status: 0 all good, 1 a sheet is refused, 2 the call is wrong or a file can't be read or written, \
                        3 a sheet is\nread with a warning.";

/// Does what the command line asks for, which comes without the program's name.
pub fn run(mut words: impl Iterator<Item = OsString>) -> u8 {
    let first = words.next().map(|word| word.to_string_lossy().into_owned());
    match first.as_deref() {
        Some("--help") => written(&help(), ALL_GOOD),
        Some("--version") => written(&version(), ALL_GOOD),
        Some(word) => match (named(VERBS, word), named(BESIDE, word)) {
            (Some(verb), _) => verb.call(parse(verb.groups, words)),
            (None, Some(verb)) => verb.call(parse_words(verb.groups, words)),
            (None, None) => {
                wrong_call(&format!("{} is no verb: write {}", shown(word.as_bytes()), verb_names()), USAGE)
            }
        },
        None => wrong_call(&format!("no verb is named: write {}", verb_names()), USAGE),
    }
}

/// The verb of this name.
fn named(verbs: &[&'static Verb], name: &str) -> Option<&'static Verb> {
    verbs.iter().find(|verb| verb.name == name).copied()
}

impl Verb {
    /// Does what the words behind it ask for.
    fn call(&self, asked: Result<Asked, String>) -> u8 {
        let done = match asked {
            Ok(Asked::Help) => Ok(written(&self.help(), ALL_GOOD)),
            Ok(Asked::Version) => Ok(written(&version(), ALL_GOOD)),
            Ok(Asked::Work(call)) => (self.run)(&call),
            Err(fault) => Err(fault),
        };
        done.unwrap_or_else(|fault| wrong_call(&fault, &self.usage()))
    }

    /// How it is called, in a line.
    fn usage(&self) -> String {
        let usages = |group: &&[&Choice]| group.iter().map(|choice| choice.usage()).collect::<Vec<_>>().join("|");
        let options: String = self.groups.iter().map(|group| format!("[{}] ", usages(group))).collect();
        format!("usage: puretakoi {} {}{}", self.name, options, self.operands)
    }

    /// What `--help` says of it.
    fn help(&self) -> String {
        let own = self.groups.iter().copied().flatten().copied();
        let options: Vec<&Choice> = own.chain([&HELP, &VERSION]).collect();
        let widest = options.iter().map(|choice| choice.all_names().len()).max().unwrap_or(0);
        let line = |choice: &&Choice| format!("  {:widest$}  {}\n", choice.all_names(), choice.help, widest = widest);
        let lines: String = options.iter().map(line).collect();
        let about = format!("puretakoi {} {}.", self.name, self.about);
        format!("{}\n\n{}\n{}\n\n{}\n{}\n", self.usage(), about, self.more, lines, STATUSES)
    }
}

/// What `puretakoi --help` says.
fn help() -> String {
    let all = || VERBS.iter().chain(BESIDE);
    let widest = all().map(|verb| verb.name.len()).max().unwrap_or(0);
    let line = |verb: &&Verb| format!("  {:widest$}  {}\n", verb.name, verb.about, widest = widest);
    let verbs: String = all().map(line).collect();
    format!(
        "{}\n\nReads PHP scripts from which tactile maps are embossed. The verbs:\n{}\n\
         puretakoi VERB --help tells more of a verb, puretakoi --version the version.\n\
         - is standard input where a script is named; -- ends the options.\n\n{}\n",
        USAGE, verbs, STATUSES
    )
}

/// The program and its version.
fn version() -> String {
    format!("{}\n", choices::PROGRAM)
}

/// The names of the verbs of scripts, for a sentence.
fn verb_names() -> String {
    let names: Vec<&str> = VERBS.iter().map(|verb| verb.name).collect();
    match names.split_last() {
        Some((last, front)) => format!("{} or {}", front.join(", "), last),
        None => String::new(),
    }
}

/// Tells what is wrong with a call.
fn wrong_call(fault: &str, usage: &str) -> u8 {
    complain(&format!("{}; {}", fault, usage));
    NOT_DONE
}
