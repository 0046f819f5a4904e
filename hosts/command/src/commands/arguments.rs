//! What the words of a command line ask a verb for.

use std::ffi::{OsStr, OsString};
use std::os::unix::ffi::{OsStrExt, OsStringExt};
use std::path::{Path, PathBuf};

use crate::commands::options::{Choice, Wants, HELP, VERSION};
use crate::files::{is_script, is_standard, name};

/// Options that a verb takes: of each group one at most.
pub type Groups = &'static [&'static [&'static Choice]];

/// What is asked for.
#[derive(Debug, PartialEq, Eq)]
pub enum Asked {
    /// To say how the verb is called.
    Help,
    /// To say the version.
    Version,
    /// The verb's work.
    Work(Call),
}

/// The options that are given, and the paths.
#[derive(Debug, Default, PartialEq, Eq)]
pub struct Call {
    given: Vec<(&'static Choice, Value)>,
    /// What is named behind the options.
    pub paths: Vec<PathBuf>,
}

/// What stands behind an option.
#[derive(Debug, PartialEq, Eq)]
enum Value {
    Nothing,
    File(PathBuf),
    Number(usize),
    Word(&'static str),
}

impl Call {
    /// Whether an option is given.
    pub fn has(&self, choice: &Choice) -> bool {
        self.value(choice).is_some()
    }

    /// The file behind an option.
    pub fn file(&self, choice: &Choice) -> Option<&Path> {
        match self.value(choice) {
            Some(Value::File(path)) => Some(path),
            _ => None,
        }
    }

    /// The number behind an option.
    pub fn number(&self, choice: &Choice) -> Option<usize> {
        match self.value(choice) {
            Some(Value::Number(number)) => Some(*number),
            _ => None,
        }
    }

    /// The word behind an option.
    pub fn word(&self, choice: &Choice) -> Option<&'static str> {
        match self.value(choice) {
            Some(Value::Word(word)) => Some(word),
            _ => None,
        }
    }

    /// What stands behind an option; where that is given twice, the last counts.
    fn value(&self, choice: &Choice) -> Option<&Value> {
        self.given.iter().rev().find(|(given, _value)| *given == choice).map(|(_given, value)| value)
    }
}

/// Reads the words behind a verb of scripts; else a sentence on what is wrong.
pub fn parse(groups: Groups, words: impl Iterator<Item = OsString>) -> Result<Asked, String> {
    match parse_words(groups, words)? {
        Asked::Work(call) => check_standard(call).map(Asked::Work),
        asked => Ok(asked),
    }
}

/// Reads the words behind a verb that reads no script: a - is a word as any other.
pub fn parse_words(groups: Groups, words: impl Iterator<Item = OsString>) -> Result<Asked, String> {
    let mut words = words;
    let mut call = Call::default();
    while let Some(word) = words.next() {
        if word == "--" {
            call.paths.extend(words.by_ref().map(PathBuf::from));
        } else if is_standard(Path::new(&word)) || !word.as_bytes().starts_with(b"-") {
            call.paths.push(PathBuf::from(word));
        } else {
            let (given, behind) = divided(word);
            match choice(groups, &given)? {
                choice if *choice == HELP => return Ok(Asked::Help),
                choice if *choice == VERSION => return Ok(Asked::Version),
                choice => call.given.push((choice, value(choice, &given, behind, &mut words)?)),
            }
        }
    }
    check(groups, call).map(Asked::Work)
}

/// An option's name, and what stands behind its `=`.
fn divided(word: OsString) -> (String, Option<OsString>) {
    let bytes = word.as_bytes();
    match bytes.iter().position(|byte| *byte == b'=').filter(|_| bytes.starts_with(b"--")) {
        Some(at) => {
            let value = OsString::from_vec(bytes[at + 1..].to_vec());
            (name(Path::new(OsStr::from_bytes(&bytes[..at]))), Some(value))
        }
        None => (name(Path::new(&word)), None),
    }
}

/// The option of this name among those that a verb takes.
fn choice(groups: Groups, given: &str) -> Result<&'static Choice, String> {
    const COMMON: &[&Choice] = &[&HELP, &VERSION];
    let mut all = groups.iter().copied().chain([COMMON]).flatten().copied();
    all.find(|choice| choice.names.contains(&given)).ok_or_else(|| format!("{} is no option", given))
}

/// What stands behind an option, with a `=` or as the next word.
fn value(
    choice: &Choice,
    given: &str,
    behind: Option<OsString>,
    words: &mut impl Iterator<Item = OsString>,
) -> Result<Value, String> {
    match choice.wants {
        Wants::Nothing if behind.is_some() => Err(format!("{} takes nothing behind it", given)),
        Wants::Nothing => Ok(Value::Nothing),
        Wants::File => file(given, behind.or_else(|| words.next())).map(Value::File),
        Wants::Number(_, first, last) => {
            let word = behind.or_else(|| words.next());
            let number = word.and_then(|word| number(&word)).filter(|number| (first..=last).contains(number));
            number.map(Value::Number).ok_or_else(|| format!("{} wants {} behind it", given, numbers(first, last)))
        }
        Wants::Word(all) => {
            let word = behind.or_else(|| words.next());
            let found = all.iter().find(|one| word.as_deref() == Some(OsStr::new(one)));
            let wanted = || format!("{} wants {} behind it", given, all.join(" or "));
            found.map(|word| Value::Word(word)).ok_or_else(wanted)
        }
    }
}

/// A file to write; never a script's path, which would be lost.
fn file(given: &str, word: Option<OsString>) -> Result<PathBuf, String> {
    let wanted = format!("{} wants the path of a file to write behind it", given);
    let path = word.map(PathBuf::from).ok_or_else(|| wanted.clone())?;
    if !is_standard(&path) && path.as_os_str().as_bytes().starts_with(b"-") {
        return Err(format!("{}; one that begins with - is written ./{}", wanted, name(&path)));
    }
    if is_script(&path) {
        return Err(format!("{}, and not a script's", wanted));
    }
    Ok(path)
}

/// A number of digits alone; one that is too large to hold is as good as the largest.
pub fn number(word: &OsStr) -> Option<usize> {
    let digits = word.to_str().filter(|word| !word.is_empty() && word.bytes().all(|byte| byte.is_ascii_digit()))?;
    Some(digits.parse().unwrap_or(usize::MAX))
}

/// The numbers that an option takes, in words.
fn numbers(first: usize, last: usize) -> String {
    match last {
        usize::MAX => format!("a number from {} on", first),
        last => format!("a number from {} to {}", first, last),
    }
}

/// What was given, unless two options don't go together.
fn check(groups: Groups, call: Call) -> Result<Call, String> {
    for group in groups {
        let given: Vec<&str> = group.iter().filter(|choice| call.has(choice)).map(|choice| choice.names[0]).collect();
        if let [first, second, ..] = given[..] {
            return Err(format!("{} and {} don't go together: give one of them", first, second));
        }
    }
    Ok(call)
}

/// What was given, unless standard input is named twice.
fn check_standard(call: Call) -> Result<Call, String> {
    if call.paths.iter().filter(|path| is_standard(path)).count() > 1 {
        return Err("- is named twice, and standard input can be read once: name it once".to_string());
    }
    Ok(call)
}
