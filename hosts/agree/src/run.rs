//! A program run on a script, from a file or from standard input.

use std::fmt;
use std::fs;
use std::io::{self, Write};
use std::path::PathBuf;
use std::process::{id, Command, Output, Stdio};

/// A folder for scripts, which goes when it is dropped.
pub struct Folder {
    path: PathBuf,
}

impl Folder {
    pub fn new() -> io::Result<Folder> {
        let path = std::env::temp_dir().join(format!("puretakoi-agree-{}", id()));
        fs::create_dir_all(&path)?;
        Ok(Folder { path })
    }

    /// A script, as a file of that number too.
    pub fn lend<'a>(&self, number: usize, script: &'a [u8]) -> Result<Lent<'a>, String> {
        let file = self.path.join(number.to_string());
        fs::write(&file, script).map_err(|wrong| format!("  {} can't be written: {}", file.display(), wrong))?;
        Ok(Lent { script, file })
    }
}

impl Drop for Folder {
    fn drop(&mut self) {
        let _ = fs::remove_dir_all(&self.path);
    }
}

/// A script, and the file that holds it.
pub struct Lent<'a> {
    pub script: &'a [u8],
    file: PathBuf,
}

/// A program that reads scripts, and the words that it is called with before all others.
pub struct Program<'a> {
    pub path: &'a str,
    pub words: &'a [String],
}

/// What a program gave.
#[derive(PartialEq)]
pub struct Given {
    pub printed: Vec<u8>,
    pub status: i32,
}

impl fmt::Display for Given {
    fn fmt(&self, out: &mut fmt::Formatter) -> fmt::Result {
        let lines = String::from_utf8_lossy(&self.printed).lines().collect::<Vec<_>>().join(" / ");
        write!(out, "{} with status {}", lines, self.status)
    }
}

impl Program<'_> {
    /// Runs the program on a script, by pieces of a size where one is given.
    pub fn run(&self, lent: &Lent, piece: Option<usize>, from_file: bool) -> Result<Given, String> {
        let mut command = Command::new(self.path);
        command.args(self.words);
        if let Some(piece) = piece {
            command.arg("-p").arg(piece.to_string());
        }
        let output = if from_file {
            command.arg(&lent.file).stdin(Stdio::null()).output()
        } else {
            on_input(command, lent.script)
        };
        let output = output.map_err(|wrong| format!("  {} does not run: {}", self.path, wrong))?;
        Ok(Given { printed: output.stdout, status: output.status.code().unwrap_or(-1) })
    }
}

fn on_input(mut command: Command, script: &[u8]) -> io::Result<Output> {
    let mut child = command.stdin(Stdio::piped()).stdout(Stdio::piped()).spawn()?;
    // A program that has refused may close its input.
    let _ = child.stdin.take().map(|mut input| input.write_all(script));
    child.wait_with_output()
}
