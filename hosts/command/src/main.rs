//! The program `puretakoi`.

use std::process::ExitCode;

fn main() -> ExitCode {
    ExitCode::from(command::commands::run(std::env::args_os().skip(1)))
}
