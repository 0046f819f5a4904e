//! Copies the six Rust files, unchanged, and the modules that stand beside them into the build folder.

use std::env;
use std::fs;
use std::path::{Path, PathBuf};
use std::process::Command;

/// The given Rust, below the folder that holds `lexer/`.
const GIVEN: [&str; 6] = [
    "lexer/mod.rs",
    "lexer/byte_string.rs",
    "lexer/error.rs",
    "lexer/token.rs",
    "lexer/state/mod.rs",
    "lexer/state/source.rs",
];

/// The child modules of `lexer` whose text is not given, below `stand-ins/`.
const BESIDE: [&str; 2] = ["lexer/macros.rs", "lexer/stream.rs"];

fn main() {
    println!("cargo:rerun-if-env-changed=PURETAKOI_RUST");
    println!("cargo:rerun-if-changed=build.rs");
    println!("cargo:rerun-if-changed=SHA256SUMS");
    let package = PathBuf::from(env::var_os("CARGO_MANIFEST_DIR").unwrap());
    let build = PathBuf::from(env::var_os("OUT_DIR").unwrap());
    let rust = match env::var_os("PURETAKOI_RUST") {
        Some(folder) => PathBuf::from(folder),
        None => package.join("../../../shared/docs/src"),
    };
    GIVEN.iter().for_each(|file| copy(&rust, &build, file));
    check_sums(&package.join("SHA256SUMS"), &build);
    BESIDE.iter().for_each(|file| copy(&package.join("stand-ins"), &build, file));
    let modules = "#[allow(dead_code)]\npub mod lexer;\n";
    fs::write(build.join("modules.rs"), modules).unwrap_or_else(|e| stop(&e.to_string()));
}

/// Copies one file and compares the copy with it byte for byte.
fn copy(from: &Path, to: &Path, file: &str) {
    let (source, target) = (from.join(file), to.join(file));
    println!("cargo:rerun-if-changed={}", source.display());
    let text = fs::read(&source).unwrap_or_else(|e| stop(&format!("{}: {}", source.display(), e)));
    let written = fs::create_dir_all(target.parent().unwrap())
        .and_then(|()| fs::write(&target, &text))
        .and_then(|()| fs::read(&target));
    if written.unwrap_or_else(|e| stop(&format!("{}: {}", target.display(), e))) != text {
        stop(&format!("the copy of {} differs from it", source.display()));
    }
}

/// Holds the copies to the stored sums; `sha256sum` names each file that differs.
fn check_sums(sums: &Path, build: &Path) {
    let check = Command::new("sha256sum").args(["--check", "--quiet"]).arg(sums).current_dir(build).output();
    let check = check.unwrap_or_else(|e| stop(&format!("sha256sum can't be run: {}", e)));
    if !check.status.success() {
        let named = String::from_utf8_lossy(&check.stdout);
        stop(&format!("not the Rust of SHA256SUMS: {}", named.trim_end()));
    }
}

/// Ends the build with one plain line.
fn stop(line: &str) -> ! {
    eprintln!("oracle: {}", line);
    std::process::exit(1)
}
