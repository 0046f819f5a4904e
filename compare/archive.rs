//! For build scripts: links the archive that PURETAKOI_ARCHIVE names, else that of a crate in target/staticlib.

use std::env;
use std::path::PathBuf;
use std::process::exit;

pub fn link(library: &str) {
    println!("cargo:rerun-if-env-changed=PURETAKOI_ARCHIVE");
    let machine = env::var("CARGO_CFG_TARGET_ARCH").unwrap_or_default();
    if machine != "x86_64" {
        println!("cargo:warning=the proved library is for x86-64 Linux, and this build is for {}", machine);
    }
    let package = PathBuf::from(env::var_os("CARGO_MANIFEST_DIR").unwrap());
    let archive = match env::var_os("PURETAKOI_ARCHIVE") {
        Some(file) => PathBuf::from(file),
        None => package.join(format!("../../target/staticlib/lib{}.a", library)),
    };
    if !archive.is_file() {
        refuse(&format!(
            "the proved library {} is missing: run hosts/view or hosts/install in the repository, or `rt lib` in its \
             crates/{}, and set PURETAKOI_ARCHIVE to where it is then, out/lib{}.a",
            archive.display(),
            library,
            library
        ));
    }
    let folder = archive.parent().expect("the archive stands in a folder");
    let stem = archive.file_stem().expect("the archive has a name").to_string_lossy();
    let name = stem.strip_prefix("lib").expect("the archive's name is libNAME.a");
    println!("cargo:rerun-if-changed={}", archive.display());
    println!("cargo:rustc-link-search=native={}", folder.display());
    println!("cargo:rustc-link-lib=static={}", name);
}

/// Ends the build with a line on what to do.
fn refuse(fault: &str) -> ! {
    eprintln!("puretakoi: {}", fault);
    exit(1);
}
