//! Links the proved library: target/staticlib/libpuretakoi.a.

#[path = "../../compare/archive.rs"]
mod archive;

fn main() {
    archive::link("puretakoi");
}
