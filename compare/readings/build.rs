//! Links the proved readings: target/staticlib/libprobe.a.

#[path = "../archive.rs"]
mod archive;

fn main() {
    archive::link("probe");
}
