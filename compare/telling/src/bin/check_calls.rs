//! Holds the stored calls to what is told of them: `check_calls FILE..`, a file a group.

use std::path::Path;
use std::process::exit;

use telling::find::found;

fn main() {
    oracle::quiet_panics();
    let mut teller = telling::Teller::default();
    let mut good = true;
    for file in std::env::args().skip(1) {
        let path = Path::new(&file);
        let name = format!("stored calls of {}", path.file_stem().unwrap_or_default().to_string_lossy());
        let held = cases::file::compare_calls(
            &name,
            path,
            |call, out| teller.told(call).write(out),
            |lookup, out| found(lookup).write(out),
        );
        good &= held.is_some();
    }
    exit(if good { 0 } else { 1 });
}
