//! Prints what a byte counts as, in words and as a number, by the crate that is named as a path.

use puretakoi::classes_of;

fn main() {
    println!("_ is {}, {}", classes_of(b'_'), classes_of(b'_').number());
}
