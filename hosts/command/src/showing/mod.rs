//! What was read, shown to a person or a program.

pub mod braille;
pub mod brf;
pub mod byte_names;
pub mod bytes;
pub mod cells;
pub mod figure;
pub mod html;
pub mod json;
pub mod letters;
pub mod picture;
pub mod shown;
pub mod text;
pub mod ueb;
