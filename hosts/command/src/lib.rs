//! The command `puretakoi`: reads scripts by the proved library and shows, checks and stores what is in them.

#![forbid(unsafe_code)]
#![deny(missing_docs)]

pub mod commands;
pub mod files;
pub mod jobs;
pub mod reading;
pub mod showing;
pub mod terminal;
