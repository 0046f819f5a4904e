//! A script as a sheet: blocks, heredocs, remarks, warnings and refusals.

pub mod fault;
pub mod finger;
pub mod form;
pub mod gather;
pub mod heredoc;
pub mod mend;
pub mod octal;
pub mod php;
pub mod reader;
pub mod remark;
pub mod sheet;
pub mod suspect;
pub mod touch;
pub mod warning;
pub mod watch;
