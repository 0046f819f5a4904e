//! The record file: 32 bytes a record, little-endian, no header.

use crate::foreign;
use crate::refusal::{given, Refusal};

/// All records of a list as a file. Refused: too many (11), no whole number of records (10).
pub fn list_to_file(list: &[u32]) -> Result<Vec<u8>, Refusal> {
    let mut file = vec![0; list.len().saturating_mul(4)];
    given(foreign::list_to_file(list, &mut file), file)
}

/// All records of a file as a list. Refused: too many (11), no whole number of records (10).
pub fn file_to_list(file: &[u8]) -> Result<Vec<u32>, Refusal> {
    let mut list = vec![0; file.len() / 4];
    given(foreign::file_to_list(file, &mut list), list)
}
