//! The sample sheets: the rows are those that PHP prints.

mod common;

use std::fs;

use command::reading::sheet::{Sheet, Verdict};
use common::tests_folder;

#[test]
fn rows_are_those_of_php() {
    let folder = tests_folder().join("../../../sheets");
    for (name, blocks) in [
        ("street-crossing", 2),
        ("station-forecourt", 1),
        ("tabs-before-closer", 2),
        ("street-names", 2),
        ("remarks", 2),
    ] {
        let sheet = Sheet::read(&fs::read(folder.join(format!("{}.php", name))).unwrap());
        assert_eq!(sheet.verdict(), Verdict::Ok, "{}", name);
        assert_eq!(sheet.blocks.len(), blocks, "{}", name);
        let rows: Vec<u8> =
            sheet.blocks.iter().flat_map(|block| &block.rows).flat_map(|row| [row, &b"\n"[..]].concat()).collect();
        let relief = fs::read(folder.join(format!("{}.relief", name))).unwrap();
        assert_eq!(String::from_utf8_lossy(&rows), String::from_utf8_lossy(&relief), "{}", name);
    }
}

#[test]
fn refusals_are_those_written_beside_the_sheets() {
    let folder = tests_folder().join("../../../sheets/faulty");
    for name in [
        "closer-missing",
        "closer-with-spaces-and-tabs",
        "label-with-letters",
        "remark-not-closed",
        "row-with-less-indentation",
    ] {
        let sheet = Sheet::read(&fs::read(folder.join(format!("{}.php", name))).unwrap());
        let relief = fs::read_to_string(folder.join(format!("{}.relief", name))).unwrap();
        let refusal = sheet.faults[0].refusal;
        let refused = format!("refused {} at {}", refusal.number, refusal.span);
        assert_eq!(relief.lines().last(), Some(refused.as_str()), "{}", name);
    }
}
