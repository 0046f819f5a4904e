//! Pages for an embosser: what is on them, worked out by hand, and the limits of a line and a page.

mod common;

use std::fs;

use command::reading::sheet::Sheet;
use command::showing::brf::sheet;
use common::tests_folder;
use common::troubled::{guessed, warned};

/// The lines of all pages; each line and page must end as they do in such a file, and keep to its size.
fn pages(text: &str) -> Vec<Vec<String>> {
    let pages: Vec<&str> = text.strip_suffix('\x0C').expect("a form feed at the end").split('\x0C').collect();
    let lines = |page: &&str| {
        let lines = page.strip_suffix("\r\n").expect("a break at the end").split("\r\n");
        lines.map(str::to_string).collect::<Vec<_>>()
    };
    let pages: Vec<Vec<String>> = pages.iter().map(lines).collect();
    for line in pages.iter().flatten() {
        assert!(line.len() <= 40, "{:?} is too wide", line);
        assert!(line.bytes().all(|byte| (0x20..=0x5F).contains(&byte)), "{:?} has other bytes", line);
    }
    assert!(pages.iter().all(|page| page.len() <= 25), "{:?}", pages);
    pages
}

fn pages_of(script: &str) -> Vec<Vec<String>> {
    pages(&sheet("a.php", &Sheet::read(script.as_bytes())))
}

/// The script of a block of some rows.
fn script(rows: &str) -> String {
    format!("<?php\n$a = <<<'RELIEF'\n{}RELIEF;\n", rows)
}

#[test]
fn a_small_relief_dot_by_dot() {
    // Line 1 has rows 1 to 3: columns 1 and 2 are dots 1 2 3 and 4, which is P; columns 3 and 4 are dots 2 and 6,
    // which is 5. Line 2 has row 4: dots 1 and 4, C.
    let want = ["A4PHP", "OK", "#A BLOCK1 #D ROWS", "", "BLOCK #A1 LINE #B1 LABEL ,,RELIEF1 #D", "  ROWS", "P5", "C"];
    assert_eq!(pages_of(&script("##\n# # \n#  #\n##\n")), [want]);
}

#[test]
fn a_sheet_in_words() {
    let text = "<?php // Kerb 3b\n<<<'A'\nA;\n/* x\n y */";
    let want = [
        "A4PHP",
        "OK",
        "#A BLOCK1 #J ROWS1 #B REMARKS",
        "",
        "REMARK1 LINE #A1 COLUMN #G",
        "_/_/ ,KERB #C;B",
        "",
        "BLOCK #A1 LINE #B1 LABEL ,A1 #J ROWS",
        "",
        "REMARK1 LINE #D1 COLUMN #A",
        "_/\"9 X",
        " Y \"9_/",
    ];
    assert_eq!(pages_of(text), [want]);
}

#[test]
fn refusals_warnings_and_guesses_in_words() {
    let words = |told: &Sheet| pages(&sheet("a.php", told)).concat();
    let first = words(&warned());
    assert_eq!(first[1], "WARNED AT LINE #B1 COLUMN #F3");
    assert_eq!(first[2], "  @<@<@<,7,,RELIEF,7 OPENS NO BLOCK4");
    assert_eq!(first[3], "  ,WRITE @<@<@<',,RELIEF'4");
    assert_eq!(first[4], "WARNED AT LINE #A1 COLUMN #A3 THE LINES");
    assert_eq!(first[5], "  END IN ,,CR4 ,USE ,,LF4");
    assert!(first.contains(&"HEREDOC1 LINES #F TO #I1 LABEL ,,EOD1".to_string()), "{:?}", first);
    let second = words(&guessed());
    assert_eq!(second[1], "REFUSED #B AT LINE #A1 COLUMN #AB3 A");
    assert!(second.contains(&"REFUSED #B AT LINE #A1 COLUMN #AB1 A".to_string()), "{:?}", second);
    assert!(second.contains(&"  ROWS1 A GUESS".to_string()), "{:?}", second);
    let open = pages_of("<?php\n$a = <<<'A'\n  o\n").concat();
    assert_eq!(open[1], "REFUSED #A AT LINE #B1 COLUMN #F3");
}

#[test]
fn a_picture_wider_than_a_line_is_cut_in_strips() {
    let row = "o".repeat(80);
    let narrow = pages_of(&script(&format!("{}\n", row)));
    // Dots 1 and 4, C, in all 40 cells.
    assert_eq!(narrow[0].last().unwrap(), &"C".repeat(40));
    assert!(!narrow.concat().contains(&"COLUMNS #A TO #HJ".to_string()));
    let wide = pages_of(&script(&format!("{}o\n", row))).concat();
    let at = wide.iter().position(|line| line == "COLUMNS #A TO #HJ").unwrap();
    assert_eq!(&wide[at + 1..], ["C".repeat(40), String::new(), "COLUMNS #HA TO #HA".to_string(), "A".to_string()]);
}

#[test]
fn a_picture_that_a_page_has_room_for_is_on_one_page() {
    // Name, ok, what is in it, an empty line, two lines of the block's name: 6 lines. 19 of the picture have room
    // below them.
    let fits = pages_of(&script(&"o\n".repeat(19 * 3)));
    assert_eq!(fits.iter().map(Vec::len).collect::<Vec<_>>(), [25]);
    // 20 have not, but have with the name on a fresh page.
    let moved = pages_of(&script(&"o\n".repeat(20 * 3)));
    assert_eq!(moved.iter().map(Vec::len).collect::<Vec<_>>(), [3, 22]);
    assert_eq!(moved[1][0], "BLOCK #A1 LINE #B1 LABEL ,,RELIEF1 #FJ");
    // A page has room for 24, but not with the name, which stays before it.
    let full = pages_of(&script(&"o\n".repeat(24 * 3)));
    assert_eq!(full.iter().map(Vec::len).collect::<Vec<_>>(), [6, 24]);
    // No page has room for 26: it begins at once and goes on.
    let high = pages_of(&script(&"o\n".repeat(26 * 3)));
    assert_eq!(high.iter().map(Vec::len).collect::<Vec<_>>(), [25, 7]);
    assert_eq!(high.concat().iter().filter(|line| *line == "L").count(), 26);
}

#[test]
fn a_high_picture_does_not_begin_with_its_name_alone() {
    let script = |breaks: usize| {
        let remark = format!("/*{}*/", "\n".repeat(breaks));
        format!("<?php {}\n$a = <<<'RELIEF'\n{}RELIEF;\n", remark, "o\n".repeat(26 * 3))
    };
    // A heading of 3 lines, an empty one, the remark's name and its 16 lines: 21. An empty line, a name of 2 and a
    // line of the picture have room below them.
    assert_eq!(pages_of(&script(15)).iter().map(Vec::len).collect::<Vec<_>>(), [25, 25]);
    // One line more: the name would have room, but no line of the picture.
    let pages = pages_of(&script(16));
    assert_eq!(pages.iter().map(Vec::len).collect::<Vec<_>>(), [22, 25, 3]);
    assert_eq!(pages[1][0], "BLOCK #A1 LINE #AH1 LABEL ,,RELIEF1 #GH");
}

#[test]
fn all_sheets_keep_to_lines_and_pages() {
    let folders = ["../../../sheets", "../../../sheets/faulty", "sheets", "sheets/many"];
    let entries = folders.iter().flat_map(|folder| fs::read_dir(tests_folder().join(folder)).unwrap());
    let scripts =
        entries.map(|entry| entry.unwrap().path()).filter(|path| path.extension().map_or(false, |end| end == "php"));
    let mut count = 0;
    for path in scripts {
        pages(&sheet(&path.to_string_lossy(), &Sheet::read(&fs::read(&path).unwrap())));
        count += 1;
    }
    assert!(count > 20);
}
