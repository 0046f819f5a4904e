//! A sheet with its blocks in braille, as a whole.

mod common;

use command::reading::sheet::Sheet;
use command::showing::braille::whole;
use command::showing::text;

const SCRIPT: &str = "<?php // a\n<<<'A'\nooo\n\n\n\n o\nA;";

#[test]
fn a_picture_stands_in_place_of_the_rows() {
    // Rows 1 to 4: dots 1 and 4, then dot 1; row 5: dot 4.
    let want = "a.php\n\nRemark at 1:7\n  |// a\n\n\
                Block 1 at 2:1, label A: not indented, 5 rows, widest 3 cells\n\u{2809}\u{2801}\n\u{2808}\n\n\
                Read to the end, 30 bytes: 1 block, 5 rows, 1 remark.\n";
    assert_eq!(whole("a.php", &Sheet::read(SCRIPT.as_bytes()), None), want);
}

#[test]
fn a_picture_is_cut_to_the_columns() {
    let script = format!("<?php <<<'A'\n{}\nA;", "o".repeat(25));
    let shown = whole("a.php", &Sheet::read(script.as_bytes()), Some(10));
    let strips = "widest 25 cells\ncolumns 1 to 20\n⠉⠉⠉⠉⠉⠉⠉⠉⠉⠉\ncolumns 21 to 25\n⠉⠉⠁\n\n";
    assert!(shown.contains(strips), "{}", shown);
    assert!(whole("a.php", &Sheet::read(script.as_bytes()), Some(13)).contains("cells\n⠉⠉⠉⠉⠉⠉⠉⠉⠉⠉⠉⠉⠁\n\n"));
}

#[test]
fn all_else_is_as_in_text() {
    let sheet = Sheet::read(b"<?php\n/* a */ <<<'A'\nA;\n$b = \"");
    assert_eq!(whole("a.php", &sheet, Some(30)), text::whole("a.php", &sheet, Some(30)));
}
