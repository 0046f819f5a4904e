//! The page: well-formed, all in one file, with what it should hold.

mod common;

use std::fs;
use std::path::PathBuf;

use command::files;
use command::reading::sheet::Sheet;
use command::showing::html::{page, section};
use command::showing::text::Totals;
use common::markup::{check, style};
use common::troubled::{guessed, warned};
use common::{empty_folder, run, tests_folder};

/// The page of some sheets with their names, which must be well-formed.
fn page_of_sheets(sheets: &[(String, Sheet)]) -> String {
    let mut totals = Totals::default();
    sheets.iter().for_each(|(_name, sheet)| totals.add(sheet));
    let numbered = sheets.iter().zip(1..);
    let sections: Vec<_> = numbered.map(|((name, sheet), number)| section(name, number, sheet)).collect();
    let page = page(&totals, &sections);
    check(&page).unwrap();
    page
}

/// The page of all scripts of some paths, which are below the tests' folder.
fn page_of(paths: &[&str]) -> String {
    let paths: Vec<PathBuf> = paths.iter().map(|path| tests_folder().join(path)).collect();
    let scripts = files::find(&paths).into_iter().map(Result::unwrap);
    let name = |path: &PathBuf| files::name(path.strip_prefix(tests_folder()).unwrap_or(path));
    let sheets = scripts.map(|path| (name(&path), Sheet::read(&files::read(&path).unwrap())));
    page_of_sheets(&sheets.collect::<Vec<_>>())
}

/// The page of one script.
fn page_of_script(script: &[u8]) -> String {
    page_of_sheets(&[("a.php".to_string(), Sheet::read(script))])
}

/// Each part must be in the page.
fn holds(page: &str, parts: &[&str]) {
    for part in parts {
        assert!(page.contains(part), "{} is not in {}", part, page);
    }
}

/// The page's markup without the style.
fn body(page: &str) -> &str {
    page.split("</style>").nth(1).unwrap()
}

#[test]
fn the_page_has_headings_and_text() {
    let page = page_of(&["sheets/tabs.php", "../../../sheets/faulty/closer-missing.php"]);
    holds(
        &page,
        &[
            "<!DOCTYPE html>\n<html lang=\"en\">\n",
            "<h1>Sheets</h1>\n<p>2 sheets, 4 blocks, 7 rows: 1 ok, 0 warned, 1 refused</p>\n",
            "<li><a href=\"#sheet-1\">sheets/tabs.php</a>: 3 blocks, 4 rows, ok</li>\n",
            "<h2 id=\"sheet-1\">sheets/tabs.php</h2>\n<p>Read to the end, 76 bytes: 3 blocks, 4 rows.</p>\n",
            "<h3>Block 1 at 2:6, label ROAD</h3>\n<p class=\"form\">indented by 1 tab, 3 rows, widest 4 cells</p>\n",
            " aria-label=\"Raised dots of sheets/tabs.php, block 1: \
             3 rows, 4 cells wide, 4 dots; the rows follow as text\" ",
            "d=\"M0.5 0.5h0M1.5 0.5h0M3.5 0.5h0M2.5 1.5h0\"",
        ],
    );
}

#[test]
fn the_rows_are_one_preformatted_text_with_numbers() {
    let page = page_of(&["sheets/tabs.php"]);
    let row = |number: &str, text: &str| {
        format!("<span class=\"row\"><span class=\"number\">{} |</span>{}\n</span>", number, text)
    };
    let rows = [row("1", "ab<span class=\"cell\">→</span>c"), row("2", "  d"), row("3", "")].concat();
    holds(&page, &[&format!("<pre class=\"rows\"><code>{}</code></pre>\n", rows)]);
    // A block without cells has neither a picture nor rows: of three blocks one has some.
    assert_eq!(body(&page).matches("<pre class=\"rows").count(), 1);
    // Numbers stand in line.
    let ten = page_of_script(format!("<?php <<<'A'\n{}A;", "o\n".repeat(10)).as_bytes());
    holds(&ten, &[&row(" 9", "o"), &row("10", "o"), "style=\"--digits:2\""]);
}

#[test]
fn what_scrolls_takes_the_focus() {
    let page = page_of(&["sheets/tabs.php"]);
    let region = "role=\"region\" tabindex=\"0\" aria-label=\"Picture and rows of sheets/tabs.php, block 1\"";
    holds(&page, &[&format!("<div class=\"block\" {} style", region)]);
    let scrolling: Vec<&str> = style(&page).into_iter().filter(|rule| rule.contains("overflow-x: auto")).collect();
    assert_eq!(scrolling.len(), 1);
    assert!(scrolling[0].starts_with(".block "), "{}", scrolling[0]);
    holds(&page, &[":focus-visible { outline: 3px solid var(--link);"]);
}

#[test]
fn a_letter_is_one_cell_whatever_its_bytes() {
    let page = page_of_script("<?php <<<'A'\nä€ e\u{301}漢o\n\x1Bo\nA;".as_bytes());
    holds(
        &page,
        &[
            "widest 6 cells",
            "<span class=\"cell\">ä</span><span class=\"cell\">€</span> <span class=\"cell\">e\u{301}</span>\
             <span class=\"cell\">漢</span>o\n",
            "<span class=\"sign\">\\x1B</span>o\n",
            "d=\"M0.5 0.5h0M1.5 0.5h0M3.5 0.5h0M4.5 0.5h0M5.5 0.5h0M0.5 1.5h0M1.5 1.5h0\"",
        ],
    );
}

#[test]
fn a_wide_block_has_strips_for_paper() {
    let row = ["o".repeat(60), "x".repeat(60), ".<".to_string()];
    let page = page_of_script(format!("<?php <<<'A'\n{}\n-\nA;", row.concat()).as_bytes());
    let strip = |order: usize, number: &str, name: &str, text: &str| {
        let name = if name.is_empty() { String::new() } else { format!(" data-name=\"{}\"", name) };
        format!("<span class=\"strip\" style=\"order:{}\" data-number=\"{} |\"{}>{}</span>", order, number, name, text)
    };
    let first = [
        strip(0, "1", "columns 1 to 60", &row[0]),
        strip(1, "1", "columns 61 to 120", &row[1]),
        strip(2, "1", "columns 121 to 122", ".&lt;"),
    ];
    let second = [strip(0, "2", "", "-"), strip(1, "2", "", ""), strip(2, "2", "", "")];
    holds(&page, &["<pre class=\"rows cut\">", &first.concat(), &second.concat()]);
    for view in ["0 0 60 2", "60 0 60 2", "120 0 2 2"] {
        holds(
            &page,
            &[&format!("viewBox=\"{}\" style=\"width:{}em;height:2em\"", view, view.split(' ').nth(2).unwrap())],
        );
    }
    assert_eq!(body(&page).matches("<div class=\"tile\" data-name").count(), 3);
    assert_eq!(body(&page).matches("<svg class=\"whole\"").count(), 1);
}

#[test]
fn a_block_that_has_room_on_paper_has_no_strips() {
    let block = |width: usize, rows: usize| {
        let rows = format!("{}\n", "o".repeat(width)).repeat(rows);
        page_of_script(format!("<?php <<<'A'\n{}A;", rows).as_bytes())
    };
    let fits = block(60, 80);
    for part in ["class=\"strip\"", "class=\"tile\"", "class=\"whole\""] {
        assert!(!body(&fits).contains(part), "{}", part);
    }
    let high = block(60, 81);
    assert!(!body(&high).contains("class=\"strip\""));
    holds(
        &high,
        &[
            "viewBox=\"0 0 60 80\"",
            "viewBox=\"0 80 60 1\"",
            "aria-label=\"columns 1 to 60, rows 81 to 81\"",
            "data-name=\"columns 1 to 60, rows 1 to 80\"",
        ],
    );
}

#[test]
fn the_page_marks_refusals() {
    let names = ["closer-missing", "closer-with-spaces-and-tabs", "label-with-letters", "remark-not-closed"];
    let paths = names.into_iter().chain(["row-with-less-indentation"]);
    let paths: Vec<String> = paths.map(|name| format!("../../../sheets/faulty/{}.php", name)).collect();
    let page = page_of(&paths.iter().map(String::as_str).collect::<Vec<_>>());
    holds(
        &page,
        &[
            "refused 1 at 11:10: unexpected end of file (see <a href=\"#trouble-1-1\">line 11</a>)</li>\n",
            "<div class=\"refused\" id=\"trouble-1-1\">\n\
             <h3>Refused 1 at <a href=\"#line-1-1\">17:1</a>: unexpected end of file</h3>\n\
             <p>Line 17, at its end:</p>\n\
             <pre class=\"line\" id=\"line-1-1\"><code><mark> </mark></code></pre>\n",
            "<p>Line 11, column 10:</p>\n<pre class=\"line\" id=\"opening-1-1\">\
             <code>$south = <mark>&lt;</mark>&lt;&lt;&#39;RELIEF&#39;</code></pre>\n",
            "<h3>Refused 4 at <a href=\"#line-2-1\">11:4</a>: invalid indentation of a closer</h3>\n",
            "<code>  →<mark>R</mark>ELIEF;</code></pre>\n",
            "<p>Before RELIEF stand 2 spaces and 1 tab.</p>\n",
            "<p>Line 9, column 3:</p>\n<pre class=\"line\" id=\"line-5-1\">\
             <code>  <mark>.</mark>.           o    o</code></pre>\n",
            "this row starts with 2 spaces, then &quot;.&quot;.</p>\n",
            "starts with its label as a word of its own, but in line 13 letters follow the label.</p>\n",
            "<p>The remark that opens at 9:16 is not closed: write */ where it ends.</p>\n<p>Line 9, column 16:</p>\n\
             <pre class=\"line\" id=\"opening-4-1\">\
             <code>$refuge = &#39;R&#39;; <mark>/</mark>* The refuge&#39;s ends are rounded:</code></pre>\n",
        ],
    );
}

#[test]
fn a_mark_keeps_the_arrow_of_a_tab() {
    let page = page_of(&["sheets/spaces-for-tabs.php"]);
    let script = fs::read(tests_folder().join("sheets/spaces-for-tabs.php")).unwrap();
    assert!(script.contains(&b'\t'));
    // The mark is a box around what it marks, on paper and in forced colours too; nothing is put over the character.
    let rules: Vec<&str> = style(&page).into_iter().filter(|rule| rule.starts_with("mark ")).collect();
    assert_eq!(rules.len(), 1);
    for part in ["background: none", "color: inherit", "border: 2px solid", "padding: 0 .2em"] {
        assert!(rules[0].contains(part), "{}", rules[0]);
    }
    let tab = page_of_script(b"<?php <<<'A'\n\to\n  A;");
    holds(&tab, &["<code><mark>→</mark>o</code></pre>\n"]);
}

#[test]
fn the_page_tells_warnings_in_words() {
    let page = page_of_sheets(&[("a.php".to_string(), warned())]);
    holds(
        &page,
        &[
            "1 sheet, 1 block, 2 rows, 1 heredoc: 0 ok, 1 warned, 0 refused",
            "(see <a href=\"#trouble-1-1\">line 2</a>, <a href=\"#trouble-1-2\">the script</a>)</li>\n",
            "<div class=\"warned\" id=\"trouble-1-1\">\n<h3>Warning at <a href=\"#line-1-1\">2:6</a></h3>\n\
             <p>Line 2, column 6:</p>\n<pre class=\"line\" id=\"line-1-1\">\
             <code>$a = <mark>&lt;</mark>&lt;&lt;&quot;RELIEF&quot;</code></pre>\n\
             <p>&lt;&lt;&lt;&quot;RELIEF&quot; opens no block. Write &lt;&lt;&lt;&#39;RELIEF&#39;.</p>\n</div>\n",
            "<div class=\"warned\" id=\"trouble-1-2\">\n<h3>Warning at 1:1</h3>\n\
             <p>the lines end in CR. Use LF.</p>\n</div>\n",
            "<p class=\"heredoc\">Heredoc at 6:6, label EOD: lines 6 to 9, not shown</p>\n",
        ],
    );
    // A warning's border differs from a refusal's by its form.
    let double = style(&page).into_iter().any(|rule| rule.starts_with(".warned ") && rule.contains("style: double"));
    assert!(double);
}

#[test]
fn the_page_says_what_is_a_guess() {
    let page = page_of_sheets(&[("a.php".to_string(), guessed())]);
    holds(
        &page,
        &[
            "<h3>Block 1 at 2:6, label RELIEF (a guess)</h3>\n",
            "label EOD: lines 6 to 9, not shown (a guess)</p>\n",
            "(see <a href=\"#trouble-1-1\">line 1</a>, <a href=\"#trouble-1-2\">line 1</a>)</li>\n",
            "<h3>Refused 2 at <a href=\"#line-1-1\">1:12</a>: invalid unicode escape</h3>\n",
            "<h3>Refused 2 at <a href=\"#line-1-2\">1:12</a>: invalid unicode escape (a guess)</h3>\n",
        ],
    );
}

#[test]
fn the_page_has_rows_that_start_with_the_label() {
    let page = page_of(&["sheets/letters-behind-label.php"]);
    holds(
        &page,
        &[
            ">1 |</span>o\n</span><span class=\"row\"><span class=\"number\">2 |</span>East\n</span>\
             </code></pre>\n</div>\n\
             <h3>Block 2 at 6:6, label ROW</h3>\n",
            ">3 |</span>ROW_;\n</span>",
            ">4 |</span>ROW<span class=\"cell\">ä</span>\n</span></code></pre>\n",
            "</a>: 4 blocks, 7 rows, ok</li>\n",
        ],
    );
}

#[test]
fn the_page_has_remarks_between_blocks() {
    let page = page_of(&["sheets/remark-forms.php", "../../../sheets/remarks.php"]);
    let note = |place: &str, text: &str| {
        format!(
            "<aside role=\"note\" class=\"remark\">\n<p>Remark at {}</p>\n\
             <pre class=\"line\"><code>{}</code></pre>\n</aside>\n",
            place, text
        )
    };
    let block = "<h3>Block 1 at 3:28, label A</h3>\n<p class=\"form\">not indented, 1 row, widest 5 cells</p>\n";
    holds(
        &page,
        &[
            "</a>: 1 block, 1 row, 4 remarks, ok</li>\n",
            &(note("1:7", "/*→a\n \\x1B[1mb\n*/") + &note("3:11", "/* in */") + block),
            &format!(
                ">1 |</span># row\n</span></code></pre>\n</div>\n{}{}</section>\n",
                note("5:5", "// end"),
                note("6:1", "#")
            ),
            &note("3:1", "// Weaver&#39;s Yard: walked in May, the pump&#39;s basin added in June."),
            &note(
                "19:1",
                "/*\n * The basin: &quot;as built&quot;, says the mason.\n * Neither a quote (&quot;) nor a ?&gt; \
                 ends this remark,\n * and &lt;&lt;&lt;&#39;RELIEF&#39; opens no block in it.\n */",
            ),
        ],
    );
    assert_eq!(page.matches("<aside").count(), 11);
    // Long remarks and lines are wrapped.
    assert!(style(&page).into_iter().any(|rule| rule.starts_with(".line ") && rule.contains("white-space: pre-wrap")));
}

#[test]
fn names_and_rows_are_escaped() {
    let script = fs::read(tests_folder().join("sheets/many/tags.php")).unwrap();
    let page = page_of_sheets(&[("<b> & \"c\"/it's <i>.php".to_string(), Sheet::read(&script))]);
    holds(
        &page,
        &[
            ">1 |</span>&lt;script&gt;alert(&quot;1&quot;)&lt;/script&gt; &amp; &#39;x&#39;\n</span>",
            "&lt;b&gt; &amp; &quot;c&quot;/it&#39;s &lt;i&gt;.php</h2>",
            "aria-label=\"Picture and rows of &lt;b&gt; &amp; &quot;c&quot;/it&#39;s &lt;i&gt;.php, block 1\"",
        ],
    );
}

#[test]
fn the_page_needs_nothing_else() {
    let page = page_of(&["sheets", "../../../sheets"]);
    for part in ["<script", "://", "url(", "@import", "src=", "<link", " on"] {
        let found = body(&page).split('<').filter(|tag| format!("<{}", tag.split('>').next().unwrap()).contains(part));
        assert_eq!(found.count(), 0, "{} is in a tag", part);
    }
    assert!(!page.contains("url(") && !page.contains("@import") && !page.contains("://"));
}

#[test]
fn each_character_that_is_no_blank_is_a_dot() {
    for name in ["street-crossing", "station-forecourt", "tabs-before-closer", "street-names", "remarks"] {
        let sheet = format!("../../../sheets/{}", name);
        let page = page_of(&[&format!("{}.php", sheet)]);
        // What PHP prints of the blocks.
        let relief = fs::read_to_string(tests_folder().join(format!("{}.relief", sheet))).unwrap();
        let raised = relief.chars().filter(|letter| !" \t\n".contains(*letter)).count();
        assert_eq!(page.matches("h0").count(), raised, "{}", name);
    }
}

/// The page that the command writes for some words, and its status.
fn written(name: &str, words: &[&str]) -> (String, Option<i32>) {
    let file = empty_folder(name).join("page.html");
    let status = run(&[&["--html", file.to_str().unwrap()], words].concat()).status;
    (fs::read_to_string(file).expect("a page"), status)
}

#[test]
fn the_command_writes_the_page() {
    assert_eq!(written("one", &["sheets/tabs.php"]), (page_of(&["sheets/tabs.php"]), Some(0)));
    let many = (page_of(&["sheets"]), Some(1));
    assert_eq!(written("many", &["sheets"]), many);
    assert_eq!(written("several", &["-j", "5", "sheets"]), many);
}

#[test]
fn a_page_that_cannot_be_written_is_told() {
    let got = run(&["--html", "nowhere/page.html", "sheets/tabs.php"]);
    assert_eq!(got.status, Some(2));
    assert!(got.errors.starts_with("puretakoi: can't write nowhere/page.html: "), "{}", got.errors);
}

#[test]
fn a_block_of_many_rows_and_columns_does_not_swell_the_page() {
    // One row of 30,000 cells and 30,000 without one: 500 strips of each row would be 15 million parts.
    let script = format!("<?php <<<'A'\n{}\n{}A;", "o".repeat(30_000), "\n".repeat(30_000));
    let page = page_of_script(script.as_bytes());
    assert!(page.len() < 4_000_000, "{} bytes", page.len());
    // The tiles are those of the first row.
    assert_eq!(body(&page).matches("<div class=\"tile\" data-name").count(), 500);
    assert!(!body(&page).contains("class=\"strip\""));
}
