//! `cut`: the literal or the comment at a place, byte for byte; what is told where there is none; every byte of the
//! sample sheets against the rows that are stored.

mod common;

use std::fs;
use std::ops::Range;
use std::path::Path;

use cases::pieces;
use cases::random::Random;
use command::commands::cut::cut;
use command::commands::pointed::Pointed;
use command::reading::form::with_lf_lines;
use command::reading::sheet::Sheet;
use common::{call, call_for_bytes, call_on, empty_folder, sample, scripts, tests_folder, word, Run};
use puretakoi::{kinds, Choices, Octal, Reading, Token, TokenList};

/// A literal of each kind and a comment of each form, with bytes that are no characters.
const LITERALS: &[u8] = b"<?php 'it\\'s\r\n' . \"\\x41\xFF\0\" . 1_0.5e3 . 0x1F /* \"\n' */ . 'z' # it's\r\n, 7// end";

/// What `cut` must write of a place of a script on standard input.
fn check(script: &[u8], place: &str, want: &[u8]) {
    let got = call_for_bytes(&["cut", "-", place], script);
    assert_eq!(got, (Some(0), want.to_vec(), String::new()), "{}", place);
}

/// What must be told of a place where no literal and no comment is.
fn check_none(script: &[u8], place: &str, want: &str) {
    let want = format!("puretakoi: standard input has no literal and no comment at {}\n", want);
    let got = call_for_bytes(&["cut", "-", place], script);
    assert_eq!(got, (Some(2), Vec::new(), want), "{}", place);
}

/// What must be told of a place that is not read.
fn check_unread(script: &[u8], place: &str, want: &str) {
    let want = format!("puretakoi: nothing can be cut at {}\n", want);
    let got = call_for_bytes(&["cut", "-", place], script);
    assert_eq!(got, (Some(1), Vec::new(), want), "{}", place);
}

/// At the first byte and the last; escapes, quotes, breaks and underscores as they stand, and nothing added.
#[test]
fn bytes_as_they_stand() {
    for (first, last, want) in [
        (6, 14, &b"'it\\'s\r\n'"[..]),
        (18, 25, b"\"\\x41\xFF\0\""),
        (29, 35, b"1_0.5e3"),
        (39, 42, b"0x1F"),
        (44, 52, b"/* \"\n' */"),
        (56, 58, b"'z'"),
        (60, 66, b"# it's\r"),
        (70, 70, b"7"),
        (71, 76, b"// end"),
    ] {
        for byte in first..=last {
            check(LITERALS, &byte.to_string(), want);
        }
    }
    check(LITERALS, "1:7", b"'it\\'s\r\n'");
    check(LITERALS, "2:1", b"'it\\'s\r\n'");
    check(b"<?php f('');", "1:9", b"''");
    check(b"<?php \"{$a['k']}\";", "1:12", b"'k'");
}

/// After its end a literal has no byte, even where it is the last token before the place.
#[test]
fn what_no_token_has() {
    let script = b"<?php 'kerb' . 12;\n";
    let nearest = "that no token has: name a place in one, as 1:7 before it or 1:16 after it";
    check_none(script, "1:13", &format!("1:13, byte 12, but a space {}", nearest));
    check_none(script, "1:14", &format!("1:14, byte 13, but \".\" {}", nearest));
    let last = "name a place in one, as 1:16 before it";
    check_none(script, "17", &format!("1:18, byte 17, but \";\" that no token has: {}", last));
    check_none(script, "18", &format!("1:19, byte 18, but a line break that no token has: {}", last));
    check_none(script, "2:1", &format!("2:1, byte 19, but the end of the script: {}", last));
    let first = "name a place in one, as 1:7 after it";
    check_none(script, "0", &format!("1:1, byte 0, but token 1 (full open tag): {}", first));
    let none = "none is read in the script, so name another script";
    check_none(b"", "0", &format!("1:1, byte 0, but the end of the script: {}", none));
    check_none(b"<?php $a;", "1:8", &format!("1:8, byte 7, but \"a\" that no token has: {}", none));
}

/// Where a script has no literal, a text of several tokens is still there to be taken.
#[test]
fn a_text_in_a_script_without_literals() {
    let by_hand = "none is read in the script, so take it by hand: puretakoi at tells where its parts end";
    let string = b"<?php \"a $b[0]\" . $c;";
    for (byte, what) in [
        (6, "token 2 (string part) in a string with an interpolation"),
        (10, "token 3 (variable) in a string with an interpolation"),
        (12, "\"0\" that no token has"),
        (14, "token 4 (double quote) in a string with an interpolation"),
    ] {
        check_none(string, &byte.to_string(), &format!("1:{}, byte {}, but {}: {}", byte + 1, byte, what, by_hand));
    }
    let other = "1:16, byte 15, but a space that no token has: none is read in the script, so name another script";
    check_none(string, "15", other);
    let command = format!("1:8, byte 7, but token 2 (string part) in a command: {}", by_hand);
    check_none(b"<?php `a`;", "7", &command);
    let row = format!("2:1, byte 13, but token 2 (string part) in the nowdoc block A: {}", by_hand);
    check_none(b"<?php <<<'A'\no\nA;", "2:1", &row);
    let name = format!("1:10, byte 9, but token 4 (identifier) in an interpolation: {}", by_hand);
    check_none(b"<?php \"${a}\";", "9", &name);
}

/// Text outside tags, a string with an interpolation, a command, a heredoc and a block are no literals.
#[test]
fn other_texts() {
    let script = b"a'b'<?php \"c $d[0] ${e}\" . `f` . <<<G\nh $i\n G . <<<'J'\nk\nJ . 1;";
    let told = |place: &str, what: &str| check_none(script, place, what);
    let after = "name a place in one, as 5:5 after it";
    told("1", &format!("1:2, byte 1, but token 1 (inline text): {}", after));
    for (byte, what) in [
        (10, "token 3 (string part) in a string with an interpolation"),
        (13, "token 4 (variable) in a string with an interpolation"),
        (20, "token 6 (dollar and left brace) in a string with an interpolation"),
        (21, "token 7 (identifier) in an interpolation"),
        (23, "token 8 (double quote) in a string with an interpolation"),
        (28, "token 9 (string part) in a command"),
    ] {
        told(&byte.to_string(), &format!("1:{}, byte {}, but {}: {}", byte + 1, byte, what, after));
    }
    for (place, what) in [
        ("2:1, byte 38", "token 11 (string part) in the heredoc G"),
        ("2:5, byte 42", "a line break that is left out in the heredoc G"),
        ("3:1, byte 43", "the indentation of a closing line in the heredoc G"),
        ("3:2, byte 44", "token 13 (end of text block, indented by spaces) in the heredoc G"),
        ("4:1, byte 55", "token 14 (string part) in the nowdoc block J"),
        ("5:1, byte 57", "token 15 (end of text block, not indented) in the nowdoc block J"),
    ] {
        told(place.split(',').next().unwrap(), &format!("{}, but {}: {}", place, what, after));
    }
}

/// What stands before a refusal is cut; from there on nothing is, in the words of `check`.
#[test]
fn a_refused_script() {
    let script = b"<?php 'a' /* b */ 'kerb";
    check(script, "1:8", b"'a'");
    check(script, "1:17", b"/* b */");
    let space = "1:18, byte 17, but a space that no token has: name a place in one, as 1:11 before it";
    check_none(script, "1:18", space);
    let why = "nothing is read from 1:19 on: refused 1: something is still open where the script ends. Close the \
               string, the text block, the command or the comment. The single-quoted string that opens at 1:19 is \
               not closed: the quote at its end is missing, or a quote before it is one too many.";
    for (place, byte) in [("1:19", 18), ("1:21", 20), ("1:24", 23)] {
        check_unread(script, place, &format!("{}, byte {} of standard input: {}", place, byte, why));
    }
    let octal = b"<?php 'a' . \"\\777\" . 'b'";
    check(octal, "1:7", b"'a'");
    let why = "1:22, byte 21 of standard input: nothing is read from 1:13 on: refused 3: an octal escape is over 377. \
               Write at most 377, or choose octals as the manual has them: the low eight bits are then the byte.";
    let (place, manual) =
        (" It stands in the double-quoted string that opens at 1:13.", " With --octal manual \\777 is byte 255.");
    for (option, told) in [("--octal=rust", place), ("--ported", "")] {
        let got = call_for_bytes(&["cut", "--octal", "rust", option, "-", "1:22"], octal);
        let want = format!("puretakoi: nothing can be cut at {}{}{}\n", why, told, manual);
        assert_eq!(got, (Some(1), Vec::new(), want));
    }
}

/// Without --octal rust what stands after an octal escape over 377 is cut, and the string that has it.
#[test]
fn an_octal_escape_over_377() {
    let script = b"<?php 'a' . \"\\777\" . 'b'";
    for words in
        [&["cut"][..], &["cut", "--octal", "manual"], &["cut", "--ported"], &["cut", "--octal=manual", "--ported"]]
    {
        for (place, want) in [("1:22", &b"'b'"[..]), ("1:15", b"\"\\777\"")] {
            let got = call_for_bytes(&[words, &["-", place]].concat(), script);
            assert_eq!(got, (Some(0), want.to_vec(), String::new()), "{:?} at {}", words, place);
        }
    }
}

#[test]
fn a_script_that_is_too_large() {
    let path = empty_folder("cut-size").join("large.php");
    let mut script = b"<?php 'a';".to_vec();
    script.resize(65_537, b' ');
    fs::write(&path, &script).unwrap();
    let want = format!(
        "puretakoi: nothing can be cut at 1:7, byte 6 of {}: refused 11: there are more than 65,536 bytes of script \
         or pool, or more than 65,537 tokens. Divide the script into smaller ones.\n",
        path.display()
    );
    assert_eq!(call(&["cut", word(&path), "6"]), Run { status: Some(1), out: String::new(), errors: want });
}

/// The library takes the label for a string, where PHP opens a block: the bytes are written, and the warning told. How
/// `view` reads on is not, for `cut` does not read so.
#[test]
fn what_php_reads_otherwise() {
    let script = b"<?php 'x' . <<< 'A'\no\nA;\n";
    check(script, "1:8", b"'x'");
    let got = call_for_bytes(&["cut", "-", "1:18"], script);
    let warning = "puretakoi: warning: standard input: PHP reads something else at 1:13 (opens-nothing): <<< 'A' \
                   opens no block; PHP opens a nowdoc block. Take away the blanks before the label.\n";
    assert_eq!(got, (Some(3), b"'A'".to_vec(), warning.to_string()));
    let got = call_for_bytes(&["cut", "--ported", "-", "1:18"], script);
    assert_eq!(got, (Some(0), b"'A'".to_vec(), String::new()));
    let halted = b"<?php __halt_compiler(); 'a'";
    let warning = "puretakoi: warning: standard input: PHP reads something else at 1:7 (halt-compiler): PHP reads \
                   nothing behind __halt_compiler. Take it away, or move it, if blocks stand behind it.\n";
    assert_eq!(call_for_bytes(&["cut", "-", "26"], halted), (Some(3), b"'a'".to_vec(), warning.to_string()));
    let at = call_on(&["at", "-", "26"], halted).out;
    assert!(at.contains(" What follows is not read here either. Take it away"), "{}", at);
}

/// The warning may be the reason that nothing is there to cut, or that it is not read.
#[test]
fn what_php_reads_otherwise_where_nothing_is_cut() {
    let warning = "puretakoi: warning: standard input: PHP reads something else at 1:7 (opens-nothing): <<< 'A' opens \
                   no block; PHP opens a nowdoc block. Take away the blanks before the label.\n";
    let none = "puretakoi: standard input has no literal and no comment at 2:1, byte 14, but \"o\" that no token has: \
                name a place in one, as 1:11 before it\n";
    let block = b"<?php <<< 'A'\no\nA;\n";
    let got = call_for_bytes(&["cut", "-", "2:1"], block);
    assert_eq!(got, (Some(2), Vec::new(), [warning, none].concat()));
    let got = call_for_bytes(&["cut", "--ported", "-", "2:1"], block);
    assert_eq!(got, (Some(2), Vec::new(), none.to_string()));
    let (status, out, errors) = call_for_bytes(&["cut", "-", "2:4"], b"<?php <<< 'A'\nit's\nA;\n");
    let unread = "puretakoi: nothing can be cut at 2:4, byte 17 of standard input: nothing is read from 2:3 on: ";
    assert_eq!((status, out.len(), errors.lines().count()), (Some(1), 0, 2), "{}", errors);
    assert!(errors.starts_with(&[warning, unread].concat()), "{}", errors);
}

/// Lines that end in a CR alone are counted as `view` counts them, and are cut with their CR.
#[test]
fn lines_that_end_in_cr() {
    let (status, out, errors) = call_for_bytes(&["cut", "-", "3:1"], b"<?php\r'a\rb' . 1;\r");
    assert_eq!((status, out), (Some(3), b"'a\rb'".to_vec()));
    assert!(errors.starts_with("puretakoi: warning: standard input: PHP reads something else at 1:1 (cr-lines): "));
    assert_eq!(errors.lines().count(), 1);
}

/// In the ported reading a row that begins with the label closes the block, so that what follows is code.
#[test]
fn the_ported_reading() {
    let script = b"<?php <<<'A'\no\nAb 'c'\nA; 'd'";
    let row = "3:4, byte 18, but token 2 (string part) in the nowdoc block A: name a place in one, as 4:4 after it";
    check_none(script, "3:4", row);
    check(script, "4:5", b"'d'");
    let cut = |place: &str| call_for_bytes(&["cut", "--ported", "-", place], script);
    assert_eq!((cut("3:4").1, cut("4:5").1), (b"'c'".to_vec(), b"'d'".to_vec()));
}

#[test]
fn what_cannot_be_read() {
    for path in ["nowhere.php", "/"] {
        let got = call(&["cut", path, "1:1"]);
        assert_eq!((got.out.as_str(), got.status, got.errors.lines().count()), ("", Some(2), 1));
        assert!(got.errors.starts_with(&format!("puretakoi: can't read {}: ", path)), "{}", got.errors);
    }
    let got = call_for_bytes(&["cut", "-", "9:1"], b"<?php 'a';");
    let past =
        "puretakoi: standard input has 1 line, 10 bytes, and 9:1 is past its end: name a place up to 1:11, byte 10\n";
    assert_eq!(got, (Some(2), Vec::new(), past.to_string()));
}

/// The literals and comments of a script by its stored rows, which the Rust made: from position to end.
fn stored_literals(script: &Path) -> Vec<(u32, Range<usize>)> {
    let rows = fs::read_to_string(script.with_extension("rows")).unwrap();
    let numbers = rows.lines().map(|row| row.split(' ').map_while(|word| word.parse().ok()).collect::<Vec<usize>>());
    let literals = numbers.filter(|row| row.len() == 7 && row[0] >= kinds::LITERAL_SINGLE_QUOTED_STRING as usize);
    literals.map(|row| (row[0] as u32, row[3]..row[6])).collect()
}

/// A literal that is read alone is the same token: its kind and its value.
fn check_alone(token: &Token, written: &[u8], octals: Octal) {
    let alone = TokenList::new(&[b"<?php ", written].concat(), octals);
    let read = alone.get(1).unwrap().token;
    assert_eq!((alone.len(), read.kind, &read.value), (2, token.kind, &token.value), "{:?}", written);
    assert_eq!((read.span.position, read.end), (6, Some(6 + written.len() as u32)), "{:?}", written);
}

/// At every byte of a script: the bytes are those of the token at the place, from its position up to its end, or there
/// are none, and why is told. What is cut, once for each literal.
fn check_bytes(script: &[u8], choices: impl Into<Choices>) -> Vec<(u32, Range<usize>)> {
    let choices = choices.into();
    let sheet = (choices.nowdocs == Reading::Sheet).then(|| Sheet::read_by(script, choices.octals));
    let lines = sheet.as_ref().and_then(|_| with_lf_lines(script)).unwrap_or_else(|| script.to_vec());
    let tokens = TokenList::new(&lines, choices);
    let mut all = Vec::new();
    for byte in 0..=lines.len() {
        let pointed = Pointed::new(&lines, &tokens, sheet.as_ref(), byte);
        let has_it = |token: &Token| (token.span.position as usize..token.end.unwrap_or(0) as usize).contains(&byte);
        let token = tokens.iter().map(|listed| listed.token).filter(|token| has_it(token) && token.kind >= 17).last();
        match (cut("a.php", &pointed), token) {
            (Ok(bytes), Some(token)) => {
                assert_eq!(bytes, token.span.position as usize..token.end.unwrap() as usize);
                check_alone(&token, &lines[bytes.clone()], choices.octals);
                all.push((token.kind, bytes));
            }
            (Err(fault), None) => {
                let place = format!("{}, byte {}", pointed.span, byte);
                let is_unread = tokens.end().is_err() && byte >= tokens.session().position() as usize;
                let (line, status) = match is_unread {
                    true => (format!("nothing can be cut at {} of a.php: ", place), 1),
                    false => (format!("a.php has no literal and no comment at {}, but ", place), 2),
                };
                let has_control = fault.line.chars().any(char::is_control);
                assert!(fault.line.starts_with(&line) && !has_control, "{}", fault.line);
                assert_eq!(fault.status, status, "{}", fault.line);
            }
            (cut, token) => panic!("byte {}: {:?} for {:?}", byte, cut, token),
        }
    }
    let count = all.len();
    all.dedup();
    assert_eq!(count, all.iter().map(|(_kind, bytes)| bytes.len()).sum::<usize>());
    all
}

#[test]
fn every_byte_of_every_sample() {
    let mut count = [0; 22];
    for path in [sample(""), sample("faulty")].into_iter().flat_map(scripts) {
        let script = fs::read(&path).unwrap();
        assert_eq!(check_bytes(&script, Reading::Ported), stored_literals(&path), "{:?}", path);
        check_bytes(&script, Reading::Sheet).iter().for_each(|(kind, _bytes)| count[*kind as usize] += 1);
    }
    assert!([17, 18, 19, 21].iter().all(|kind| count[*kind] > 0), "{:?}", count);
    let own = scripts(tests_folder().join("sheets"));
    let cut: usize = own.iter().map(|path| check_bytes(&fs::read(path).unwrap(), Reading::Sheet).len()).sum();
    assert!(own.len() > 20 && cut > 5, "{} of {}", cut, own.len());
}

/// No bytes end it, what is cut is the token there, and what is told has no control.
#[test]
fn wild_bytes() {
    let mut random = Random::new(13);
    let mut count = 0;
    for _ in 0..400 {
        let mut script = [pieces::script(&mut random), pieces::script(&mut random)].concat();
        let place = random.below(script.len() + 1);
        script.insert(place, random.below(256) as u8);
        for nowdocs in [Reading::Ported, Reading::Sheet] {
            for octals in [Octal::Rust, Octal::Manual] {
                count += check_bytes(&script, Choices { nowdocs, octals }).len();
            }
        }
    }
    assert!(count > 800, "{}", count);
}

/// The program itself on the good sheets: at the first and the last byte of each literal, and on both sides of it.
#[test]
fn sheets_as_the_program_cuts_them() {
    for name in ["remarks", "station-forecourt", "tabs-before-closer"] {
        let path = sample(&format!("{}.php", name));
        let (script, literals) = (fs::read(&path).unwrap(), stored_literals(&path));
        for (_kind, bytes) in &literals {
            for place in [bytes.start - 1, bytes.start, bytes.end - 1, bytes.end] {
                let there = literals.iter().find(|(_kind, bytes)| bytes.contains(&place));
                let want = there.map_or(&b""[..], |(_kind, bytes)| &script[bytes.clone()]);
                let (status, out, errors) = call_for_bytes(&["cut", word(&path), &place.to_string()], b"");
                assert_eq!((out, status), (want.to_vec(), Some(if there.is_some() { 0 } else { 2 })), "{}", errors);
                assert_eq!(errors.lines().count(), usize::from(there.is_none()));
            }
        }
    }
}
