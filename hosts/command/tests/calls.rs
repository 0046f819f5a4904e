//! How the program is called: verbs, options, what is wrong with a call, help and version.

mod common;

use common::{call, call_on, empty_folder, run, word};

const VIEW: &str = "usage: puretakoi view [--text|--braille|--json] [--html FILE] [--brf FILE] [-w COLUMNS] [-j N] \
                    [--refused-first] [--strict] [--octal rust|manual] PATH..";
const CHECK: &str = "usage: puretakoi check [--strict] [--json] [-j N] [--octal rust|manual] PATH..";
const AT: &str = "usage: puretakoi at [--ported] [--json] [-w COLUMNS] [--octal rust|manual] FILE LINE:COLUMN|BYTE";
const CUT: &str = "usage: puretakoi cut [--ported] [--octal rust|manual] FILE LINE:COLUMN|BYTE";
const TOKENS: &str = "usage: puretakoi tokens [--sheet] [--json|--numbers] [-p PIECE] [--octal rust|manual] [FILE]";
const RECORDS: &str = "usage: puretakoi records [--sheet|--print] [--octal rust|manual] FILE..";
const BYTES: &str = "usage: puretakoi bytes [TEXT|0xNN]..";
const ALL: &str = "usage: puretakoi VERB [OPTION..] PATH..";

const FILE: &str = "wants the path of a file to write behind it";

/// Each call must be told as wrong in one line, with this fault and the usage.
fn check_wrong(words: &[&str], fault: &str, usage: &str) {
    let got = call(words);
    assert_eq!(got.errors, format!("puretakoi: {}; {}\n", fault, usage));
    assert_eq!((got.out.as_str(), got.status), ("", Some(2)), "{:?}", words);
}

#[test]
fn a_wrong_verb() {
    check_wrong(&[], "no verb is named: write view, check, at, cut, tokens or records", ALL);
    for word in ["sheets", "--strict", "View", "-", "--"] {
        check_wrong(&[word], &format!("{} is no verb: write view, check, at, cut, tokens or records", word), ALL);
    }
}

#[test]
fn a_wrong_number() {
    for (words, option, numbers) in [
        (&["view", "-j", "0", "sheets"][..], "-j", "1 to 64"),
        (&["view", "-j", "65", "sheets"], "-j", "1 to 64"),
        (&["view", "-j", "sheets"], "-j", "1 to 64"),
        (&["view", "--jobs=+2", "sheets"], "--jobs", "1 to 64"),
        (&["view", "--jobs=", "sheets"], "--jobs", "1 to 64"),
        (&["view", "-w", "9", "sheets"], "-w", "10 to 100000"),
        (&["view", "--columns", "100001", "sheets"], "--columns", "10 to 100000"),
        (&["view", "-w", "99999999999999999999999999", "sheets"], "-w", "10 to 100000"),
        (&["view", "sheets", "-w"], "-w", "10 to 100000"),
    ] {
        check_wrong(words, &format!("{} wants a number from {} behind it", option, numbers), VIEW);
    }
    for words in [&["tokens", "-p"][..], &["tokens", "--piece=0"], &["tokens", "-p", "-1"], &["tokens", "-p", "3x"]] {
        let option = words[1].split('=').next().unwrap();
        check_wrong(words, &format!("{} wants a number from 1 on behind it", option), TOKENS);
    }
}

/// A wrong word behind --octal, none, and one beside --print, which reads no script.
#[test]
fn a_wrong_octal() {
    let verbs = [("view", VIEW), ("check", CHECK), ("at", AT), ("cut", CUT), ("tokens", TOKENS), ("records", RECORDS)];
    for (verb, usage) in verbs {
        for word in ["php", "Rust", "", "rust,manual", "2"] {
            check_wrong(&[verb, "--octal", word, "sheets/tabs.php"], "--octal wants rust or manual behind it", usage);
            let sign = format!("--octal={}", word);
            check_wrong(&[verb, &sign, "sheets/tabs.php"], "--octal wants rust or manual behind it", usage);
        }
        check_wrong(&[verb, "sheets/tabs.php", "--octal"], "--octal wants rust or manual behind it", usage);
    }
    let both = "--print and --octal don't go together: give one of them";
    check_wrong(&["records", "--print", "--octal", "manual", "a.records"], both, RECORDS);
}

#[test]
fn a_wrong_file() {
    for option in ["--html", "--brf"] {
        check_wrong(&["view", "sheets", option], &format!("{} {}", option, FILE), VIEW);
        for script in ["nowhere/page.php", "nowhere/page.PHP"] {
            let fault = format!("{} {}, and not a script's", option, FILE);
            check_wrong(&["view", option, script, "sheets"], &fault, VIEW);
        }
        for path in ["-w", "--"] {
            let fault = format!("{} {}; one that begins with - is written ./{}", option, FILE, path);
            check_wrong(&["view", option, path, "sheets"], &fault, VIEW);
            check_wrong(&["view", &format!("{}={}", option, path), "sheets"], &fault, VIEW);
        }
        let fault = format!("two things would go to standard output: name a file behind {}", option);
        check_wrong(&["view", option, "-", "--json", "sheets"], &fault, VIEW);
    }
    let fault = "--html and --brf would write one file: name another path behind one of them";
    check_wrong(&["view", "--html", "nowhere", "--brf", "./nowhere", "sheets"], fault, VIEW);
    check_wrong(&["view", "--html", "-", "--brf", "-", "sheets"], fault, VIEW);
}

#[test]
fn other_wrong_calls() {
    check_wrong(&["view"], "no script is named", VIEW);
    check_wrong(&["view", "--"], "no script is named", VIEW);
    check_wrong(&["view", "--rows", "sheets"], "--rows is no option", VIEW);
    check_wrong(&["view", "-w20", "sheets"], "-w20 is no option", VIEW);
    check_wrong(&["view", "--strict=yes", "sheets"], "--strict takes nothing behind it", VIEW);
    let both = "--text and --json don't go together: give one of them";
    check_wrong(&["view", "--text", "--json", "sheets"], both, VIEW);
    let twice = "- is named twice, and standard input can be read once: name it once";
    check_wrong(&["view", "-", "--", "-"], twice, VIEW);
    check_wrong(&["check"], "no script is named", CHECK);
    check_wrong(&["check", "-", "-"], twice, CHECK);
    check_wrong(&["check", "--html", "page", "sheets"], "--html is no option", CHECK);
    let several = "more than one script is named: name one, or none for standard input";
    check_wrong(&["tokens", "a", "b"], several, TOKENS);
    let both = "--json and --numbers don't go together: give one of them";
    check_wrong(&["tokens", "--numbers", "--json"], both, TOKENS);
    check_wrong(&["records"], "no file is named", RECORDS);
    let place = "record files stand beside their script, and standard input has no place: name a file";
    check_wrong(&["records", "-"], place, RECORDS);
    check_wrong(&["records", "--print", "a", "b"], "more than one file is named behind --print: name one", RECORDS);
}

#[test]
fn wrong_places() {
    let form = "write LINE:COLUMN, both from 1, or a byte's position, from 0";
    for (verb, usage) in [("at", AT), ("cut", CUT)] {
        check_wrong(&[verb], "no script is named", usage);
        check_wrong(&[verb, "sheets/tabs.php"], &format!("no place is named after the script: {}", form), usage);
        for word in ["x", "", ":", "1:", ":1", "0:1", "1:0", "1:1:1", "+1", "1 ", "1.5", "2:+1"] {
            check_wrong(&[verb, "sheets/tabs.php", word], &format!("{} is no place: {}", word, form), usage);
        }
        let more = "more than a script and a place are named: name one of each";
        check_wrong(&[verb, "sheets/tabs.php", "1", "2"], more, usage);
        check_wrong(&[verb, "--sheet", "sheets/tabs.php", "1"], "--sheet is no option", usage);
        check_wrong(&[verb, "sheets/tabs.php", "-1"], "-1 is no option", usage);
        let twice = "- is named twice, and standard input can be read once: name it once";
        check_wrong(&[verb, "-", "-"], twice, usage);
    }
    check_wrong(&["at", "-w", "9", "sheets/tabs.php", "1"], "-w wants a number from 10 to 100000 behind it", AT);
    check_wrong(&["cut", "--json", "sheets/tabs.php", "1"], "--json is no option", CUT);
}

/// Words that name no byte, an option that is none, and two dashes, which are two bytes.
#[test]
fn wrong_bytes() {
    check_wrong(&["bytes", ""], "an empty word names no byte: write a text, or a byte as in 0x7F", BYTES);
    check_wrong(&["bytes", "_", ""], "an empty word names no byte: write a text, or a byte as in 0x7F", BYTES);
    for word in ["0x", "0x100", "0xG0", "0x+F", "0x7F ", "0Xé"] {
        let fault = format!("{} is no byte: write 0x00 to 0xFF, or a text that does not begin with 0x", word);
        check_wrong(&["bytes", word], &fault, BYTES);
    }
    for option in ["--json", "-1", "--octal"] {
        check_wrong(&["bytes", option], &format!("{} is no option", option), BYTES);
    }
    assert_eq!(call(&["bytes", "-", "--", "-"]).out, call(&["bytes", "0x2D", "0x2d"]).out);
}

#[test]
fn a_value_may_stand_behind_a_sign() {
    assert_eq!(run(&["--columns=20", "sheets/wide.php"]), run(&["-w", "20", "sheets/wide.php"]));
    assert_ne!(run(&["--columns=12", "sheets/wide.php"]), run(&["-w", "20", "sheets/wide.php"]));
    let page = empty_folder("sign").join("a=b.html");
    let got = run(&[&format!("--html={}", page.display()), "sheets/tabs.php"]);
    assert_eq!((got.status, page.exists()), (Some(0), true), "{}", got.errors);
}

#[test]
fn the_last_of_two_values_counts() {
    assert_eq!(run(&["-w", "12", "-w", "20", "sheets/wide.php"]), run(&["-w", "20", "sheets/wide.php"]));
}

#[test]
fn a_dash_is_standard_input() {
    let script = std::fs::read(common::tests_folder().join("sheets/tabs.php")).unwrap();
    let named = run(&["sheets/tabs.php"]).out.replace("sheets/tabs.php\n", "standard input\n");
    for words in [&["view", "-"][..], &["view", "--", "-"]] {
        let got = call_on(words, &script);
        assert_eq!((got.out.as_str(), got.status, got.errors.as_str()), (named.as_str(), Some(0), ""));
    }
    let summary = "1 sheet, 3 blocks, 4 rows: 1 ok, 0 warned, 0 refused\n";
    assert_eq!(call_on(&["check", "-"], &script).out, summary);
    let tokens = call(&["tokens", "sheets/tabs.php"]);
    for words in [&["tokens", "-"][..], &["tokens"]] {
        assert_eq!(call_on(words, &script), tokens);
    }
}

#[test]
fn a_path_may_begin_with_a_dash() {
    let got = run(&["--", "-w"]);
    assert!(got.errors.starts_with("puretakoi: can't read -w: "), "{}", got.errors);
    assert_eq!(got.status, Some(2));
}

#[test]
fn help_and_version_are_no_faults() {
    for (words, first) in [
        (&["--help"][..], ALL),
        (&["view", "--help"], VIEW),
        (&["check", "sheets", "--help"], CHECK),
        (&["at", "--help"], AT),
        (&["cut", "--help"], CUT),
        (&["tokens", "--help", "--rows"], TOKENS),
        (&["records", "--help"], RECORDS),
        (&["bytes", "--help"], BYTES),
        (&["--version"], "puretakoi 0.1.0"),
        (&["view", "--version"], "puretakoi 0.1.0"),
    ] {
        let got = call(words);
        assert_eq!(
            (got.status, got.errors.as_str(), got.out.lines().next()),
            (Some(0), "", Some(first)),
            "{:?}",
            words
        );
    }
    assert_eq!(call(&["--version"]).out, "puretakoi 0.1.0\n");
}

/// Every option of a verb's usage must be told in its help, and every verb in the help of all.
#[test]
fn help_tells_all() {
    for (verb, usage) in
        [("view", VIEW), ("check", CHECK), ("at", AT), ("cut", CUT), ("tokens", TOKENS), ("records", RECORDS)]
            .into_iter()
            .chain([("bytes", BYTES)])
    {
        let help = call(&[verb, "--help"]).out;
        let words = usage.split(['[', ']', '|', ' ']).filter(|word| word.starts_with('-'));
        for option in words {
            let is_told = help.lines().any(|line| line.starts_with(&format!("  {}", option)));
            assert!(is_told, "{} of {}: {}", option, verb, help);
        }
        assert!(help.contains("Status: 0 "), "{}", help);
        assert!(call(&["--help"]).out.contains(&format!("\n  {} ", verb)));
    }
}

#[test]
fn a_script_of_standard_input_is_not_written_over() {
    let page = empty_folder("input").join("sheet.txt");
    std::fs::write(&page, "<?php <<<'A'\no\nA;\n").unwrap();
    let mut program = std::process::Command::new(env!("CARGO_BIN_EXE_puretakoi"));
    let input = std::fs::File::open(&page).unwrap();
    let done = program.args(["view", "--html", word(&page), "-"]).stdin(input).output().unwrap();
    assert_eq!((done.status.code(), done.stdout.len()), (Some(2), 0));
    assert_eq!(std::fs::read_to_string(&page).unwrap(), "<?php <<<'A'\no\nA;\n");
}
