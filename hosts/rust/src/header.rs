//! Holds the numbers and the declared functions to include/puretakoi.h.

use crate::numbers::{choices, classes, kinds, layout, limits, refusals};

const HEADER: &str = include_str!("../../../include/puretakoi.h");
const FOREIGN: &str = include_str!("foreign.rs");

/// Every constant of the wrapper by its name in the header, and its value.
fn constants() -> Vec<(String, u64)> {
    let mut all = Vec::new();
    for (name, value) in limits::NAMED.iter().chain(layout::NAMED) {
        all.push((format!("PURETAKOI_{}", name), *value as u64));
    }
    for (name, value) in refusals::NAMED.iter().chain(choices::NAMED) {
        all.push((format!("PURETAKOI_{}", name), u64::from(*value)));
    }
    for (name, value) in kinds::NAMED {
        all.push((format!("PURETAKOI_KIND_{}", name), u64::from(*value)));
    }
    for (name, value) in classes::NAMED {
        all.push((format!("PURETAKOI_CLASS_{}", name), u64::from(*value)));
    }
    all.sort();
    all
}

/// The names that the header defines as something, in its order.
fn definitions() -> impl Iterator<Item = (&'static str, &'static str)> {
    HEADER.lines().filter_map(|line| {
        let mut words = line.split_whitespace();
        match (words.next(), words.next(), words.next()) {
            (Some("#define"), Some(name), Some(value)) => Some((name, value)),
            _ => None,
        }
    })
}

fn is_of_version(name: &str) -> bool {
    name.starts_with("PURETAKOI_VERSION")
}

/// Other names of the choices, which older hosts use.
fn is_other_name(name: &str) -> bool {
    name.starts_with("PURETAKOI_READING")
}

/// The names that the header defines as numbers, but for the version's and other names.
fn defined() -> Vec<(String, u64)> {
    let numbers = definitions().filter(|(name, _)| !is_of_version(name) && !is_other_name(name));
    let mut all: Vec<(String, u64)> =
        numbers.map(|(name, value)| (name.to_string(), value.parse().expect("a constant is a number"))).collect();
    all.sort();
    all
}

#[test]
fn the_version_is_the_crates() {
    let found: Vec<_> = definitions().filter(|(name, _)| is_of_version(name)).collect();
    let whole = concat!("\"", env!("CARGO_PKG_VERSION"), "\"");
    let expected = [
        ("PURETAKOI_VERSION", whole),
        ("PURETAKOI_VERSION_MAJOR", env!("CARGO_PKG_VERSION_MAJOR")),
        ("PURETAKOI_VERSION_MINOR", env!("CARGO_PKG_VERSION_MINOR")),
        ("PURETAKOI_VERSION_PATCH", env!("CARGO_PKG_VERSION_PATCH")),
    ];
    assert_eq!(found, expected);
}

#[test]
fn other_names_are_of_the_same_numbers() {
    let found: Vec<_> = definitions().filter(|(name, _)| is_other_name(name)).collect();
    let expected = [
        ("PURETAKOI_READING", "PURETAKOI_CHOICES"),
        ("PURETAKOI_READING_PORTED", "0"),
        ("PURETAKOI_READING_SHEET", "PURETAKOI_CHOICE_SHEETS"),
    ];
    assert_eq!(found, expected);
}

#[test]
fn constants_are_the_headers() {
    assert_eq!(constants(), defined());
}

/// A parameter of the header in Rust: `const uint8_t *src` is `src: *const u8`.
fn parameter(words: &str) -> String {
    let (of, name) = words.rsplit_once(' ').expect("a parameter has a type and a name");
    let pointed = name.starts_with('*');
    let constant = of.starts_with("const ");
    let pointer = match (pointed, constant) {
        (true, true) => "*const ",
        (true, false) => "*mut ",
        (false, _) => "",
    };
    format!("{}: {}{}", name.trim_start_matches('*'), pointer, number_type(of.trim_start_matches("const ")))
}

fn number_type(word: &str) -> &'static str {
    match word {
        "uint8_t" => "u8",
        "uint32_t" => "u32",
        "size_t" => "usize",
        _ => panic!("{} is no type of the header", word),
    }
}

/// The functions that the header declares, as Rust declares them, on one line each.
fn declared() -> Vec<String> {
    let text = HEADER.split_whitespace().collect::<Vec<_>>().join(" ");
    let mut all = Vec::new();
    for part in text.split(';') {
        if let Some((before, parameters)) = part.trim_end_matches(')').rsplit_once('(') {
            let mut words = before.rsplit(' ');
            if let (Some(name), Some(of)) = (words.next(), words.next()) {
                if name.starts_with("puretakoi_") {
                    let parameters: Vec<String> = parameters.split(", ").map(parameter).collect();
                    all.push(format!("fn {}({}) -> {};", name, parameters.join(", "), number_type(of)));
                }
            }
        }
    }
    all
}

/// The functions that the module of foreign calls declares, in the same form.
fn declared_here() -> Vec<String> {
    let text = FOREIGN.split_whitespace().collect::<Vec<_>>().join(" ").replace("( ", "(").replace(", )", ")");
    let all_of =
        |start| text.match_indices(start).map(|(at, _)| first_declaration(&text[at..])).collect::<Vec<String>>();
    let one_form = all_of("fn $name(").concat();
    let mut all = all_of("fn puretakoi_");
    for (_, name) in FOREIGN.lines().filter_map(|line| line.trim_end_matches(';').split_once(" = puretakoi_")) {
        all.push(one_form.replace("$name", &format!("puretakoi_{}", name)));
    }
    all
}

fn first_declaration(text: &str) -> String {
    text.split_inclusive(';').take(1).collect()
}

#[test]
fn functions_are_the_headers() {
    let (mut header, mut here) = (declared(), declared_here());
    header.sort();
    here.sort();
    assert_eq!(header.iter().filter(|function| !function.contains("puretakoi_classes_of")).count(), 14);
    assert_eq!(header.len(), 15);
    assert_eq!(header, here);
}
