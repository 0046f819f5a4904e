//! Holds include/puretakoi_words.h to the words of the crate, word for word.

use crate::numbers::{classes, kinds, refusals, Class};
use crate::record::kind_name;
use crate::refusal::{Refusal, Span};

const WORDS: &str = include_str!("../../../include/puretakoi_words.h");

/// A name of the header, or `default`, and the words for it.
type Said = (String, String);

/// What a function of the header gives, in its order.
fn given(function: &str) -> Vec<Said> {
    let head = format!("static inline const char *{}(uint32_t ", function);
    let behind = WORDS.split_once(&head).expect("the header has the function").1;
    let body = behind.split_once("\n}\n").expect("the function ends").0;
    let text = body.split_whitespace().collect::<Vec<_>>().join(" ");
    let choices = text.split("\"; ").filter_map(|choice| choice.trim_end_matches("\"; }").split_once(": return \""));
    choices.map(|(name, words)| (last_word(name), words.replace("\\\\", "\\"))).collect()
}

/// The name behind `case`, or `default`.
fn last_word(text: &str) -> String {
    text.rsplit(' ').next().unwrap_or_default().to_string()
}

/// What the crate says of each number, and of one that has no name.
fn expected(prefix: &str, named: &[(&str, u32)], words: impl Fn(u32) -> &'static str) -> Vec<Said> {
    let mut all: Vec<Said> =
        named.iter().map(|(name, number)| (format!("{}{}", prefix, name), words(*number).to_string())).collect();
    all.push(("default".to_string(), words(0).to_string()));
    all
}

#[test]
fn refusals_are_told_as_in_c() {
    let told = |number| Refusal { number, span: Span::START };
    let all = |words: fn(&Refusal) -> &'static str| {
        expected("PURETAKOI_", refusals::NAMED, move |number| words(&told(number)))
    };
    assert_eq!(given("puretakoi_refusal_name").len(), 14);
    assert_eq!(given("puretakoi_refusal_name"), all(Refusal::name));
    assert_eq!(given("puretakoi_refusal_meaning"), all(Refusal::meaning));
    assert_eq!(given("puretakoi_refusal_advice"), all(Refusal::advice));
}

#[test]
fn kinds_are_named_as_in_c() {
    assert_eq!(given("puretakoi_kind_name").len(), 22);
    assert_eq!(given("puretakoi_kind_name"), expected("PURETAKOI_KIND_", kinds::NAMED, kind_name));
}

#[test]
fn classes_are_named_as_in_c() {
    let name = |number| Class::of(number).map_or("no class", Class::name);
    assert_eq!(given("puretakoi_class_name").len(), 9);
    assert_eq!(given("puretakoi_class_name"), expected("PURETAKOI_CLASS_", classes::NAMED, name));
}
