//! The page's colours, and the checker of pages.

mod common;

use command::showing::html::page;
use command::showing::text::Totals;
use common::markup::{check, style};

/// How bright a colour of the style is, as #RGB or #RRGGBB, by the rule of the web's contrast ratio.
fn brightness(colour: &str) -> f64 {
    let digits: Vec<u32> = colour.trim_start_matches('#').chars().map(|digit| digit.to_digit(16).unwrap()).collect();
    let parts: Vec<u32> = match digits.len() {
        3 => digits.iter().map(|digit| digit * 17).collect(),
        _ => digits.chunks(2).map(|pair| pair[0] * 16 + pair[1]).collect(),
    };
    let linear = |part: &u32| match f64::from(*part) / 255.0 {
        part if part <= 0.04045 => part / 12.92,
        part => ((part + 0.055) / 1.055).powf(2.4),
    };
    parts.iter().map(linear).zip([0.2126, 0.7152, 0.0722]).map(|(part, weight)| part * weight).sum()
}

#[test]
fn every_scheme_has_contrast() {
    // Black and white, by hand: 1.05 / 0.05.
    assert!((21.0 - (brightness("#fff") + 0.05) / (brightness("#000000") + 0.05)).abs() < 1e-9);
    let page = page(&Totals::default(), &[]);
    let schemes: Vec<&str> = style(&page).into_iter().filter(|rule| rule.contains("--back: #")).collect();
    assert_eq!(schemes.len(), 2, "a light and a dark scheme");
    for scheme in schemes {
        let colour =
            |name: &str| brightness(scheme.split(&format!("--{}: ", name)).nth(1).unwrap().split(';').next().unwrap());
        let contrast = |one: f64, other: f64| (one.max(other) + 0.05) / (one.min(other) + 0.05);
        for name in ["text", "quiet", "link", "bad", "warn"] {
            assert!(contrast(colour(name), colour("back")) >= 4.5, "{} in {}", name, scheme);
        }
        assert!(contrast(colour("low"), colour("paper")) >= 4.5, "dots in {}", scheme);
    }
}

#[test]
fn the_checker_finds_faults() {
    assert_eq!(check("<p id=\"a\">1 &amp; 2</p>\n<meta charset=\"utf-8\"/>"), Ok(()));
    assert_eq!(check("<div tabindex=\"0\" role=\"region\" aria-label=\"a\"></div>"), Ok(()));
    for wrong in [
        "<p>",
        "</p>",
        "<p><b></p></b>",
        "<p",
        "<p>1 & 2</p>",
        "<p>1 > 2</p>",
        "<p>\u{1b}</p>",
        "<p class=a></p>",
        "<p class=\"a></p>",
        "<meta charset=\"utf-8\">",
        "<p/>",
        "<p id=\"a\"></p><p id=\"a\"></p>",
        "<a href=\"#b\"></a>",
        "<div tabindex=\"0\" role=\"region\"></div>",
        "<div tabindex=\"0\" aria-label=\"a\"></div>",
        "<p><pre></pre></p>",
    ] {
        assert!(check(wrong).is_err(), "{}", wrong);
    }
}
