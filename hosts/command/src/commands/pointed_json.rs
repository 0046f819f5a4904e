//! What a finger points at, as JSON.
//!
//! One object: `path`, `reading`, `octal` (`rust` or `manual`), the place as `line`, `column` and `position`; `where`,
//! one of `token`, `closing-indentation`, `between`, `lost-break`, `end` and `unread`; `tokens`, how many there are,
//! `looks`, how many of them were looked at, `found`, the number of the one that this led to; `token`, `before` and
//! `after`, each a token with its number and its end, or null; `bytes`, the token's first byte in the script and the
//! one after its last; `end`, where the step ended that wrote the token, as `line`, `column` and `position`; `lines`,
//! the line of the token and how many it has, where it has several; `block`, the block of `view` with its number, and
//! with `part`, `row`, which is a number and the row's bytes, and `cell`; `refusal` and `warning`. Tokens, lines,
//! blocks, rows and cells count from 1.

use puretakoi::{Choices, Listed};

use crate::commands::octals::octal_name;
use crate::commands::pointed::Pointed;
use crate::commands::token;
use crate::commands::tokens::reading_name;
use crate::reading::finger::Spot;
use crate::reading::touch::{Part, Touch};
use crate::showing::json::{self, place_fields, string, Field};

/// All that is told of a place, as an object and a break.
pub fn object(name: &str, choices: Choices, pointed: &Pointed) -> String {
    let spot = &pointed.spot;
    let found = pointed.under.as_ref().map(|under| (under.listed.number + 1).to_string());
    let looks = pointed.under.as_ref().map_or(0, |under| under.looks);
    let lines = pointed
        .line_of_token()
        .map(|(number, count)| json::object(&[("number", number.to_string()), ("count", count.to_string())]));
    let bytes = match spot {
        Spot::Token(_listed, own) => {
            Some(json::object(&[("from", own.start.to_string()), ("to", own.end.to_string())]))
        }
        _ => None,
    };
    let first = vec![
        ("path", string(name)),
        ("reading", string(reading_name(choices.nowdocs))),
        ("octal", string(octal_name(choices.octals))),
    ];
    let rest = vec![
        ("where", string(spot.name())),
        ("tokens", pointed.tokens.len().to_string()),
        ("looks", looks.to_string()),
        ("found", or_null(found)),
        ("token", or_null(spot.token().map(listed))),
        ("bytes", or_null(bytes)),
        ("end", or_null(pointed.end().map(|end| json::object(&place_fields(end))))),
        ("lines", or_null(lines)),
        ("before", or_null(spot.before().map(listed))),
        ("after", or_null(spot.after().map(listed))),
        ("block", or_null(pointed.touch.as_ref().map(touched))),
        ("refusal", or_null(pointed.refusal.as_ref().map(|refusal| refusal.json(name)))),
        ("warning", or_null(pointed.warning.map(json::warning))),
    ];
    json::object(&[first, place_fields(pointed.span), rest].concat()) + "\n"
}

/// A value, or null where there is none.
fn or_null(value: Option<String>) -> String {
    value.unwrap_or_else(|| "null".to_string())
}

/// A token with its number.
fn listed(listed: &Listed) -> String {
    let number: Vec<Field> = vec![("number", (listed.number + 1).to_string())];
    json::object(&[number, token::fields(&listed.token)].concat())
}

/// A block with its number, and what of it is meant.
fn touched(touch: &Touch) -> String {
    let Touch { block, number, part } = touch;
    let cell = match part {
        Part::Cell(place) => Some(place.cell.to_string()),
        _ => None,
    };
    let row = part.row().and_then(|row| Some((row, block.rows.get(row - 1)?)));
    let row =
        row.map(|(row, bytes)| json::object(&[vec![("number", row.to_string())], json::byte_fields(bytes)].concat()));
    let number = vec![("number", number.to_string())];
    let rest = vec![
        ("label", json::bytes(&block.label)),
        ("guess", block.is_guess.to_string()),
        ("part", string(part.name())),
        ("row", or_null(row)),
        ("cell", or_null(cell)),
    ];
    json::object(&[number, place_fields(block.span), rest].concat())
}
