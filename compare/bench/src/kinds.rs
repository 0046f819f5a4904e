//! Scripts of nine kinds, made from a fixed seed, in the words of street maps.

use cases::random::Random;

const SEED: u64 = 1;

/// A kind of script: how many instructions a byte a walk may take, how it begins, and how a piece of some ten to some hundred bytes is
/// put to it.
pub struct Kind {
    pub name: &'static str,
    pub most: f64,
    opening: &'static str,
    put: fn(&mut Random, &mut String),
}

pub const KINDS: [Kind; 9] = [
    Kind { name: "mixed", most: 25.0, opening: PHP, put: mixed },
    Kind { name: "inline text", most: 10.5, opening: "", put: inline_text },
    Kind { name: "single quotes", most: 17.5, opening: PHP, put: single_quotes },
    Kind { name: "double quotes with escapes", most: 24.5, opening: PHP, put: double_quotes },
    Kind { name: "heredoc with variables", most: 40.0, opening: PHP, put: heredoc },
    Kind { name: NOWDOC, most: 9.8, opening: PHP, put: nowdoc },
    Kind { name: "numbers", most: 77.0, opening: PHP, put: numbers },
    Kind { name: "identifiers and punctuation", most: 35.5, opening: PHP, put: identifiers },
    Kind { name: "comments", most: 10.8, opening: PHP, put: comments },
];

const PHP: &str = "<?php\n";

/// The kind whose blocks are read as sheets too, and the blanks before each of its rows and its closing lines.
pub const NOWDOC: &str = "nowdoc";
pub const INDENTATION: usize = 4;

/// Steps of one byte each, and how many instructions a call for such a step may take.
pub const ONE_BYTE: &str = "one byte a step";
pub const MOST_OF_A_STEP: f64 = 330.0;

/// A text and a comment that are as long as their script.
pub const ONE_BLOCK: &str = "one nowdoc block";
pub const ONE_COMMENT: &str = "one comment";

/// The longest script that is measured under a name: of a kind, or of a single text.
pub fn script_named(name: &str, most: usize) -> Option<Vec<u8>> {
    match name {
        ONE_BLOCK => Some(one_block(most)),
        ONE_COMMENT => Some(one_comment(most)),
        ONE_BYTE => Some(one_byte_steps(most)),
        _ => KINDS.iter().find(|kind| kind.name == name).map(|kind| script(kind, most)),
    }
}

/// As many pieces of a kind as fit in `most` bytes. A shorter script is the beginning of a longer one.
pub fn script(kind: &Kind, most: usize) -> Vec<u8> {
    let mut random = Random::new(SEED);
    let mut script = kind.opening.to_string();
    loop {
        let before = script.len();
        (kind.put)(&mut random, &mut script);
        if script.len() > most {
            script.truncate(before);
            return script.into_bytes();
        }
    }
}

/// One nowdoc block of at most `most` bytes: a single text, as long as the script.
pub fn one_block(most: usize) -> Vec<u8> {
    one_text("<?php <<<'RELIEF'\n", "RELIEF;\n", most)
}

/// One comment, of as many rows as fit.
pub fn one_comment(most: usize) -> Vec<u8> {
    one_text("<?php /*\n", "*/\n", most)
}

/// A text of as many rows as fit between its opening and its end.
fn one_text(open: &str, close: &str, most: usize) -> Vec<u8> {
    let mut random = Random::new(SEED);
    let mut script = open.to_string();
    loop {
        let before = script.len();
        row(&mut random, &mut script);
        if script.len() + close.len() > most {
            script.truncate(before);
            script.push_str(close);
            return script.into_bytes();
        }
    }
}

/// A script of steps that pass one byte each.
pub fn one_byte_steps(most: usize) -> Vec<u8> {
    let mut script = PHP.as_bytes().to_vec();
    script.extend(b"+-;\n".iter().cycle().take(most - script.len()));
    script
}

const WORDS: [&str; 16] = [
    "kerb", "ramp", "crossing", "the", "street", "of", "harbour", "lane", "steps", "rail", "a", "bench", "to",
    "platform", "left", "mill",
];

/// From `least` words to twice as many, with blanks between.
fn words(least: usize, random: &mut Random, out: &mut String) {
    for count in 0..least + random.below(least + 1) {
        if count > 0 {
            out.push(' ');
        }
        out.push_str(random.pick(&WORDS));
    }
}

/// A piece of one of the other kinds.
fn mixed(random: &mut Random, out: &mut String) {
    let other = &KINDS[1 + random.below(KINDS.len() - 1)];
    let (open, close) = if other.opening.is_empty() { ("?>\n", PHP) } else { ("$legend = [", "];\n") };
    out.push_str(open);
    (other.put)(random, out);
    out.push_str(close);
}

/// A paragraph, and in one of four a tag with a name.
fn inline_text(random: &mut Random, out: &mut String) {
    out.push_str("<p class=\"legend\">");
    words(12, random, out);
    out.push_str("</p>\n");
    if random.below(4) == 0 {
        out.push_str("<b><?= $street ?></b>\n");
    }
}

fn single_quotes(random: &mut Random, out: &mut String) {
    out.push('\'');
    words(6, random, out);
    out.push_str(random.pick(&["", "", "", " \\'", "\\\\", "\\n"]));
    out.push_str("',\n");
}

const ESCAPES: [&str; 12] =
    ["\\n", "\\t", "\\\"", "\\\\", "\\$", "\\x41", "\\x9", "\\u{20AC}", "\\u{e9}", "\\101", "\\0", "\\e"];

fn double_quotes(random: &mut Random, out: &mut String) {
    out.push('"');
    for _ in 0..3 {
        words(2, random, out);
        out.push_str(random.pick(&ESCAPES));
    }
    out.push_str("\",\n");
}

const VARIABLES: [&str; 6] = ["$name", "{$street}", "$map->legend", "$rows[kerb]", "${lane}", "$map?->scale"];

fn heredoc(random: &mut Random, out: &mut String) {
    out.push_str("<<<LEGEND\n");
    for _ in 0..3 + random.below(4) {
        out.push_str("  ");
        words(3, random, out);
        out.push(' ');
        out.push_str(random.pick(&VARIABLES));
        out.push(' ');
        words(2, random, out);
        out.push_str(random.pick(&["\n", "\n", "\\n\n"]));
    }
    out.push_str("  LEGEND,\n");
}

fn nowdoc(random: &mut Random, out: &mut String) {
    let blanks = " ".repeat(INDENTATION);
    out.push_str("<<<'RELIEF'\n");
    for _ in 0..4 + random.below(8) {
        out.push_str(&blanks);
        row(random, out);
    }
    out.push_str(&blanks);
    out.push_str("RELIEF,\n");
}

/// A row of relief.
fn row(random: &mut Random, out: &mut String) {
    for _ in 0..4 + random.below(6) {
        out.push_str(random.pick(&["####", "o   ", " ..  ", "= = ", "    ", "oooo"]));
    }
    out.push('\n');
}

fn numbers(random: &mut Random, out: &mut String) {
    let (large, small) = (random.below(1_000_000), random.below(1_000));
    out.push_str(&match random.below(8) {
        0 => format!("0x{:X}", large),
        1 => format!("0b{:b}", small),
        2 => format!("0{:o}", small),
        3 => format!("{}_{:03}", small, small),
        4 => format!("{}.{}", small, large),
        5 => format!("{}.5E-{}", small, small % 30),
        6 => format!(".{}", small),
        _ => large.to_string(),
    });
    out.push_str(random.pick(&[", ", ", ", ",\n"]));
}

const LINES: [&str; 8] = [
    "if ($kerb !== $ramp && is_open($street)) { return crossing($kerb, $lanes[$index]); }\n",
    "$map->legend->put($street, $lane ?? $harbour);\n",
    "foreach ($lanes as $index => $lane) { $width += $lane->width; }\n",
    "final class StreetMap extends Sheet implements Embossed { private ?Legend $legend; }\n",
    "$step = static fn (int $row): bool => $row >= $first && $row < $last;\n",
    "while (!$sheet->ended()) { $sheet->advance(); --$left; }\n",
    "echo $platform::scale($rail), $bench . $steps;\n",
    "$corner = ($left + $right) * $scale % $width - $margin;\n",
];

fn identifiers(random: &mut Random, out: &mut String) {
    out.push_str(random.pick(&LINES));
}

/// Comments of each form; one in four has many lines.
fn comments(random: &mut Random, out: &mut String) {
    match random.below(4) {
        0 => {
            out.push_str("/*\n");
            for _ in 0..2 + random.below(4) {
                out.push_str(" * ");
                words(6, random, out);
                out.push('\n');
            }
            out.push_str(" */\n");
        }
        place => {
            out.push_str(["// ", "# ", "// it's "][place - 1]);
            words(6, random, out);
            out.push('\n');
        }
    }
}
