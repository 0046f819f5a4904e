//! A small checker of pages: tags that close in order, quoted attributes, ids that are unique and there where they are
//! named, a role and a name for what takes the focus, no block in a paragraph.

use std::collections::HashSet;

/// Elements that have no end.
const EMPTY: [&str; 4] = ["meta", "path", "use", "!DOCTYPE"];

/// Attributes whose value names an id.
const NAMING: [&str; 2] = ["href", "aria-labelledby"];

/// Elements that end a paragraph.
const BLOCKS: [&str; 6] = ["pre", "div", "p", "ul", "aside", "section"];

/// What is wrong with a page, if something is.
pub fn check(page: &str) -> Result<(), String> {
    let (mut open, mut ids, mut named) = (Vec::new(), HashSet::new(), Vec::new());
    let mut rest = page;
    while let Some(at) = rest.find('<') {
        check_text(&rest[..at])?;
        let end = at + rest[at..].find('>').ok_or("a tag has no end")?;
        let tag = &rest[at + 1..end];
        rest = &rest[end + 1..];
        if let Some(name) = tag.strip_prefix('/') {
            if open.pop() != Some(name) {
                return Err(format!("</{}> closes what is not open", name));
            }
            continue;
        }
        let name = tag.split([' ', '/']).next().unwrap_or("");
        if open.last() == Some(&"p") && BLOCKS.contains(&name) {
            return Err(format!("<{}> stands in a paragraph", tag));
        }
        let attributes = attributes(tag)?;
        check_focus(tag, &attributes)?;
        for (key, value) in attributes {
            if key == "id" && !ids.insert(value) {
                return Err(format!("the id {} is there twice", value));
            }
            if NAMING.contains(&key) {
                named.push(value.trim_start_matches('#'));
            }
        }
        match (EMPTY.contains(&name), tag.ends_with('/')) {
            (true, closed) if closed || name == "!DOCTYPE" => {}
            (false, false) => open.push(name),
            _ => return Err(format!("<{}> closes itself, or does not and must", tag)),
        }
    }
    check_text(rest)?;
    if let Some(id) = named.iter().find(|id| !ids.contains(*id)) {
        return Err(format!("the id {} is nowhere", id));
    }
    open.pop().map_or(Ok(()), |name| Err(format!("<{}> is left open", name)))
}

/// What takes the keyboard's focus has a role and a name.
fn check_focus(tag: &str, attributes: &[(&str, &str)]) -> Result<(), String> {
    let has = |sought: &str| attributes.iter().any(|(key, value)| *key == sought && !value.is_empty());
    match has("tabindex") && !(has("role") && has("aria-label")) {
        true => Err(format!("<{}> takes the focus and has no role or no name", tag)),
        false => Ok(()),
    }
}

/// The rules of a page's style, those within a condition too: what stands before the braces, and what is in them.
pub fn style(page: &str) -> Vec<&str> {
    let style = page.split("<style>").nth(1).and_then(|rest| rest.split("</style>").next()).unwrap_or("");
    let rules = style.split('}').map(|rule| match rule.matches('{').count() {
        2 => &rule[rule.find('{').map_or(0, |at| at + 1)..],
        _ => rule,
    });
    rules.map(str::trim).filter(|rule| !rule.is_empty()).collect()
}

/// The attributes of a tag, each with a value in double quotes.
fn attributes(tag: &str) -> Result<Vec<(&str, &str)>, String> {
    let mut found = Vec::new();
    let mut rest = tag.trim_end_matches('/');
    while let Some(at) = rest.find("=\"") {
        let key = rest[..at].rsplit(' ').next().unwrap_or("");
        let value = &rest[at + 2..];
        let end = value.find('"').ok_or_else(|| format!("a quote is open in <{}>", tag))?;
        check_text(&value[..end])?;
        found.push((key, &value[..end]));
        rest = &value[end + 1..];
    }
    if rest.contains('"') || rest.contains('=') {
        return Err(format!("an attribute has no quotes in <{}>", tag));
    }
    Ok(found)
}

/// Text in which every & begins a name, and which has no control but breaks.
fn check_text(text: &str) -> Result<(), String> {
    if let Some(control) = text.chars().find(|letter| letter.is_control() && *letter != '\n') {
        return Err(format!("the control {:?} is in {:?}", control, text));
    }
    if text.contains('>') {
        return Err(format!("a tag's end is in {:?}", text));
    }
    let names = ["amp;", "lt;", "gt;", "quot;", "#39;"];
    match text.split('&').skip(1).find(|rest| !names.iter().any(|name| rest.starts_with(name))) {
        Some(rest) => Err(format!("a bare & stands before {:?}", rest)),
        None => Ok(()),
    }
}
