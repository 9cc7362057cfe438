//! A strict reader of what a picture may have of XML: elements, attributes and text.

/// What is wrong with a text that should be one element.
pub fn check(text: &str) -> Result<(), String> {
    let mut open: Vec<&str> = Vec::new();
    let mut rest = text.trim_end();
    loop {
        let (before, after) = rest.split_once('<').ok_or("no tag")?;
        check_characters(before)?;
        if open.is_empty() && !before.is_empty() {
            return Err(format!("`{before}` is in no element"));
        }
        let (tag, after) = after.split_once('>').ok_or("a tag does not end")?;
        match tag.strip_prefix('/') {
            Some(name) if open.last() == Some(&name) => drop(open.pop()),
            Some(name) => return Err(format!("`{name}` ends where it is not open")),
            None => open_tag(tag, &mut open)?,
        }
        rest = after;
        if open.is_empty() {
            return if rest.is_empty() { Ok(()) } else { Err(format!("`{rest}` follows")) };
        }
    }
}

/// A tag that starts an element.
fn open_tag<'a>(tag: &'a str, open: &mut Vec<&'a str>) -> Result<(), String> {
    let (inner, is_whole) = match tag.strip_suffix('/') {
        Some(inner) => (inner, true),
        None => (tag, false),
    };
    let (name, attributes) = inner.split_once(' ').unwrap_or((inner, ""));
    check_name(name)?;
    check_attributes(attributes)?;
    if !is_whole {
        open.push(name);
    }
    if is_whole && open.is_empty() {
        return Err("a root with nothing in it".into());
    }
    Ok(())
}

fn check_attributes(mut rest: &str) -> Result<(), String> {
    let mut names = Vec::new();
    while !rest.is_empty() {
        let (name, after) = rest.split_once("=\"").ok_or(format!("`{rest}` is no attribute"))?;
        let (value, after) = after.split_once('"').ok_or("a value does not end")?;
        check_name(name)?;
        check_characters(value)?;
        if names.contains(&name) {
            return Err(format!("`{name}` twice"));
        }
        names.push(name);
        rest = match after.strip_prefix(' ') {
            Some(more) if !more.is_empty() => more,
            None if after.is_empty() => "",
            _ => return Err(format!("`{after}` after a value")),
        };
    }
    Ok(())
}

fn check_name(name: &str) -> Result<(), String> {
    let is_right = |c: char| c.is_ascii_alphabetic() || c == '-' || c.is_ascii_digit();
    match name.starts_with(|c: char| c.is_ascii_alphabetic()) && name.chars().all(is_right) {
        true => Ok(()),
        false => Err(format!("`{name}` is no name")),
    }
}

/// Only characters that XML has, and `&` only in the four names of characters.
fn check_characters(text: &str) -> Result<(), String> {
    let is_wrong = |c: char| c.is_control() && c != '\n' || c == '\u{fffe}' || c == '\u{ffff}';
    if text.contains('<') || text.contains(is_wrong) {
        return Err(format!("a character that must not be in `{text}`"));
    }
    for after in text.split('&').skip(1) {
        let known = ["amp;", "lt;", "gt;", "quot;"].iter().any(|name| after.starts_with(name));
        if !known {
            return Err(format!("`&{after}` names no character"));
        }
    }
    Ok(())
}

#[test]
fn it_is_strict() {
    assert_eq!(check("<a b=\"1\" c=\"&lt;\"><d/>x &amp; y</a>\n"), Ok(()));
    let wrong = [
        "",
        "x",
        "<a>",
        "<a></b>",
        "<a></a><a></a>",
        "<a></a>x",
        "<a><b></a></b>",
        "<a>&</a>",
        "<a>&x;</a>",
        "<a b=\"1\" b=\"2\"></a>",
        "<a b=1></a>",
        "<a b=\"<\"></a>",
        "<a>\u{1}</a>",
        "x<a></a>",
        "<1></1>",
        "<a b=\"1\"c=\"2\"></a>",
    ];
    for text in wrong {
        assert!(check(text).is_err(), "{text}");
    }
}
