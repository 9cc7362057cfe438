//! Writes XML: every attribute and every text escaped.

use std::fmt::{Display, Write as _};

/// An attribute: its name and value.
pub type Attribute<'a> = (&'a str, &'a dyn Display);

/// A text of elements that is being written.
#[derive(Default)]
pub struct Svg {
    text: String,
}

impl Svg {
    /// Starts an element.
    pub fn open(&mut self, name: &str, attributes: &[Attribute]) {
        self.start(name, attributes);
        self.text.push_str(">\n");
    }

    /// Ends the element that was started last.
    pub fn close(&mut self, name: &str) {
        let _ = writeln!(self.text, "</{name}>");
    }

    /// An element with nothing in it.
    pub fn leaf(&mut self, name: &str, attributes: &[Attribute]) {
        self.start(name, attributes);
        self.text.push_str("/>\n");
    }

    /// An element with text in it.
    pub fn text(&mut self, name: &str, attributes: &[Attribute], text: &str) {
        self.start(name, attributes);
        let _ = writeln!(self.text, ">{}</{name}>", escaped(text));
    }

    fn start(&mut self, name: &str, attributes: &[Attribute]) {
        let _ = write!(self.text, "<{name}");
        for (name, value) in attributes {
            let _ = write!(self.text, " {name}=\"{}\"", escaped(&value.to_string()));
        }
    }

    /// All that was written.
    pub fn finish(self) -> String {
        self.text
    }
}

/// Text as XML has it; a character that XML has not is replaced.
pub fn escaped(text: &str) -> String {
    let mut out = String::with_capacity(text.len());
    for character in text.chars() {
        match character {
            '&' => out.push_str("&amp;"),
            '<' => out.push_str("&lt;"),
            '>' => out.push_str("&gt;"),
            '"' => out.push_str("&quot;"),
            '\n' => out.push('\n'),
            _ if character.is_control() => out.push('\u{fffd}'),
            _ => out.push(character),
        }
    }
    out
}
