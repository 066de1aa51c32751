//! Text on the page: its escaping, its width, and levels on which labels do not overlap.

/// Pixels that one character of a label takes at most, at its size in a monospace font.
pub const CHARACTER: i32 = 7;
/// Pixels between two labels on one level.
const APART: i32 = 9;

/// Text as it stands in an element or an attribute.
pub fn escape(text: &str) -> String {
    let mut escaped = String::new();
    for character in text.chars() {
        match character {
            '&' => escaped.push_str("&amp;"),
            '<' => escaped.push_str("&lt;"),
            '>' => escaped.push_str("&gt;"),
            '"' => escaped.push_str("&quot;"),
            other => escaped.push(other),
        }
    }
    escaped
}

pub fn width(text: &str) -> i32 {
    CHARACTER * text.chars().count() as i32
}

/// The levels of a row, each with the end of its last label.
#[derive(Debug, Default)]
pub struct Levels {
    ends: Vec<i32>,
}

impl Levels {
    /// The lowest level that is free from `start`; labels come in the order of their starts.
    pub fn place(&mut self, start: i32, end: i32) -> i32 {
        let free = |last: &i32| last + APART <= start;
        let level = match self.ends.iter().position(free) {
            Some(level) => level,
            None => {
                self.ends.push(end);
                self.ends.len() - 1
            }
        };
        self.ends[level] = end;
        level as i32
    }

    /// At least one.
    pub fn count(&self) -> i32 {
        self.ends.len().max(1) as i32
    }

    pub fn rightmost(&self) -> i32 {
        self.ends.iter().copied().max().unwrap_or(0)
    }
}
