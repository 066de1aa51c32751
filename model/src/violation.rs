//! What an assertion that failed says.

/// The name of the assertion, and what was seen.
#[derive(Clone, PartialEq, Eq, Debug)]
pub struct Violation {
    pub name: &'static str,
    pub detail: String,
}

impl Violation {
    pub fn new(name: &'static str, detail: String) -> Violation {
        Violation { name, detail }
    }
}

impl std::fmt::Display for Violation {
    fn fmt(&self, out: &mut std::fmt::Formatter<'_>) -> std::fmt::Result {
        write!(out, "{}: {}", self.name, self.detail)
    }
}
