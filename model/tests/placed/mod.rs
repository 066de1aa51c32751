//! Texts that name accounts by their places, so that document 01's numbers stand in them.

use model::places::account_at;

/// The text with each `@` and number as the account whose place that number is.
pub fn placed(text: &str) -> String {
    let mut parts = text.split('@');
    let first = parts.next().unwrap_or("").to_string();
    parts.fold(first, |before, part| {
        let end = part.find(|c: char| !c.is_ascii_digit());
        let (number, after) = part.split_at(end.unwrap_or(part.len()));
        let account = account_at(number.parse().expect("a place"));
        format!("{before}{account}{after}")
    })
}
