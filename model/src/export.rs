//! Document 02: the listing as a file of RFC 4180 records. A total's digits are those of one number in
//! 128 bits, and the point is put in front of the last two.

use crate::refusal;
use std::iter;

/// An account with its total.
pub type Row = (u32, i64);

/// The first line.
pub const HEADER: &str = "account,total";
/// What ends every line.
pub const LINE_END: &str = "\r\n";

/// A total in units with two decimals.
pub fn in_units(total: i64) -> String {
    let sign = if total < 0 { "-" } else { "" };
    let text = pointed(i128::from(total).abs());
    format!("{sign}{text}")
}

/// So many cents, three digits at least, with a point in front of the last two.
pub(crate) fn pointed(cents: i128) -> String {
    let mut text = format!("{cents:03}");
    text.insert(text.len() - 2, '.');
    text
}

/// The lines, each with its end.
pub(crate) fn ended(lines: impl Iterator<Item = String>, end: &str) -> Vec<u8> {
    lines.flat_map(|line| (line + end).into_bytes()).collect()
}

/// The file of these rows, in their order.
pub fn file(rows: &[Row]) -> Vec<u8> {
    let lines = rows
        .iter()
        .map(|(account, total)| format!("{account},{}", in_units(*total)));
    ended(iter::once(HEADER.to_string()).chain(lines), LINE_END)
}

/// Writes the file of what words list, nothing where they are strange, to the start of the output:
/// refusals 8 and 10, in this order. Gives how many bytes the file has.
pub fn export(listed: Option<&[Row]>, out: &mut [u8]) -> Result<usize, u8> {
    let file = file(listed.ok_or(refusal::STRANGE)?);
    let written = out.get_mut(..file.len()).ok_or(refusal::NARROW)?;
    written.copy_from_slice(&file);
    Ok(file.len())
}
