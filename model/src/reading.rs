//! Reads an exported file: the rows that its lines determine. It takes nothing that is written in
//! another way, so that no two files have the same rows.

use crate::export::{Row, HEADER};

/// The rows of a file; nothing where it is none.
pub fn rows(file: &[u8]) -> Option<Vec<Row>> {
    let mut rest = Rest { bytes: file };
    rest.takes(HEADER.as_bytes())?;
    rest.takes(b"\r\n")?;
    let mut rows = Vec::new();
    while !rest.bytes.is_empty() {
        rows.push(rest.row()?);
    }
    Some(rows)
}

/// What is left of a file.
struct Rest<'a> {
    bytes: &'a [u8],
}

impl Rest<'_> {
    /// Goes on behind a text that comes next.
    fn takes(&mut self, text: &[u8]) -> Option<()> {
        self.bytes = self.bytes.strip_prefix(text)?;
        Some(())
    }

    fn digit(&mut self) -> Option<i128> {
        let (byte, rest) = self.bytes.split_first()?;
        let digit = byte.is_ascii_digit().then(|| i128::from(byte - b'0'))?;
        self.bytes = rest;
        Some(digit)
    }

    /// A number of 17 digits at most, without zeros in front.
    fn number(&mut self) -> Option<i128> {
        let mut number = self.digit()?;
        for _ in 1..17 {
            match self.digit() {
                Some(_) if number == 0 => return None,
                Some(digit) => number = 10 * number + digit,
                None => break,
            }
        }
        Some(number)
    }

    /// Units with two decimals, in cents; -0.00 is none.
    fn total(&mut self) -> Option<i64> {
        let sign = self.takes(b"-").map_or(1, |()| -1);
        let units = self.number()?;
        self.takes(b".")?;
        let cents = 100 * units + 10 * self.digit()? + self.digit()?;
        let is_negative_zero = sign < 0 && cents == 0;
        let total = i64::try_from(sign * cents).ok();
        total.filter(|_| !is_negative_zero)
    }

    /// A line with its end.
    fn row(&mut self) -> Option<Row> {
        let account = u32::try_from(self.number()?).ok()?;
        self.takes(b",")?;
        let total = self.total()?;
        self.takes(b"\r\n")?;
        Some((account, total))
    }
}
