//! Reads one line of the driver's language.

use crate::records::Kind;

/// Greatest worker number or setting that a line may name.
const MOST_SMALL: u64 = 65_535;
/// Greatest number of steps that a line may ask for.
const MOST_STEPS: u64 = 9_999;

/// One line that could be read.
#[derive(Clone, Copy, PartialEq, Eq, Debug)]
pub enum Line {
    Open {
        n: u64,
        b: u64,
        m: u64,
    },
    Call {
        kind: Kind,
        worker: usize,
        account: u32,
        /// Of an insert; of a post its amount; otherwise 0.
        total: i64,
    },
    Step {
        worker: usize,
        count: u64,
    },
    List,
}

/// Reads a line without its line feed; `None` stands for `unread`.
pub fn read_line(bytes: &[u8]) -> Option<Line> {
    let fields: Vec<&[u8]> = bytes.split(|byte| *byte == b' ').collect();
    match fields[..] {
        [b"O", n, b, m] => Some(Line::Open {
            n: small(n)?,
            b: small(b)?,
            m: small(m)?,
        }),
        [b"I", w, account, total] => call(Kind::Insert, w, account, signed(total)?),
        [b"P", w, account, amount] => call(Kind::Post, w, account, signed(amount)?),
        [b"D", w, account] => call(Kind::Delete, w, account, 0),
        [b"L", w, account] => call(Kind::Lookup, w, account, 0),
        [b"S", w, count] => Some(Line::Step {
            worker: small(w)? as usize,
            count: between(count, 1, MOST_STEPS)?,
        }),
        [b"T"] => Some(Line::List),
        _ => None,
    }
}

/// Reads a text of lines; `None` if one of them cannot be read.
pub fn read_lines(text: &str) -> Option<Vec<Line>> {
    let lines = text.lines().map(|line| read_line(line.as_bytes()));
    lines.collect()
}

fn call(kind: Kind, w: &[u8], account: &[u8], total: i64) -> Option<Line> {
    Some(Line::Call {
        kind,
        worker: small(w)? as usize,
        account: u32::try_from(unsigned(account)?).ok()?,
        total,
    })
}

pub(crate) fn small(field: &[u8]) -> Option<u64> {
    between(field, 0, MOST_SMALL)
}

fn between(field: &[u8], least: u64, most: u64) -> Option<u64> {
    unsigned(field).filter(|value| (least..=most).contains(value))
}

/// Decimal digits without leading zeros.
pub(crate) fn unsigned(field: &[u8]) -> Option<u64> {
    if field.is_empty() || (field[0] == b'0' && field.len() > 1) {
        return None;
    }
    let mut value: u64 = 0;
    for digit in field {
        if !digit.is_ascii_digit() {
            return None;
        }
        value = value
            .checked_mul(10)?
            .checked_add(u64::from(digit - b'0'))?;
    }
    Some(value)
}

/// As `unsigned`, but may start with a minus; `-0` is no number.
pub(crate) fn signed(field: &[u8]) -> Option<i64> {
    match field.strip_prefix(b"-") {
        None => i64::try_from(unsigned(field)?).ok(),
        Some(digits) => match unsigned(digits)? {
            0 => None,
            size => i64::try_from(-i128::from(size)).ok(),
        },
    }
}

impl std::fmt::Display for Line {
    fn fmt(&self, out: &mut std::fmt::Formatter<'_>) -> std::fmt::Result {
        match *self {
            Line::Open { n, b, m } => write!(out, "O {n} {b} {m}"),
            Line::Call {
                kind,
                worker,
                account,
                total,
            } => match kind {
                Kind::Insert => write!(out, "I {worker} {account} {total}"),
                Kind::Delete => write!(out, "D {worker} {account}"),
                Kind::Lookup => write!(out, "L {worker} {account}"),
                Kind::Post => write!(out, "P {worker} {account} {total}"),
            },
            Line::Step { worker, count } => write!(out, "S {worker} {count}"),
            Line::List => write!(out, "T"),
        }
    }
}
