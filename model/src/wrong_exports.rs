//! Wrong exports, each told from the right one by some words and some output.

use crate::export::{ended, in_units, pointed, Row, HEADER, LINE_END};
use crate::places::place;
use crate::refusal;

#[derive(Clone, Copy, PartialEq, Eq, Debug)]
pub enum WrongExport {
    /// The sign is that of the units, so that there is none below one unit.
    SignOfUnits,
    /// A negative total is divided downward, so that its decimals count up from the units.
    DividedDownward,
    /// There is one decimal.
    OneDecimal,
    /// The decimals are a number, of one digit below 10.
    DecimalsNotPadded,
    /// The total is divided in floating point of 64 bits.
    FloatingPoint,
    /// A negative total is negated in 64 bits.
    NegatedIn64Bits,
    /// Lines end with LF alone.
    LineFeedAlone,
    /// The last line has no end.
    LastLineNotEnded,
    /// There is no header.
    NoHeader,
    /// The rows ascend by the account's place.
    ByPlace,
    /// The size, which is given and by which an output is too short, is without the header.
    SizeWithoutHeader,
    /// An output as long as the file is refused as too short.
    ExactFitRefused,
    /// An output that is too short gets as much as it holds.
    WrittenThoughShort,
    /// An output too short for the header is refused before strange words.
    NarrowBeforeStrange,
    /// A byte of 0 is behind the file, where the output has room for it.
    ZeroBehind,
}

impl WrongExport {
    pub const ALL: [WrongExport; 15] = [
        WrongExport::SignOfUnits,
        WrongExport::DividedDownward,
        WrongExport::OneDecimal,
        WrongExport::DecimalsNotPadded,
        WrongExport::FloatingPoint,
        WrongExport::NegatedIn64Bits,
        WrongExport::LineFeedAlone,
        WrongExport::LastLineNotEnded,
        WrongExport::NoHeader,
        WrongExport::ByPlace,
        WrongExport::SizeWithoutHeader,
        WrongExport::ExactFitRefused,
        WrongExport::WrittenThoughShort,
        WrongExport::NarrowBeforeStrange,
        WrongExport::ZeroBehind,
    ];

    /// A total as it is written.
    pub fn in_units(self, total: i64) -> String {
        let (cents, sign) = (i128::from(total), if total < 0 { "-" } else { "" });
        match self {
            WrongExport::SignOfUnits if cents > -100 => pointed(cents.abs()),
            WrongExport::DividedDownward => {
                format!("{}.{:02}", cents.div_euclid(100), cents.rem_euclid(100))
            }
            WrongExport::OneDecimal => {
                format!("{sign}{}.{}", cents.abs() / 100, cents.abs() % 100 / 10)
            }
            WrongExport::DecimalsNotPadded => {
                format!("{sign}{}.{}", cents.abs() / 100, cents.abs() % 100)
            }
            WrongExport::FloatingPoint => format!("{:.2}", total as f64 / 100.0),
            WrongExport::NegatedIn64Bits => {
                let size = if total < 0 {
                    total.wrapping_neg()
                } else {
                    total
                };
                format!("{sign}{}.{:02}", size / 100, size % 100)
            }
            _ => in_units(total),
        }
    }

    /// The file of these rows.
    pub fn file(self, rows: &[Row]) -> Vec<u8> {
        let mut rows = rows.to_vec();
        if self == WrongExport::ByPlace {
            rows.sort_by_key(|(account, _)| place(*account));
        }
        let row = |(account, total)| format!("{account},{}", self.in_units(total));
        let header = (self != WrongExport::NoHeader).then(|| HEADER.to_string());
        let lines = header.into_iter().chain(rows.into_iter().map(row));
        match self {
            WrongExport::LineFeedAlone => ended(lines, "\n"),
            WrongExport::LastLineNotEnded => {
                let mut file = ended(lines, LINE_END);
                file.truncate(file.len() - LINE_END.len());
                file
            }
            _ => ended(lines, LINE_END),
        }
    }

    /// Exports what words list, nothing where they are strange, into the output.
    pub fn export(self, listed: Option<&[Row]>, out: &mut [u8]) -> Result<usize, u8> {
        let header = HEADER.len() + LINE_END.len();
        if self == WrongExport::NarrowBeforeStrange && out.len() < header {
            return Err(refusal::NARROW);
        }
        let file = self.file(listed.ok_or(refusal::STRANGE)?);
        let size = match self {
            WrongExport::SizeWithoutHeader => file.len() - header,
            _ => file.len(),
        };
        let short = out.len() < size || self == WrongExport::ExactFitRefused && out.len() == size;
        if !short || self == WrongExport::WrittenThoughShort {
            let behind = (self == WrongExport::ZeroBehind).then_some(0);
            let bytes = file.into_iter().chain(behind);
            out.iter_mut().zip(bytes).for_each(|(to, from)| *to = from);
        }
        match short {
            true => Err(refusal::NARROW),
            false => Ok(size),
        }
    }
}
