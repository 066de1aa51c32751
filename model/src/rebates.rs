//! The commands `amounts`, which writes totals, and `rebates`, which reads them and writes each with
//! its rebate.

use crate::cents::totals;
use crate::rebate::rebate;
use std::io::{self, BufRead, Write};

/// Writes so many totals, one a line.
pub fn amounts(seed: u64, count: usize, mut output: impl Write) -> io::Result<()> {
    for total in totals(seed).take(count) {
        writeln!(output, "{total}")?;
    }
    output.flush()
}

/// Writes every total of the input and its rebate, one pair a line.
pub fn rebates(input: impl BufRead, mut output: impl Write) -> io::Result<()> {
    for line in input.lines() {
        let line = line?;
        let no_total = |_| io::Error::other(format!("{line:?} is no total"));
        let total = line.parse().map_err(no_total)?;
        writeln!(output, "{total} {}", rebate(total))?;
    }
    output.flush()
}
