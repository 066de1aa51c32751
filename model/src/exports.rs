//! The commands `rows`, which writes rows, and `export`, which reads them and writes the file of the
//! table that holds them.

use crate::export::{file, Row};
use std::collections::BTreeMap;
use std::io::{self, BufRead, Write};

/// Writes the rows, an account and its total a line.
pub fn write_rows(rows: &[Row], mut output: impl Write) -> io::Result<()> {
    for (account, total) in rows {
        writeln!(output, "{account} {total}")?;
    }
    output.flush()
}

/// Inserts every row of the input, and writes the file of the listing.
pub fn export(input: impl BufRead, mut output: impl Write) -> io::Result<()> {
    let mut table = BTreeMap::new();
    for line in input.lines() {
        let line = line?;
        let row = read_row(&line).ok_or_else(|| io::Error::other(format!("{line:?} is no row")))?;
        table.insert(row.0, row.1);
    }
    let listing: Vec<Row> = table.into_iter().collect();
    output.write_all(&file(&listing))?;
    output.flush()
}

fn read_row(line: &str) -> Option<Row> {
    let (account, total) = line.split_once(' ')?;
    Some((account.parse().ok()?, total.parse().ok()?))
}
