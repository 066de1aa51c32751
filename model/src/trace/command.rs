//! The commands `trace`, the page of the run that a file's lines make, and `page`, that of a log.

use super::log_page::log_page;
use super::page::page;
use super::record::record;
use std::io::{self, Read, Write};
use std::path::Path;

/// Prints the page of a file; `-` is standard input. Answers the exit code.
pub fn trace(file: &str) -> io::Result<u8> {
    let bytes = contents(file)?;
    let lists = record(&bytes).map_err(|violation| io::Error::other(violation.to_string()))?;
    io::stdout().write_all(page(&title(file), &lists).as_bytes())?;
    Ok(0)
}

/// The same for a log.
pub fn log(file: &str) -> io::Result<u8> {
    let page = log_page(&log_title(file), &contents(file)?);
    io::stdout().write_all(page.as_bytes())?;
    Ok(0)
}

fn contents(file: &str) -> io::Result<Vec<u8>> {
    let mut bytes = Vec::new();
    match file {
        "-" => io::stdin().read_to_end(&mut bytes)?,
        _ => std::fs::File::open(file)?.read_to_end(&mut bytes)?,
    };
    Ok(bytes)
}

/// The file's name without its directories.
pub fn title(file: &str) -> String {
    named("Trace", file)
}

pub fn log_title(file: &str) -> String {
    named("Log", file)
}

fn named(what: &str, file: &str) -> String {
    match (file, Path::new(file).file_name()) {
        ("-", _) | (_, None) => what.to_string(),
        (_, Some(name)) => format!("{what} of {}", name.to_string_lossy()),
    }
}
