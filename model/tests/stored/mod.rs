//! The stored orders: their lines, their outputs, and what `totals` prints for them.

use model::fault::Fault;
use model::lines::{read_lines, Line};
use model::totals::transcript;
use std::path::PathBuf;

pub fn folder() -> PathBuf {
    PathBuf::from(env!("CARGO_MANIFEST_DIR")).join("orders")
}

pub fn stored(name: &str, ending: &str) -> String {
    let path = folder().join(format!("{name}.{ending}"));
    std::fs::read_to_string(&path).unwrap_or_else(|error| panic!("{}: {error}", path.display()))
}

pub fn lines(name: &str) -> Vec<Line> {
    read_lines(&stored(name, "txt")).expect("a stored order can be read")
}

pub fn output(name: &str, fault: Fault) -> String {
    let bytes = transcript(stored(name, "txt").as_bytes(), fault);
    String::from_utf8(bytes).expect("output is text")
}
