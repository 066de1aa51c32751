//! Driver lines with what is printed for them.

use crate::placed::placed;
use model::judge::checks_told;
use model::lines::read_lines;
use model::search::{verdict, By};
use model::starts::Start;
use model::totals::transcript;

/// Left the input lines, right the output lines, as document 01 prints them; then the checks told
/// with the answers, which are not printed. `@5` is the account whose place is 5. Both judges
/// agree.
pub fn session(start: Start, pairs: &[(&str, &str)], checks: &[u8]) {
    let input = pairs.iter().map(|(line, _)| placed(line) + "\n");
    let input: String = input.collect();
    let expected = pairs.iter().map(|(_, out)| placed(out) + "\n");
    let expected: String = expected.collect();
    let output = transcript(input.as_bytes(), start);
    assert_eq!(String::from_utf8(output).expect("text"), expected);
    let lines = read_lines(&input).expect("lines");
    assert_eq!(checks_told(start, &lines), Ok(checks.to_vec()));
    let outside = verdict(By::External, start, &lines);
    assert_eq!(outside.err(), None);
}
