//! Logs with a line that is none of a log, made from logs that can be read. No line is empty, since
//! an empty line separates logs.

use crate::logs::any_log;
use crate::prng::Prng;

/// Whole lines that cannot be read, wherever they stand.
const WHOLE: [&[u8]; 24] = [
    b" ",
    b"2",
    b"2 1 0",
    b"2  1",
    b"02 1",
    b"65536 1",
    b"2 65536",
    b"2 -1",
    b"2 1\r",
    b"0 1 5 7 added 0 1",
    b"0 1 5 7 added 0 1 2 3",
    b"0 1 5 7 added 0 1 2 ",
    b" 0 1 5 7 added 0 1 2",
    b"0 1 5 7 17 0 1 2",
    b"0 1 5 7 Added 0 1 2",
    b"0 1 5 7 adde 0 1 2",
    b"0 1 5 -0 added 0 1 2",
    b"0 1 5 7 added -0 1 2",
    b"0 1 4294967296 7 added 0 1 2",
    b"0 1 5 9223372036854775808 added 0 1 2",
    b"0 1 5 7 added -9223372036854775809 1 2",
    b"18446744073709551616 1 5 7 added 0 1 2",
    b"0 1 5 7 added 0 1 18446744073709551616",
    b"0 1 5 7 added 0 01 2",
];

/// The input of `judge` for a random log, most often with a line that cannot be read.
pub fn unread_log(prng: &mut Prng) -> Vec<u8> {
    let text = any_log(prng).to_string();
    let mut lines: Vec<Vec<u8>> = text.lines().map(|line| line.as_bytes().to_vec()).collect();
    for _ in 0..prng.below(3) {
        let place = prng.place(lines.len());
        spoil(prng, &mut lines[place]);
    }
    let mut bytes = lines.join(&b'\n');
    bytes.push(b'\n');
    bytes
}

/// Changes a line so that no line feed comes into it and it is not empty.
fn spoil(prng: &mut Prng, line: &mut Vec<u8>) {
    let mut changed = line.clone();
    let place = prng.place(line.len());
    match prng.below(8) {
        0 => changed.insert(place, b'0'),
        1 => changed.insert(place, b' '),
        2 => drop(changed.remove(place)),
        3 => changed[place] = prng.draw() as u8,
        4 => changed.insert(place, prng.one_of(b"-+\t\r\0")),
        5 => changed.extend_from_slice(prng.one_of(&[b" 1", b" ", b"\r", b"0"])),
        6 => changed.resize(prng.between(1, 400) as usize, b'9'),
        _ => changed = prng.one_of(&WHOLE).to_vec(),
    }
    if !changed.is_empty() && !changed.contains(&b'\n') {
        *line = changed;
    }
}
