//! Lines that cannot be read, made from lines that can.

use crate::lines::{read_line, Line};
use crate::prng::Prng;

/// What `totals` calls unread, as a whole line.
const WHOLE: &[&[u8]] = &[
    b"",
    b" ",
    b"T ",
    b" T",
    b"t",
    b"TT",
    b"T\r",
    b"T\0",
    b"X 0 1",
    b"S 0 0",
    b"S 0 10000",
    b"S 65536 1",
    b"O 65536 2 1",
    b"O 1 65536 1",
    b"O 1 2 65536",
    b"O 1 2",
    b"I 0 4294967296 1",
    b"I 0 5 -0",
    b"I 0 5 -",
    b"I 0 5 9223372036854775808",
    b"I 0 5 -9223372036854775809",
    b"I 0 5 18446744073709551616",
    b"P 0 5",
    b"P 0 5 7 7",
    b"P 65536 5 7",
    b"P 0 4294967296 7",
    b"P 0 5 -0",
    b"P 0 5 9223372036854775808",
    b"P 0 5 -9223372036854775809",
    b"D 0 99999999999999999999999999",
    b"L 0 -5",
];

/// The line, or another one, changed so that it cannot be read.
pub fn spoiled(prng: &mut Prng, line: &Line) -> Vec<u8> {
    loop {
        let bytes = changed(prng, line.to_string().into_bytes());
        if !bytes.contains(&b'\n') && read_line(&bytes).is_none() {
            return bytes;
        }
    }
}

fn changed(prng: &mut Prng, mut bytes: Vec<u8>) -> Vec<u8> {
    let place = prng.below(bytes.len() as u64 + 1) as usize;
    let spaces: Vec<usize> = (0..bytes.len()).filter(|i| bytes[*i] == b' ').collect();
    let space = prng.pick(&spaces);
    match (prng.below(11), space) {
        (0, Some(space)) => bytes.insert(space + 1, b'0'),
        (1, Some(space)) => bytes.insert(space, b' '),
        (2, Some(space)) => bytes[space] = b'\t',
        (3, Some(space)) => bytes.truncate(space),
        (4, Some(space)) => bytes.insert(space + 1, prng.pick(b"-+").unwrap_or(b'-')),
        (5, _) => bytes.push(prng.pick(b" \r\t").unwrap_or(b' ')),
        (6, _) => bytes[0] = bytes[0].to_ascii_lowercase(),
        (7, _) => bytes.extend_from_slice(b" 1"),
        (8, _) => bytes.insert(place, prng.draw() as u8),
        (9, _) => bytes = long(prng, bytes),
        _ => bytes = prng.pick(WHOLE).unwrap_or(b"").to_vec(),
    }
    bytes
}

/// A line of more than 64 bytes, now and then of thousands.
fn long(prng: &mut Prng, mut bytes: Vec<u8>) -> Vec<u8> {
    let most = if prng.percent(5) { 20_000 } else { 200 };
    let count = prng.between(65, most) as usize;
    let byte = prng.pick(b"0 9Tx\xff").unwrap_or(b'0');
    bytes.resize(count, byte);
    bytes
}
