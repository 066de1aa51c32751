// The file of a listing by a loop of `write!`, as a program in Rust would make it.
use std::io::Write;

// The rows' file at the start of the bytes: how many it takes. callgrind knows it by its name.
#[inline(never)]
pub fn write_rows(rows: impl Iterator<Item = (u32, i64)>, mut out: &mut [u8]) -> usize {
    let room = out.len();
    write!(out, "account,total\r\n").expect("room for the header");
    for (account, total) in rows {
        let (sign, cents) = (if total < 0 { "-" } else { "" }, total.unsigned_abs());
        let (units, rest) = (cents / 100, cents % 100);
        write!(out, "{account},{sign}{units}.{rest:02}\r\n").expect("room for a row");
    }
    room - out.len()
}
