// One operation on a bucket record, by the proved library or by the same source compiled as Rust.
use crate::same;

unsafe extern "C" {
    fn leaf(
        p: *mut u64,
        len: usize,
        which: u64,
        q: usize,
        to: usize,
        b: usize,
        n: usize,
        account: u64,
        total: u64,
    ) -> u64;
}

// The operations by their numbers, `which` below; any other number moves.
pub const MOVE: u64 = 0;
pub const SEARCH: u64 = 1;
pub const PUT: u64 = 2;
pub const REMOVE: u64 = 3;
pub const HALF: u64 = 4;

// What is asked of a record; the fields are those of the compared function.
#[derive(Clone, Copy)]
pub struct Work {
    pub which: u64,
    pub q: usize,
    pub to: usize,
    pub b: usize,
    pub n: usize,
    pub account: u64,
    pub total: u64,
}

pub fn proved(words: &mut [u64], w: Work) -> u64 {
    unsafe {
        leaf(
            words.as_mut_ptr(),
            words.len(),
            w.which,
            w.q,
            w.to,
            w.b,
            w.n,
            w.account,
            w.total,
        )
    }
}

pub fn rust(words: &mut [u64], w: Work) -> u64 {
    same::leaves::leaves_c::same_leaf(words, w.which, w.q, w.to, w.b, w.n, w.account, w.total)
}
