//! Judging logs: whether some order of a plain table explains what operations were answered.

use crate::raw::*;
use crate::{Answer, Refusal};

/// The kind of a logged operation, with what it was handed.
#[derive(Clone, Copy, Debug, PartialEq, Eq, Hash)]
pub enum Operation {
    /// The account's total is to be this one.
    Insert(i64),
    /// The account is to be removed.
    Delete,
    /// The account's total is asked for.
    Lookup,
    /// This amount is to be added to the account's total.
    Post(i64),
}

impl Operation {
    /// The kind, and the word of the total or the amount, 0 where there is none.
    fn words(self) -> [u64; 2] {
        match self {
            Operation::Insert(total) => [TOTALS_INSERT, total as u64],
            Operation::Delete => [TOTALS_DELETE, 0],
            Operation::Lookup => [TOTALS_LOOKUP, 0],
            Operation::Post(amount) => [TOTALS_POST, amount as u64],
        }
    }
}

/// An answered operation of a log.
#[derive(Clone, Copy, Debug, PartialEq, Eq, Hash)]
pub struct Logged {
    /// Who made it: any number. One worker's operations do not overlap.
    pub worker: u64,
    /// What was to be done.
    pub operation: Operation,
    /// The account's number.
    pub account: u32,
    /// What was answered.
    pub answer: Answer,
    /// The call's position: any number that is no other position of the log. Positions are compared only.
    pub call: u64,
    /// The answer's position, which is after the call's.
    pub end: u64,
}

impl Logged {
    /// How many words an operation has.
    pub const WORDS: usize = TOTALS_LOGGED_WORDS as usize;

    /// The most operations of a log.
    pub const GREATEST_COUNT: usize = TOTALS_GREATEST_LOGGED as usize;

    /// The operation as words: worker, kind, account, total, answer, the answer's total, call, end. Totals are words of
    /// two's complement, and 0 where there is none.
    ///
    /// ```
    /// use totals::{Answer, Logged, Operation};
    /// let operation = Operation::Post(-700);
    /// let logged = Logged { worker: 3, operation, account: 1000, answer: Answer::Posted(-200), call: 1, end: 4 };
    /// assert_eq!(logged.words(), [3, 4, 1000, -700_i64 as u64, 23, -200_i64 as u64, 1, 4]);
    /// ```
    pub fn words(self) -> [u64; Logged::WORDS] {
        let ([kind, total], [answer, answer_total]) = (self.operation.words(), self.answer.words());
        [self.worker, kind, self.account.into(), total, answer, answer_total, self.call, self.end]
    }
}

/// Judges a log of up to 12 answered operations, of a [`Table`](crate::Table) or of another product: whether some order
/// of them explains it. Such an order has each operation once, and none before one that was answered before its call,
/// whose end is below its call. A plain table that starts empty, fed the operations in this order, gives all the
/// answers of the log; it has the rule of [`Answer::Crowded`], with this capacity for b and this depth for M.
///
/// Gives the first such order, as the places of the operations in the log, counted from 0; or `None` where there is
/// none. Of two orders the first is the one with the lower place where they first differ, as of two `Vec<usize>` the
/// lesser one. An empty log is explained by the empty order. Refuses with [`Refusal::Settings`], [`Refusal::BadLog`],
/// in this order.
///
/// ```
/// use totals::{check_log, Answer, Logged, Operation, Refusal};
/// // worker 2 looks up an account and finds what worker 1, not answered yet, is about to insert
/// let insert = Logged {
///     worker: 1,
///     operation: Operation::Insert(700),
///     account: 1000,
///     answer: Answer::Added,
///     call: 2,
///     end: 5,
/// };
/// let lookup = Logged {
///     worker: 2,
///     operation: Operation::Lookup,
///     account: 1000,
///     answer: Answer::Found(700),
///     call: 1,
///     end: 4,
/// };
/// assert_eq!(check_log(&[lookup, insert], 2, 0)?, Some(vec![1, 0]));
/// // two lookups of another account may come in either order, and the first is shown
/// let missed = Logged { account: 1001, answer: Answer::None, ..lookup };
/// let other = Logged { worker: 3, call: 0, end: 3, ..missed };
/// assert_eq!(check_log(&[missed, other], 2, 0)?, Some(vec![0, 1]));
/// // an answer before the insert's call, and another total
/// assert_eq!(check_log(&[Logged { call: 0, end: 1, ..lookup }, insert], 2, 0)?, None);
/// assert_eq!(check_log(&[Logged { answer: Answer::Found(701), ..lookup }, insert], 2, 0)?, None);
/// // worker 1 has no two operations at a time
/// assert_eq!(check_log(&[Logged { worker: 1, ..lookup }, insert], 2, 0), Err(Refusal::BadLog));
/// # Ok::<(), Refusal>(())
/// ```
pub fn check_log(log: &[Logged], capacity: u64, depth: u64) -> Result<Option<Vec<usize>>, Refusal> {
    let words: Vec<u64> = log.iter().flat_map(|logged| logged.words()).collect();
    // never `Narrow`: it has a place for each operation
    let mut order = vec![0; log.len()];
    let explained = check_log_into(&words, capacity, depth, &mut order)?;
    Ok(explained.then(|| order.into_iter().map(|place| place as usize).collect()))
}

/// [`check_log`] of a log in words, [`Logged::words`] for each operation, without allocating: whether some order
/// explains it. The first one is then written to the start of the list, and nothing past the number of operations; else
/// the list stays as it is. Words may hold answers that no operation gives; no order explains these. Refuses with
/// [`Refusal::Settings`], [`Refusal::BadLog`], [`Refusal::Narrow`], in this order.
///
/// ```
/// use totals::{check_log_into, Refusal};
/// // worker 7 inserts 1000 with 700 and is answered added
/// let insert = [7, 1, 1000, 700, 17, 0, 1, 2];
/// let mut order = [9; 2];
/// assert!(check_log_into(&insert, 2, 0, &mut order)?);
/// assert_eq!(order, [0, 9]);
/// assert_eq!(check_log_into(&insert, 2, 0, &mut []), Err(Refusal::Narrow));
/// assert_eq!(check_log_into(&insert[1..], 2, 0, &mut []), Err(Refusal::BadLog));
/// # Ok::<(), Refusal>(())
/// ```
pub fn check_log_into(words: &[u64], capacity: u64, depth: u64, order: &mut [u64]) -> Result<bool, Refusal> {
    // SAFETY: the pointers and the lengths are those of two slices that are borrowed for the call.
    let number =
        unsafe { totals_check_log(words.as_ptr(), words.len(), capacity, depth, order.as_mut_ptr(), order.len()) };
    match number {
        TOTALS_OK => Ok(true),
        TOTALS_NO => Ok(false),
        _ => Err(Refusal::of(number)),
    }
}
