//! The totals table: a wait-free extendible hash table of accounts and totals over lent 64-bit words, proved in Rattle,
//! behind a safe interface.
//!
//! A table is opened for n workers. An operation (insert, delete, post, lookup) is handed to a worker, and then takes
//! its steps, one at a time and interleaved with the others' as the caller likes. Whatever the other workers do, a
//! lookup answers at its second step, an update at one of its four checks, which are its steps 2n+11, 6n+17, 8n+27 and
//! 12n+33; with one worker at step 13 or 23. [`Settings::greatest_steps`] is the most to plan for. Workers are numbers
//! and no threads: a [`Table`] has one caller at a time. An insert or a post that is answered [`Answer::Crowded`] or
//! [`Answer::Overrun`] was not carried out; a delete is never answered so. An account's bucket is chosen by the first
//! bits of its [`place`], so that accounts numbered one after another are spread over all buckets; listings ascend by
//! the account's number. [`rebate`] is the yearly rebate on a total in cents, and [`Table::rebates`] has those of all
//! accounts. [`Table::export`] is the listing as a CSV file. [`check_log`] judges a log of answered operations, of this
//! table or another: whether some order of a plain table explains it.
//!
//! ```
//! use totals::{Answer, Owned, Ran, Refusal, Settings};
//! let mut owned = Owned::new(Settings::new(2, 2, 1)?)?;
//! let mut table = owned.table();
//! table.insert(1, 9, 90)?;
//! assert_eq!(table.run(1, 3)?, Ran::Moved(3));
//! table.insert(0, 5, 50)?;
//! assert_eq!(table.run(0, 99)?, Ran::Answered { answer: Answer::Added, steps: 15, check: 1 });
//! // worker 0 has helped worker 1, which is parked
//! assert_eq!(table.listing()?, [(5, 50), (9, 90)]);
//! assert_eq!(table.insert(1, 9, 91), Err(Refusal::Busy));
//! # Ok::<(), Refusal>(())
//! ```
#![deny(missing_docs, unsafe_op_in_unsafe_fn)]

mod answer;
mod logs;
mod places;
pub mod raw;
mod rebate;
mod refusal;
mod settings;
mod table;

pub use answer::{Answer, Ran, Stepped};
pub use logs::{check_log, check_log_into, Logged, Operation};
pub use places::{account_at, place};
pub use rebate::rebate;
pub use refusal::Refusal;
pub use settings::Settings;
pub use table::{Owned, Table};
