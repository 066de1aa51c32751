//! A log of answered operations, as the program `judge` reads it: b and M on the first line, then a
//! line an operation.

use crate::lines::{signed, small, unsigned};
use crate::records::Answer;
use std::fmt::{self, Display, Formatter};

/// An answer without its total.
#[derive(Clone, Copy, PartialEq, Eq, Debug)]
pub enum Word {
    Added,
    Replaced,
    Removed,
    Absent,
    Found,
    None,
    Posted,
    Crowded,
    Overrun,
}

impl Word {
    pub const ALL: [Word; 9] = [
        Word::Added,
        Word::Replaced,
        Word::Removed,
        Word::Absent,
        Word::Found,
        Word::None,
        Word::Posted,
        Word::Crowded,
        Word::Overrun,
    ];

    pub fn name(self) -> &'static str {
        match self {
            Word::Added => "added",
            Word::Replaced => "replaced",
            Word::Removed => "removed",
            Word::Absent => "absent",
            Word::Found => "found",
            Word::None => "none",
            Word::Posted => "posted",
            Word::Crowded => "crowded",
            Word::Overrun => "overrun",
        }
    }

    fn read(field: &[u8]) -> Option<Word> {
        let mut all = Word::ALL.into_iter();
        all.find(|word| word.name().as_bytes() == field)
    }

    /// The word of an answer.
    pub fn of(answer: Answer) -> Word {
        match answer {
            Answer::Added => Word::Added,
            Answer::Replaced => Word::Replaced,
            Answer::Removed => Word::Removed,
            Answer::Absent => Word::Absent,
            Answer::Found(_) => Word::Found,
            Answer::None => Word::None,
            Answer::Posted(_) => Word::Posted,
            Answer::Crowded => Word::Crowded,
            Answer::Overrun => Word::Overrun,
        }
    }

    /// Whether the answer's total counts.
    pub fn has_total(self) -> bool {
        matches!(self, Word::Found | Word::Posted)
    }
}

/// The total of an answer that has one.
pub fn total_of(answer: Answer) -> Option<i64> {
    match answer {
        Answer::Found(total) | Answer::Posted(total) => Some(total),
        _ => None,
    }
}

/// One answered operation.
#[derive(Clone, PartialEq, Eq, Debug)]
pub struct Logged {
    pub worker: u64,
    pub kind: u64,
    pub account: u32,
    /// Of an insert; of a post its amount; otherwise it does not count.
    pub total: i64,
    pub answer: Word,
    /// Counts where the answer has a total.
    pub answer_total: i64,
    /// The positions of the call and of the answer.
    pub call: u64,
    pub end: u64,
}

impl Logged {
    /// Whether this is the answer that was logged.
    pub fn was_told(&self, answer: Answer) -> bool {
        let total_fits = total_of(answer).is_none_or(|total| total == self.answer_total);
        Word::of(answer) == self.answer && total_fits
    }

    /// Whether it was answered before the call of the other one.
    pub fn ended_before(&self, other: &Logged) -> bool {
        self.end < other.call
    }
}

/// Operations, each with a place counted from 0, and the settings of their table.
#[derive(Clone, PartialEq, Eq, Debug, Default)]
pub struct Log {
    pub b: u64,
    pub m: u64,
    pub operations: Vec<Logged>,
}

/// The log that an input is, or the number of the first line that is none of a log.
pub fn read(input: &[u8]) -> Result<Log, usize> {
    let text = input.strip_suffix(b"\n").unwrap_or(input);
    let mut lines = text.split(|byte| *byte == b'\n').enumerate();
    let (_, first) = lines.next().ok_or(1_usize)?;
    let (b, m) = read_settings(first).ok_or(1_usize)?;
    let operation = |(i, line)| read_operation(line).ok_or(i + 1);
    let operations: Result<Vec<Logged>, usize> = lines.map(operation).collect();
    operations.map(|operations| Log { b, m, operations })
}

fn fields(line: &[u8]) -> Vec<&[u8]> {
    line.split(|byte| *byte == b' ').collect()
}

fn read_settings(line: &[u8]) -> Option<(u64, u64)> {
    match fields(line)[..] {
        [b, m] => Some((small(b)?, small(m)?)),
        _ => None,
    }
}

fn read_operation(line: &[u8]) -> Option<Logged> {
    match fields(line)[..] {
        [worker, kind, account, total, answer, answer_total, call, end] => Some(Logged {
            worker: unsigned(worker)?,
            kind: unsigned(kind)?,
            account: u32::try_from(unsigned(account)?).ok()?,
            total: signed(total)?,
            answer: Word::read(answer)?,
            answer_total: signed(answer_total)?,
            call: unsigned(call)?,
            end: unsigned(end)?,
        }),
        _ => None,
    }
}

impl Display for Logged {
    fn fmt(&self, out: &mut Formatter<'_>) -> fmt::Result {
        let (answer, told) = (self.answer.name(), self.answer_total);
        write!(out, "{} {} {} ", self.worker, self.kind, self.account)?;
        write!(out, "{} {answer} {told} ", self.total)?;
        write!(out, "{} {}", self.call, self.end)
    }
}

/// The input of `judge`, each line ended.
impl Display for Log {
    fn fmt(&self, out: &mut Formatter<'_>) -> fmt::Result {
        writeln!(out, "{} {}", self.b, self.m)?;
        let mut all = self.operations.iter();
        all.try_for_each(|operation| writeln!(out, "{operation}"))
    }
}
