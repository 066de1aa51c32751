//! Answers lines from a reader as the program `totals` must, byte for byte.

use crate::lines::{read_line, Line};
use crate::machine::{Machine, Stepped};
use crate::records::{Answer, Kind};
use crate::refusal;
use crate::starts::Start;
use std::io::{self, BufRead, Write};

/// Words that the program lends.
pub const LENT: u64 = 8_192;
/// Places in the lists that the program lends.
pub const PLACES: usize = 4_096;
/// No line that can be read is longer than this; the rest of a longer line is dropped.
pub const LONGEST: usize = 64;

/// The program's memory: no machine before the first accepted opening.
#[derive(Debug, Default)]
pub struct Driver {
    pub machine: Option<Machine>,
    start: Start,
}

/// An answer as it is printed, with its total if found or posted.
pub fn answer_words(answer: Answer) -> String {
    match answer {
        Answer::Added => "added".to_string(),
        Answer::Replaced => "replaced".to_string(),
        Answer::Removed => "removed".to_string(),
        Answer::Absent => "absent".to_string(),
        Answer::Found(total) => format!("found {total}"),
        Answer::None => "none".to_string(),
        Answer::Crowded => "crowded".to_string(),
        Answer::Posted(total) => format!("posted {total}"),
        Answer::Overrun => "overrun".to_string(),
    }
}

impl Driver {
    pub fn new(start: impl Into<Start>) -> Driver {
        Driver {
            machine: None,
            start: start.into(),
        }
    }

    /// The output for one line, line feeds included.
    pub fn answer(&mut self, bytes: &[u8]) -> String {
        match read_line(bytes) {
            Some(line) => self.answer_line(&line),
            None => "unread\n".to_string(),
        }
    }

    pub fn answer_line(&mut self, line: &Line) -> String {
        let outcome = match *line {
            Line::Open { n, b, m } => self.open(n, b, m),
            Line::Call {
                kind,
                worker,
                account,
                total,
            } => self.call(kind, worker, account, total),
            Line::Step { worker, count } => self.steps(worker, count),
            Line::List => self.list(),
        };
        outcome.unwrap_or_else(|number| format!("refused {number}\n"))
    }

    fn opened(&mut self) -> Result<&mut Machine, u8> {
        self.machine.as_mut().ok_or(refusal::STRANGE)
    }

    fn open(&mut self, n: u64, b: u64, m: u64) -> Result<String, u8> {
        self.machine = Some(self.start.open(n, b, m)?);
        Ok("ok\n".to_string())
    }

    fn call(&mut self, kind: Kind, w: usize, account: u32, total: i64) -> Result<String, u8> {
        self.opened()?.call(w, kind.number(), account, total)?;
        Ok("ok\n".to_string())
    }

    fn steps(&mut self, worker: usize, count: u64) -> Result<String, u8> {
        let machine = self.opened()?;
        for _ in 0..count {
            match machine.step(worker).stepped {
                Stepped::Moved => {}
                Stepped::Refused(number) => return Err(number),
                Stepped::Answered { answer, steps, .. } => {
                    return Ok(format!("answered {} {steps}\n", answer_words(answer)))
                }
            }
        }
        Ok(format!("moved {count}\n"))
    }

    fn list(&mut self) -> Result<String, u8> {
        let items = self.opened()?.listing(PLACES, PLACES)?;
        let mut text = String::new();
        for (account, total) in &items {
            text.push_str(&format!("{account} {total}\n"));
        }
        text.push_str(&format!("end {}\n", items.len()));
        Ok(text)
    }
}

/// Reads up to the next line feed or the end of the input, keeping at most `LONGEST + 1`
/// bytes. Answers false when the input ended before any byte was read.
pub fn next_line(input: &mut impl BufRead, line: &mut Vec<u8>) -> io::Result<bool> {
    line.clear();
    let mut any = false;
    loop {
        let buffer = input.fill_buf()?;
        if buffer.is_empty() {
            return Ok(any);
        }
        any = true;
        let end = buffer.iter().position(|byte| *byte == b'\n');
        let length = end.unwrap_or(buffer.len());
        let room = (LONGEST + 1).saturating_sub(line.len());
        line.extend_from_slice(&buffer[..length.min(room)]);
        input.consume(length + usize::from(end.is_some()));
        if end.is_some() {
            return Ok(true);
        }
    }
}

/// Answers every line of the input.
pub fn run(
    mut input: impl BufRead,
    mut output: impl Write,
    start: impl Into<Start>,
) -> io::Result<()> {
    let mut driver = Driver::new(start);
    let mut line = Vec::new();
    while next_line(&mut input, &mut line)? {
        output.write_all(driver.answer(&line).as_bytes())?;
    }
    output.flush()
}

/// The whole output for a whole input.
pub fn transcript(input: &[u8], start: impl Into<Start>) -> Vec<u8> {
    let mut output = Vec::new();
    run(input, &mut output, start).expect("reading and writing memory does not fail");
    output
}
