//! The commands `logs`, which writes random logs, `judge`, which judges them, and `verdicts`, which
//! compares another judge's verdicts. Logs are separated by an empty line.

use crate::judging::{judge_input, Verdict, MOST};
use crate::log::read;
use crate::logged_runs::run_log;
use crate::logs::any_log;
use crate::prng::Prng;
use crate::unread_logs::unread_log;
use crate::wrong_judges::WrongJudge;
use std::io::{self, Write};

/// Which logs are written.
#[derive(Clone, Copy, PartialEq, Eq, Debug)]
pub enum Sort {
    /// Right ones and spoilt ones.
    Any,
    /// Those of the machine's own runs.
    Runs,
    /// Some with a line that is none of a log.
    Unread,
}

/// Writes so many logs.
pub fn logs(seed: u64, count: u64, sort: Sort, mut output: impl Write) -> io::Result<()> {
    let mut prng = Prng::new(seed);
    for place in 0..count {
        if place > 0 {
            output.write_all(b"\n")?;
        }
        match sort {
            Sort::Any => write!(output, "{}", any_log(&mut prng))?,
            Sort::Runs => write!(output, "{}", run_log(&mut prng))?,
            Sort::Unread => output.write_all(&unread_log(&mut prng))?,
        }
    }
    output.flush()
}

/// The logs of a text, without the line feeds around them.
pub fn split(text: &[u8]) -> Vec<&[u8]> {
    let text = text.strip_suffix(b"\n").unwrap_or(text);
    let mut logs = Vec::new();
    let mut start = 0;
    for at in 1..text.len() {
        if at > start && text[at - 1] == b'\n' && text[at] == b'\n' {
            logs.push(&text[start..at - 1]);
            start = at + 1;
        }
    }
    logs.push(&text[start.min(text.len())..]);
    logs
}

/// Writes the verdict on each log of the text, one a line.
pub fn judge(text: &[u8], mut output: impl Write) -> io::Result<()> {
    for log in split(text) {
        writeln!(output, "{}", judge_input(log))?;
    }
    output.flush()
}

/// Compares the verdicts, a line for each log, and says how many are the same, and how many of them
/// show the first of several orders; 1 where one is not the same.
pub fn verdicts(logs: &[u8], verdicts: &[u8], mut output: impl Write) -> io::Result<u8> {
    let logs = split(logs);
    let lines = String::from_utf8_lossy(verdicts);
    let lines: Vec<&str> = lines.split_terminator('\n').collect();
    let mut several = 0;
    for (place, (log, line)) in logs.iter().zip(&lines).enumerate() {
        let own = judge_input(log);
        several += usize::from(is_one_of_several(log, &own));
        if own.to_string() != *line {
            let text = String::from_utf8_lossy(log);
            writeln!(output, "log {}: {line:?}, here {own}\n{text}", place + 1)?;
            return Ok(1);
        }
    }
    if logs.len() != lines.len() {
        writeln!(output, "{} logs, {} verdicts", logs.len(), lines.len())?;
        return Ok(1);
    }
    let same = lines.len();
    writeln!(
        output,
        "{same} verdicts are the same, {several} of them the first of several orders"
    )?;
    Ok(0)
}

/// Whether another order explains the log too: the one found with the highest place first.
fn is_one_of_several(log: &[u8], verdict: &Verdict) -> bool {
    let last = read(log).map(|log| WrongJudge::HighestPlaceFirst.judge(&log, MOST));
    matches!(verdict, Verdict::Order(_)) && last.is_ok_and(|last| last != *verdict)
}
