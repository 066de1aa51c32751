//! The commands: totals, lines, search, replay, faults, trace, amounts, rebates, rows, export,
//! logs, judge, verdicts, page.
#![forbid(unsafe_code)]

use model::check::Counts;
use model::explain::UNDECIDED;
use model::exports;
use model::fault::Fault;
use model::input::Input;
use model::judges::{self, Sort};
use model::lines::{read_line, Line};
use model::rebates;
use model::rows;
use model::search::{search, verdict, By, Failure};
use model::totals::{self, next_line};
use model::trace::command::{log, trace};
use std::io::{self, Read, Write};
use std::process::ExitCode;

const USAGE: &str = "usage:
  model totals [--fault NAME]
  model lines SEED COUNT [--crowded]
  model search --seed S --steps N [--fault NAME] [--external]
  model replay [--fault NAME]
  model faults
  model trace FILE
  model amounts SEED COUNT
  model rebates
  model rows SEED COUNT
  model export
  model logs SEED COUNT [--runs | --unread]
  model judge
  model verdicts LOGS VERDICTS
  model page FILE
";

/// The options that may follow a command.
#[derive(Default)]
struct Options {
    seed: Option<u64>,
    steps: Option<u64>,
    fault: Fault,
    external: bool,
}

fn main() -> ExitCode {
    let arguments: Vec<String> = std::env::args_os()
        .skip(1)
        .map(|argument| argument.to_string_lossy().into_owned())
        .collect();
    let outcome = arguments
        .split_first()
        .and_then(|(name, rest)| command(name, rest));
    outcome.map_or_else(usage, exit_code)
}

/// What a command comes to; nothing where there is none of that name, or not with these arguments.
fn command(name: &str, rest: &[String]) -> Option<io::Result<u8>> {
    match (name, rest) {
        ("trace", [file]) => Some(trace(file)),
        ("lines", _) => lines(rest),
        ("amounts", [seed, count]) => {
            let (seed, count) = (seed.parse().ok()?, count.parse().ok()?);
            Some(rebates::amounts(seed, count, buffered()).map(|()| 0))
        }
        ("rebates", []) => Some(rebates::rebates(io::stdin().lock(), buffered()).map(|()| 0)),
        ("rows", [seed, count]) => {
            let (seed, count) = (seed.parse().ok()?, count.parse().ok()?);
            let rows = (count <= rows::MOST).then(|| rows::rows(seed, count))?;
            Some(exports::write_rows(&rows, buffered()).map(|()| 0))
        }
        ("export", []) => Some(exports::export(io::stdin().lock(), buffered()).map(|()| 0)),
        ("faults", []) => Some(faults()),
        ("logs", _) => logs(rest),
        ("page", [file]) => Some(log(file)),
        ("judge", []) => Some(judge()),
        ("verdicts", [logs, verdicts]) => Some(compare(logs, verdicts)),
        _ => judging(name, &options(rest)?),
    }
}

/// The commands that take options.
fn judging(name: &str, options: &Options) -> Option<io::Result<u8>> {
    let searching = options.seed.is_some() || options.steps.is_some() || options.external;
    match name {
        "totals" if !searching => {
            let outcome = totals::run(io::stdin().lock(), io::stdout().lock(), options.fault);
            Some(outcome.map(|()| 0))
        }
        "search" => Some(run_search(options.seed?, options.steps?, options)),
        "replay" if !searching => Some(replay(options.fault)),
        _ => None,
    }
}

fn buffered() -> impl Write {
    io::BufWriter::new(io::stdout().lock())
}

fn exit_code(outcome: io::Result<u8>) -> ExitCode {
    match outcome {
        Ok(code) => ExitCode::from(code),
        Err(error) => {
            eprintln!("model: {error}");
            ExitCode::FAILURE
        }
    }
}

fn usage() -> ExitCode {
    eprint!("{USAGE}");
    ExitCode::from(2)
}

fn options(arguments: &[String]) -> Option<Options> {
    let mut options = Options::default();
    let mut rest = arguments.iter();
    while let Some(name) = rest.next() {
        match name.as_str() {
            "--seed" => options.seed = Some(rest.next()?.parse().ok()?),
            "--steps" => options.steps = Some(rest.next()?.parse().ok()?),
            "--fault" => options.fault = Fault::from_name(rest.next()?)?,
            "--external" => options.external = true,
            _ => return None,
        }
    }
    Some(options)
}

/// Writes so many lines of random input; an odd seed's last line has no line feed.
fn lines(arguments: &[String]) -> Option<io::Result<u8>> {
    let (words, input): (_, fn(u64) -> Input) = match arguments {
        [words @ .., last] if last == "--crowded" => (words, Input::crowded),
        words => (words, Input::new),
    };
    let numbers: Option<Vec<u64>> = words.iter().map(|word| word.parse().ok()).collect();
    match numbers?[..] {
        [seed, count] => Some(write_lines(input(seed), seed, count)),
        _ => None,
    }
}

fn write_lines(mut input: Input, seed: u64, count: u64) -> io::Result<u8> {
    let mut out = buffered();
    for place in 1..=count {
        out.write_all(&input.next_line())?;
        if place < count || seed.is_multiple_of(2) {
            out.write_all(b"\n")?;
        }
    }
    out.flush()?;
    Ok(0)
}

/// Writes so many logs of the sort that an option names.
fn logs(arguments: &[String]) -> Option<io::Result<u8>> {
    let (words, sort) = match arguments {
        [words @ .., last] if last == "--runs" => (words, Sort::Runs),
        [words @ .., last] if last == "--unread" => (words, Sort::Unread),
        words => (words, Sort::Any),
    };
    let numbers: Option<Vec<u64>> = words.iter().map(|word| word.parse().ok()).collect();
    match numbers?[..] {
        [seed, count] => Some(judges::logs(seed, count, sort, buffered()).map(|()| 0)),
        _ => None,
    }
}

fn judge() -> io::Result<u8> {
    let mut text = Vec::new();
    io::stdin().read_to_end(&mut text)?;
    judges::judge(&text, buffered()).map(|()| 0)
}

fn compare(logs: &str, verdicts: &str) -> io::Result<u8> {
    let (logs, verdicts) = (std::fs::read(logs)?, std::fs::read(verdicts)?);
    judges::verdicts(&logs, &verdicts, buffered())
}

fn run_search(seed: u64, steps: u64, options: &Options) -> io::Result<u8> {
    let by = match options.external {
        true => By::External,
        false => By::AllAssertions,
    };
    let (counts, failure) = search(by, options.fault, seed, steps);
    let mut out = io::stdout().lock();
    writeln!(out, "seed {seed}")?;
    match by {
        By::AllAssertions => print_counts(&mut out, &counts)?,
        By::External => writeln!(out, "orders {}\nsteps {}", counts.orders, counts.steps)?,
    }
    let Some(Failure {
        violation, shrunk, ..
    }) = failure
    else {
        return Ok(0);
    };
    writeln!(out, "violation {violation}")?;
    for line in &shrunk {
        writeln!(out, "{line}")?;
    }
    Ok(1)
}

fn print_counts(out: &mut impl Write, counts: &Counts) -> io::Result<()> {
    writeln!(out, "orders {}", counts.orders)?;
    writeln!(out, "steps {}", counts.steps)?;
    writeln!(out, "updates {}", counts.updates)?;
    writeln!(out, "lookups {}", counts.lookups)?;
    for (check, count) in counts.checks.iter().enumerate() {
        writeln!(out, "check {}: {count}", check + 1)?;
    }
    writeln!(out, "splits {}", counts.splits)?;
    writeln!(out, "failed bucket swaps {}", counts.failed_state_swaps)?;
    writeln!(
        out,
        "failed directory swaps {}",
        counts.failed_directory_swaps
    )?;
    writeln!(out, "crowded {}", counts.crowded)?;
    writeln!(out, "posted {}", counts.posted)?;
    writeln!(out, "overruns {}", counts.overruns)?;
    let full = &counts.amid_full;
    writeln!(out, "crowded by another's step {}", full.helped_crowded)?;
    writeln!(out, "crowded with room since {}", full.room_since)?;
    writeln!(out, "amid b accounts: replaced {}", full.replaced)?;
    writeln!(out, "amid b accounts: removed {}", full.removed)?;
    writeln!(out, "amid b accounts: absent {}", full.absent)?;
    writeln!(out, "amid b accounts: posted {}", full.posted)?;
    writeln!(out, "amid b accounts: overruns {}", full.overruns)?;
    writeln!(out, "room made and taken at one step {}", full.made_room)?;
    writeln!(out, "helped posts {}", counts.helped_posts)?;
    writeln!(out, "overtaken lookups {}", counts.overtaken_lookups)
}

fn replay(fault: Fault) -> io::Result<u8> {
    let mut input = io::stdin().lock();
    let mut bytes = Vec::new();
    let mut lines: Vec<Line> = Vec::new();
    let mut places = Vec::new();
    let mut place = 0;
    while next_line(&mut input, &mut bytes)? {
        place += 1;
        if let Some(line) = read_line(&bytes) {
            lines.push(line);
            places.push(place);
        }
    }
    let mut out = io::stdout().lock();
    let mut code = 0;
    for (by, name) in [
        (By::AllAssertions, "all assertions"),
        (By::External, "external"),
    ] {
        match verdict(by, fault, &lines) {
            Ok(counts) => writeln!(out, "{name}: held over {} steps", counts.steps)?,
            Err((at, violation)) => {
                writeln!(out, "{name}: line {}: {violation}", places[at])?;
                if violation.name != UNDECIDED {
                    code = 1;
                }
            }
        }
    }
    Ok(code)
}

fn faults() -> io::Result<u8> {
    let mut out = io::stdout().lock();
    for fault in Fault::ALL {
        writeln!(out, "{}", fault.name())?;
    }
    Ok(0)
}
