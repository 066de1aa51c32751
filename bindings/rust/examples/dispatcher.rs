//! The report run of `examples/c/dispatcher.c`: three workers post twelve invoices; a dispatcher gives each a few steps
//! at a time. The accounts are numbered from 1000 up; the table spreads them over its buckets. Two accounts get
//! invoices from all three workers, and no post is lost. Worker 2 is parked in the middle of one until the others have
//! finished: they carry it out. Nothing is allocated for the table. The steps are planned by the most that an operation
//! takes, and the checks that answered say how many were taken. Then the year is closed: what the other months came to
//! is posted, one amount an account, the yearly rebates are shown, and the accounts are exported as a CSV file. A
//! refusal, an invoice that the table has no room for or that makes a total of more than 64 bits, and a month whose
//! invoices and totals differ end the run with a line on standard error and exit status 1.

use std::error::Error;
use std::io::{self, Write};
use std::process::ExitCode;

use totals::raw::{TOTALS_EXPORT_HEADER, TOTALS_EXPORT_ROW};
use totals::{Answer, Ran, Settings, Table};

const WORKERS: usize = 3;
const CAPACITY: usize = 4;
const DEPTH: usize = 2;
/// As many as [`Settings::words_needed`] says; [`Table::open`] refuses fewer.
const WORDS: usize = 408;
/// The most accounts that the table can hold.
const PLACES: usize = CAPACITY << DEPTH;
/// The most bytes of a file of so many accounts.
const BYTES: usize = TOTALS_EXPORT_HEADER as usize + TOTALS_EXPORT_ROW as usize * PLACES;

/// Accounts and cents, per worker.
const INVOICES: [[(u32, i64); 4]; WORKERS] = [
    [(1000, 12500), (1003, 4000), (1001, -2500), (1000, 900)],
    [(1001, 7300), (1004, 1500), (1000, 2900), (1005, 6000)],
    [(1002, 8800), (1000, 450), (1001, 5000), (1006, 150)],
];

/// What the other months of the year came to; account 1003 is below 0 then.
const OTHER_MONTHS: [(u32, i64); 5] =
    [(1000, 5_983_250), (1001, 990_234), (1002, 991_233), (1003, -9_000), (1004, 24_998_500)];

/// The turns, in a fixed, mixed order: a worker, and how many steps it gets.
const ORDER: [(usize, u64); 8] = [(0, 7), (2, 5), (1, 9), (1, 2), (0, 4), (2, 3), (0, 6), (1, 8)];

type Done<T = ()> = Result<T, Box<dyn Error>>;

#[derive(Clone, Copy)]
enum Stage {
    Resting,
    Posting,
}

/// The number of a worker's invoice, and what it does about it.
#[derive(Clone, Copy)]
struct Worker {
    invoice: usize,
    stage: Stage,
}

/// Crowded and overrun are answers, and nothing was changed: an invoice that is not kept elsewhere would be lost.
fn not_carried_out(answer: Answer, w: usize, account: u32) -> Done {
    Err(format!("{answer}: worker {w}'s update of account {account} was not carried out").into())
}

/// Totals have 64 bits; a sum that has more is no total.
fn add(sum: i64, amount: i64) -> Done<i64> {
    sum.checked_add(amount).ok_or_else(|| format!("{sum} + {amount} has more than 64 bits").into())
}

struct Dispatcher<'a, W> {
    settings: Settings,
    table: Table<'a>,
    workers: [Worker; WORKERS],
    /// How many of the month's posts came to an answer by each check.
    answers: [u64; Settings::GREATEST_CHECK as usize],
    out: W,
}

impl<W: Write> Dispatcher<'_, W> {
    /// After a post's answer comes the next invoice.
    fn answered(&mut self, w: usize, answer: Answer, steps: u64, check: u64) -> Done {
        let worker = &mut self.workers[w];
        let (account, cents) = INVOICES[w][worker.invoice];
        let Answer::Posted(_) = answer else { return not_carried_out(answer, w, account) };
        self.answers[check as usize - 1] += 1;
        *worker = Worker { invoice: worker.invoice + 1, stage: Stage::Resting };
        Ok(writeln!(self.out, "worker {w} posts {cents} to {account}: {answer}, {steps} steps")?)
    }

    /// One turn: a resting worker starts on its next invoice; then up to so many steps.
    fn turn(&mut self, w: usize, steps: u64) -> Done {
        let worker = &mut self.workers[w];
        if let Stage::Resting = worker.stage {
            let (account, cents) = INVOICES[w][worker.invoice];
            self.table.post(w as u64, account, cents)?;
            worker.stage = Stage::Posting;
        }
        match self.table.run(w as u64, steps)? {
            // a page break; the worker is parked until its next turn, wherever its operation is
            Ran::Moved(_) => Ok(()),
            Ran::Answered { answer, steps, check } => self.answered(w, answer, steps, check),
        }
    }

    fn has_invoices(&self, w: usize) -> bool {
        self.workers[w].invoice < INVOICES[w].len()
    }

    /// Turns in the order, so many at most, until all is posted. The parked worker gets none.
    fn dispatch(&mut self, turns: usize, parked: Option<usize>) -> Done {
        for (w, steps) in ORDER.into_iter().cycle().take(turns) {
            if !(0..WORKERS).any(|w| Some(w) != parked && self.has_invoices(w)) {
                break;
            }
            if Some(w) != parked && self.has_invoices(w) {
                self.turn(w, steps)?;
            }
        }
        Ok(())
    }

    /// The rest of a worker's operation, which never takes more steps than these.
    fn finish(&mut self, w: usize, what: &str, account: u32) -> Done {
        match self.table.run(w as u64, self.settings.greatest_steps())? {
            Ran::Moved(steps) => Err(format!("worker {w}: no answer after {steps} steps").into()),
            Ran::Answered { answer: answer @ (Answer::Crowded | Answer::Overrun), .. } => {
                not_carried_out(answer, w, account)
            }
            Ran::Answered { answer, steps, .. } => {
                Ok(writeln!(self.out, "worker {w} {what} {account}: {answer}, {steps} steps")?)
            }
        }
    }

    /// All accounts with their totals, ascending; parked workers do not matter. Gives the sum of the totals.
    fn show(&mut self, title: &str) -> Done<i64> {
        let (mut accounts, mut totals) = ([0; PLACES], [0; PLACES]);
        let count = self.table.listing_into(&mut accounts, &mut totals)?;
        writeln!(self.out, "{title}: {count} accounts")?;
        for (account, total) in accounts.iter().zip(totals).take(count) {
            writeln!(self.out, "{account:10} {total:6}")?;
        }
        totals.into_iter().take(count).try_fold(0, add)
    }

    /// The sum of the totals against that of the invoices, which the table has no part in.
    fn check_month(&mut self, totals: i64) -> Done {
        let sum = INVOICES.into_iter().flatten().try_fold(0, |sum, (_, cents)| add(sum, cents))?;
        if sum != totals {
            return Err(format!("the invoices are {sum} in all, the totals {totals}").into());
        }
        Ok(writeln!(self.out, "the month: invoices and totals are {sum} each")?)
    }

    /// What the month took, each check that answered being so many steps; and the most that it could have.
    fn show_steps(&mut self) -> Done {
        let figures = (1..=Settings::GREATEST_CHECK).filter_map(|check| self.settings.steps_at_check(check));
        let taken: u64 = self.answers.iter().zip(figures).map(|(answers, steps)| answers * steps).sum();
        let planned = INVOICES.into_iter().flatten().count() as u64 * self.settings.greatest_steps();
        let [first, second, third, fourth] = self.answers;
        write!(self.out, "posts by check: {first} {second} {third} {fourth}")?;
        Ok(writeln!(self.out, "; steps: {taken} of {planned} planned")?)
    }

    fn post_other_months(&mut self) -> Done {
        for (account, cents) in OTHER_MONTHS {
            self.table.post(0, account, cents)?;
            self.finish(0, &format!("posts {cents} to"), account)?;
        }
        Ok(())
    }

    /// The rebate on each account's total, and their sum: a rebate has 59 bits at most, and there are few of them.
    fn show_rebates(&mut self) -> Done {
        let (mut accounts, mut rebates) = ([0; PLACES], [0; PLACES]);
        let count = self.table.rebates_into(&mut accounts, &mut rebates)?;
        writeln!(self.out, "the year's rebates: {count} accounts")?;
        for (account, rebate) in accounts.iter().zip(rebates).take(count) {
            writeln!(self.out, "{account:10} {rebate:6}")?;
        }
        let sum: u64 = rebates.iter().take(count).sum();
        Ok(writeln!(self.out, "the rebates are {sum} in all")?)
    }

    /// The file's lines end with CR LF; its totals are in units.
    fn show_file(&mut self) -> Done {
        let mut file = [0; BYTES];
        let size = self.table.export_into(&mut file)?;
        writeln!(self.out, "the year as a file: {size} bytes")?;
        Ok(self.out.write_all(&file[..size])?)
    }
}

fn report_run() -> Done {
    let settings = Settings::new(WORKERS as u64, CAPACITY as u64, DEPTH as u64)?;
    let mut words = [0; WORDS];
    let table = Table::open(&mut words, settings)?;
    let workers = [Worker { invoice: 0, stage: Stage::Resting }; WORKERS];
    let mut run = Dispatcher { settings, table, workers, answers: Default::default(), out: io::stdout().lock() };
    run.dispatch(26, None)?;
    run.show("worker 2 is parked, posting 450 to 1000")?;
    run.dispatch(usize::MAX, Some(2))?;
    run.show("worker 2 is still parked")?;
    run.dispatch(usize::MAX, None)?;
    let totals = run.show("all is posted")?;
    run.check_month(totals)?;
    run.show_steps()?;
    run.table.lookup(0, 1000)?;
    run.finish(0, "looks up", 1000)?;
    run.table.delete(1, 1006)?;
    run.finish(1, "deletes", 1006)?;
    run.show("at the end")?;
    run.post_other_months()?;
    run.show_rebates()?;
    run.show_file()?;
    Ok(run.out.flush()?)
}

fn main() -> ExitCode {
    match report_run() {
        Ok(()) => ExitCode::SUCCESS,
        Err(error) => {
            eprintln!("{error}");
            ExitCode::FAILURE
        }
    }
}
