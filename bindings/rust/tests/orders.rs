//! The stored orders of the second model by the safe interface: every reply is the stored one, every answer comes with
//! the check whose steps it took, and every check answers some update.

use model::lines::{read_line, Line};
use model::records::Kind;
use std::fs;
use std::path::{Path, PathBuf};
use totals::{Answer, Owned, Ran, Refusal, Settings};

/// An order under way.
struct Replay {
    settings: Settings,
    owned: Owned,
    /// The steps and the check of each answer.
    answers: Vec<(u64, u64)>,
}

impl Replay {
    fn new(n: u64, b: u64, m: u64) -> Result<Replay, Refusal> {
        let settings = Settings::new(n, b, m)?;
        Ok(Replay { settings, owned: Owned::new(settings)?, answers: Vec::new() })
    }

    /// What `totals` prints for the line.
    fn reply(&mut self, line: Line) -> Result<String, Refusal> {
        match line {
            Line::Open { n, b, m } => *self = Replay::new(n, b, m)?,
            Line::Call { kind, worker, account, total } => self.call(kind, worker as u64, account, total)?,
            Line::Step { worker, count } => return self.run(worker as u64, count),
            Line::List => return self.list(),
        }
        Ok("ok\n".to_string())
    }

    fn call(&mut self, kind: Kind, worker: u64, account: u32, total: i64) -> Result<(), Refusal> {
        let mut table = self.owned.table();
        match kind {
            Kind::Insert => table.insert(worker, account, total),
            Kind::Delete => table.delete(worker, account),
            Kind::Lookup => table.lookup(worker, account),
            Kind::Post => table.post(worker, account, total),
        }
    }

    fn run(&mut self, worker: u64, count: u64) -> Result<String, Refusal> {
        match self.owned.table().run(worker, count)? {
            Ran::Moved(steps) => Ok(format!("moved {steps}\n")),
            Ran::Answered { answer, steps, check } => {
                let figure = match answer {
                    Answer::Found(_) | Answer::None => (check == 0).then_some(Settings::LOOKUP_STEPS),
                    _ => self.settings.steps_at_check(check),
                };
                assert_eq!(figure, Some(steps), "check {check}");
                self.answers.push((steps, check));
                Ok(format!("answered {answer} {steps}\n"))
            }
        }
    }

    fn list(&mut self) -> Result<String, Refusal> {
        let rows = self.owned.table().listing()?;
        let text: String = rows.iter().map(|(account, total)| format!("{account} {total}\n")).collect();
        Ok(format!("{text}end {}\n", rows.len()))
    }
}

/// The steps and the check of each answer of a stored order, whose replies are the stored ones.
fn answers(order: &Path) -> Vec<(u64, u64)> {
    let stored = |ending: &str| fs::read_to_string(order.with_extension(ending)).expect("a stored file");
    let mut replay = Replay::new(1, 2, 0).expect("the least settings");
    let mut replies = String::new();
    for line in stored("txt").lines() {
        let line = read_line(line.as_bytes()).expect("a stored line can be read");
        replies += &replay.reply(line).unwrap_or_else(|refusal| format!("refused {}\n", refusal.number()));
    }
    assert_eq!(replies, stored("out"), "{}", order.display());
    replay.answers
}

fn orders() -> PathBuf {
    Path::new(env!("CARGO_MANIFEST_DIR")).join("../../model/orders")
}

#[test]
fn all_stored_orders() {
    let mut checks = [0; Settings::GREATEST_CHECK as usize + 1];
    let files = fs::read_dir(orders()).expect("the stored orders").map(|file| file.expect("a file").path());
    for order in files.filter(|file| file.extension().is_some_and(|ending| ending == "txt")) {
        answers(&order).into_iter().for_each(|(_, check)| checks[check as usize] += 1);
    }
    assert!(checks[1..].iter().all(|updates| *updates > 0), "updates answered by each check: {checks:?}");
}

#[test]
fn orders_that_end_at_each_check() {
    let last = |name: &str| answers(&orders().join(name)).pop();
    assert_eq!(last("always-crowded"), Some((13, 1)));
    assert_eq!(last("delete-into-full"), Some((23, 2)));
    assert_eq!(last("one-pass"), Some((43, 3)));
    assert_eq!(last("one-directory-round"), Some((69, 4)));
}
