//! The tariff: each answer comes with the check that gave it, after exactly that check's steps.

use crate::machine::Stepped;
use crate::records::Kind;
use crate::settings::Settings;
use crate::violation::Violation;

/// The steps of a lookup.
const LOOKUP_STEPS: u64 = 2;
/// The steps that an update may take where there is one worker.
const ALONE: [u64; 2] = [13, 23];

/// Counts the steps of each worker's operation, and holds its answer against them.
#[derive(Debug)]
pub struct Meter {
    settings: Settings,
    steps: Vec<u64>,
}

impl Meter {
    pub fn new(settings: Settings) -> Meter {
        Meter {
            settings,
            steps: vec![0; settings.workers],
        }
    }

    /// To be told every accepted step: an answer tells the steps that were made, by the tariff;
    /// without one there are more to come.
    pub fn step(&mut self, w: usize, kind: Kind, stepped: Stepped) -> Result<(), Violation> {
        self.steps[w] += 1;
        let made = self.steps[w];
        let Stepped::Answered { steps, check, .. } = stepped else {
            return match made < bound(&self.settings, kind) {
                true => Ok(()),
                false => Err(late(w, kind, made)),
            };
        };
        self.steps[w] = 0;
        if steps != made {
            return broken(w, kind, format!("told {steps} steps, but {made} were made"));
        }
        told(&self.settings, w, kind, steps, check)
    }
}

/// The step at which an operation must have been answered.
fn bound(settings: &Settings, kind: Kind) -> u64 {
    match kind {
        Kind::Lookup => LOOKUP_STEPS,
        _ => settings.update_bound(),
    }
}

/// The words for a worker's operation.
pub(crate) fn words(w: usize, kind: Kind) -> String {
    match kind {
        Kind::Insert => format!("insert of worker {w}"),
        Kind::Delete => format!("delete of worker {w}"),
        Kind::Lookup => format!("lookup of worker {w}"),
        Kind::Post => format!("post of worker {w}"),
    }
}

fn late(w: usize, kind: Kind, steps: u64) -> Violation {
    let detail = format!("{} without answer after {steps} steps", words(w, kind));
    Violation::new("step bound", detail)
}

fn broken(w: usize, kind: Kind, text: String) -> Result<(), Violation> {
    let detail = format!("{} {text}", words(w, kind));
    Err(Violation::new("tariff", detail))
}

/// An update is told its check, 1 to 4, after that check's steps; a lookup 0, after 2. Where there
/// is one worker, an update takes 13 or 23.
fn told(s: &Settings, w: usize, kind: Kind, steps: u64, check: u8) -> Result<(), Violation> {
    let due = match (kind, check) {
        (Kind::Lookup, 0) => LOOKUP_STEPS,
        (Kind::Insert | Kind::Delete | Kind::Post, 1..=4) => {
            s.check_steps()[usize::from(check) - 1]
        }
        _ => return broken(w, kind, format!("told check {check}")),
    };
    if steps != due {
        let text = format!("told check {check} after {steps} steps, not {due}");
        return broken(w, kind, text);
    }
    if kind != Kind::Lookup && s.workers == 1 && !ALONE.contains(&steps) {
        let text = format!("told check {check} after {steps} steps, with no other worker");
        return broken(w, kind, text);
    }
    Ok(())
}

/// The check told is the last of those that the operation made.
pub fn is_last_made(w: usize, kind: Kind, check: u8, made: u8) -> Result<(), Violation> {
    match check == made {
        true => Ok(()),
        false => broken(w, kind, format!("told check {check}, but {made} were made")),
    }
}
