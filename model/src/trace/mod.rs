//! A run as it is shown: the operations, steps, moments, listings and refused lines that an
//! input of driver lines makes. `log_page` and `log_chart` show a log of the sister product.

mod chart;
pub mod command;
mod drawn;
mod labels;
mod leaf;
mod log_chart;
pub mod log_page;
mod looks;
mod marks;
pub mod page;
pub mod record;
mod words;

pub use leaf::{Leaf, Split};

use crate::records::{Answer, Update};
use crate::settings::Settings;
use crate::task::StepKind;

/// An accepted call; its places are those of its list, from 1.
#[derive(Clone, Debug)]
pub struct Operation {
    pub worker: usize,
    pub update: Update,
    pub call: usize,
    /// The places of its steps.
    pub steps: Vec<usize>,
    /// With the check that gave it, 0 for a lookup's.
    pub answer: Option<(Answer, u8)>,
}

/// An accepted step.
#[derive(Clone, Debug)]
pub struct Step {
    pub place: usize,
    pub operation: usize,
    /// Which of its operation's steps it is, from 1.
    pub number: usize,
    pub kind: StepKind,
    /// What it read or changed, in words.
    pub note: String,
    /// By a state step: in its working copy. By a directory swap: in the current directory.
    pub splits: Vec<Split>,
}

impl Step {
    /// Its splits, if any, are in the current directory from now on.
    pub fn is_in_force(&self) -> bool {
        matches!(self.kind, StepKind::SwapDirectory { succeeded: true })
    }
}

/// A moment, and what the plain table holds after it.
#[derive(Clone, Debug)]
pub struct Effect {
    pub place: usize,
    pub operation: usize,
    pub answer: Answer,
    pub contents: Vec<(u32, i64)>,
}

/// A listing with what it shows.
#[derive(Clone, Debug)]
pub struct Listing {
    pub place: usize,
    pub items: Vec<(u32, i64)>,
}

/// A line with its number in the input, the output it was met with and its first and last place.
#[derive(Clone, Debug)]
pub struct Met {
    pub number: usize,
    pub text: String,
    pub output: String,
    pub first: usize,
    pub last: usize,
}

impl Met {
    /// Refused or unread: it changed nothing.
    pub fn is_refused(&self) -> bool {
        self.is_unread() || self.output.starts_with("refused")
    }

    pub fn is_unread(&self) -> bool {
        self.output == "unread"
    }
}

/// What follows an accepted opening, or precedes the first one.
#[derive(Clone, Debug, Default)]
pub struct List {
    /// The opening's line number and settings.
    pub opening: Option<(usize, Settings)>,
    /// Calls, steps, listings, refused and unread lines.
    pub places: usize,
    pub lines: Vec<Met>,
    pub operations: Vec<Operation>,
    pub steps: Vec<Step>,
    pub effects: Vec<Effect>,
    pub listings: Vec<Listing>,
}
