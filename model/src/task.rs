//! One worker's operation under way: which step comes next, and what it has read so far.

use crate::records::{Bucket, Directory, Kind, State, Update};
use crate::working::Working;
use std::rc::Rc;

/// The step to come.
#[derive(Clone, Copy, PartialEq, Eq, Debug)]
pub enum Position {
    LookupDirectory,
    LookupState,
    Announce,
    ReadDirectory,
    Flip,
    ReadState,
    ReadToggle,
    ReadSlot(usize),
    SwapState,
    CheckDirectory,
    CheckState,
    ResizeDirectory,
    ResizeSlot(usize),
    ResizeState(usize),
    SwapDirectory,
    /// Past the fourth check without an answer. The true machine never gets here.
    Exhausted,
}

/// What a step did, for traces.
#[derive(Clone, Copy, PartialEq, Eq, Debug)]
pub enum StepKind {
    LookupDirectory,
    LookupState,
    Announce,
    ReadDirectory,
    Flip,
    ReadState,
    ReadToggle,
    ReadSlot(usize),
    SwapState {
        succeeded: bool,
    },
    CheckDirectory {
        check: u8,
    },
    CheckState {
        check: u8,
    },
    ResizeDirectory,
    ResizeSlot(usize),
    ResizeState {
        slot: usize,
        read: bool,
        splits: u32,
    },
    SwapDirectory {
        succeeded: bool,
    },
    Nothing,
}

/// An operation without answer, with the private registers of its worker.
#[derive(Clone, Debug)]
pub struct Task {
    /// Kind, account, total and ticket; the ticket is 0 for a lookup.
    pub operation: Update,
    /// Own steps so far.
    pub steps: u64,
    pub next: Position,
    /// Checks made without an answer, 0 to 4.
    pub checks: u8,
    /// Round of the current bucket or directory pass, 0 or 1.
    pub round: u8,
    /// The directory last read.
    pub directory: Option<Rc<Directory>>,
    /// The bucket of the current or last bucket pass.
    pub bucket: Option<Rc<Bucket>>,
    /// The state read in the current round of the bucket pass.
    pub state: Option<Rc<State>>,
    /// The toggle read in the current round of the bucket pass.
    pub toggle: Vec<bool>,
    /// The slots read so far in the current round.
    pub slots: Vec<Option<Update>>,
    /// The working copy of the directory in the current round.
    pub working: Option<Working>,
}

impl Task {
    pub fn new(operation: Update) -> Task {
        let next = match operation.kind {
            Kind::Lookup => Position::LookupDirectory,
            _ => Position::Announce,
        };
        Task {
            operation,
            steps: 0,
            next,
            checks: 0,
            round: 0,
            directory: None,
            bucket: None,
            state: None,
            toggle: Vec::new(),
            slots: Vec::new(),
            working: None,
        }
    }

    pub fn is_update(&self) -> bool {
        self.operation.kind != Kind::Lookup
    }

    /// The directory read last; a task asks for it only after reading one.
    pub fn directory(&self) -> &Rc<Directory> {
        self.directory.as_ref().expect("a directory was read")
    }

    /// The bucket of the operation's account in the directory read last.
    pub fn own_bucket(&self) -> &Rc<Bucket> {
        self.directory().bucket(self.operation.account)
    }

    /// The bucket of the bucket pass under way.
    pub fn pass_bucket(&self) -> &Rc<Bucket> {
        self.bucket.as_ref().expect("a bucket pass is under way")
    }

    /// The state read in the round of the bucket pass under way.
    pub fn state_read(&self) -> &Rc<State> {
        self.state.as_ref().expect("a state was read")
    }

    /// The number of the check under way, 1 to 4.
    pub fn check(&self) -> u8 {
        self.checks + 1
    }

    /// In the rounds of a bucket pass: flip done, up to the second swap.
    pub fn in_bucket_rounds(&self) -> bool {
        use Position::{ReadSlot, ReadState, ReadToggle, SwapState};
        matches!(self.next, ReadState | ReadToggle | ReadSlot(_) | SwapState)
    }

    /// In the rounds of a directory pass, the first directory read included.
    pub fn in_directory_rounds(&self) -> bool {
        use Position::{ResizeDirectory, ResizeSlot, ResizeState, SwapDirectory};
        matches!(
            self.next,
            ResizeDirectory | ResizeSlot(_) | ResizeState(_) | SwapDirectory
        )
    }

    /// Announced, and not yet answered.
    pub fn is_announced(&self) -> bool {
        self.is_update() && self.next != Position::Announce
    }

    /// Moves on to the step that follows in the plan of an operation.
    pub fn advance(&mut self, workers: usize) {
        use Position::*;
        self.next = match self.next {
            LookupDirectory | LookupState => LookupState,
            Announce => ReadDirectory,
            ReadDirectory => Flip,
            Flip => ReadState,
            ReadState => ReadToggle,
            ReadToggle => ReadSlot(0),
            ReadSlot(i) if i + 1 < workers => ReadSlot(i + 1),
            ReadSlot(_) => SwapState,
            SwapState => self.end_round(ReadState),
            CheckDirectory => CheckState,
            CheckState => self.end_check(),
            ResizeDirectory => ResizeSlot(0),
            ResizeSlot(i) if i + 1 < workers => ResizeSlot(i + 1),
            ResizeSlot(_) => ResizeState(0),
            ResizeState(j) if j + 1 < workers => ResizeState(j + 1),
            ResizeState(_) => SwapDirectory,
            SwapDirectory => self.end_round(ResizeDirectory),
            Exhausted => Exhausted,
        };
    }

    /// Forgets what the round read. The second round starts at its first step; a check follows it.
    fn end_round(&mut self, first: Position) -> Position {
        self.state = None;
        self.toggle.clear();
        self.slots.clear();
        self.working = None;
        if self.round == 1 {
            return Position::CheckDirectory;
        }
        self.round = 1;
        first
    }

    /// After a check without an answer: a directory pass, after that and its check the second pass.
    fn end_check(&mut self) -> Position {
        self.checks += 1;
        self.round = 0;
        match self.checks {
            1 | 3 => Position::ResizeDirectory,
            2 => Position::ReadDirectory,
            _ => Position::Exhausted,
        }
    }
}
