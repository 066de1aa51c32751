//! The steps as document 01 has them. Each touches at most one shared cell; private work goes with
//! it. The two rules of tickets, the rule of places and the listing stand here as well. The true
//! machine takes all of these as they stand here; a wrong one (`wrong.rs`) has another function in
//! place of one of them.

use crate::machine::Machine;
use crate::places::{first_bits, place};
use crate::records::{Answer, Bucket, Directory, Kind, State, Update};
use crate::settings::Settings;
use crate::task::{Position, StepKind, Task};
use crate::working::Working;
use std::rc::Rc;

/// What a step did; if it ended the operation, the answer and the check that is told with it.
pub type Done = (StepKind, Option<(Answer, u8)>);

/// The true machine.
pub struct True;

impl Steps for True {}

pub trait Steps {
    /// The worker's last ticket once it is called. Document 01: the ticket number of an update "is
    /// the worker's last plus 1, taken at the call". Document 02: an update needs one number, a
    /// lookup none; refusal 7 exactly when those up to 18,446,744,073,709,551,615 do not suffice.
    fn last_ticket(&self, kind: Kind, before: u64) -> Option<u64> {
        match kind {
            Kind::Lookup => Some(before),
            _ => before.checked_add(1),
        }
    }

    /// Document 01: "A ticket is settled in a bucket when that number is not below it."
    fn is_settled(&self, state: &State, worker: usize, ticket: u64) -> bool {
        state.is_settled(worker, ticket)
    }

    /// Document 02: an account's place, whose first bits choose its bucket.
    fn place(&self, account: u32) -> u32 {
        place(account)
    }

    /// What a directory's buckets hold, each bucket once.
    fn held(&self, directory: &Directory) -> Vec<(u32, i64)> {
        let mut items = Vec::new();
        let mut last: Option<&Rc<Bucket>> = None;
        for bucket in &directory.entries {
            if !last.is_some_and(|before| Rc::ptr_eq(before, bucket)) {
                items.extend_from_slice(&bucket.state.borrow().items);
            }
            last = Some(bucket);
        }
        items
    }

    /// The listing's order: ascending by account, whatever the places.
    fn sort(&self, items: &mut [(u32, i64)]) {
        items.sort_unstable();
    }

    /// The bucket of the operation's account in the directory read last.
    fn own_bucket<'a>(&self, task: &'a Task) -> &'a Rc<Bucket> {
        task.directory().at(self.place(task.operation.account))
    }

    /// Performs the step to come of a task that was taken out of its worker.
    fn perform(&self, machine: &mut Machine, w: usize, task: &mut Task) -> Done {
        let done = match task.next {
            Position::LookupDirectory => (self.lookup_directory(machine, task), None),
            Position::LookupState => self.lookup_state(task),
            Position::Announce => (self.announce(machine, w, task), None),
            Position::ReadDirectory => (self.read_directory(machine, task), None),
            Position::Flip => (self.flip(w, task), None),
            Position::ReadState => (self.read_state(task), None),
            Position::ReadToggle => (self.read_toggle(task), None),
            Position::ReadSlot(i) => (self.read_slot(machine, task, i), None),
            Position::SwapState => (self.swap_state(machine, task), None),
            Position::CheckDirectory => (self.check_directory(machine, task), None),
            Position::CheckState => self.check_state(machine, w, task),
            Position::ResizeDirectory => (self.resize_directory(machine, task), None),
            Position::ResizeSlot(i) => (self.resize_slot(machine, task, i), None),
            Position::ResizeState(j) => (self.resize_state(machine, task, j), None),
            Position::SwapDirectory => (self.swap_directory(machine, task), None),
            Position::Exhausted => (StepKind::Nothing, None),
        };
        task.advance(machine.settings.workers);
        done
    }

    fn lookup_directory(&self, machine: &Machine, task: &mut Task) -> StepKind {
        task.directory = Some(Rc::clone(&machine.directory));
        StepKind::LookupDirectory
    }

    fn lookup_state(&self, task: &Task) -> Done {
        let state = self.own_bucket(task).current();
        let answer = match state.find(task.operation.account) {
            Some(total) => Answer::Found(total),
            None => Answer::None,
        };
        (StepKind::LookupState, Some((answer, self.told(task))))
    }

    /// The number told with an answer: that of the check under way, counted along the plan; 0 where
    /// the operation is no update.
    fn told(&self, task: &Task) -> u8 {
        match task.is_update() {
            true => task.check(),
            false => 0,
        }
    }

    fn announce(&self, machine: &mut Machine, w: usize, task: &Task) -> StepKind {
        machine.slots[w] = Some(task.operation);
        StepKind::Announce
    }

    fn read_directory(&self, machine: &Machine, task: &mut Task) -> StepKind {
        task.directory = Some(Rc::clone(&machine.directory));
        StepKind::ReadDirectory
    }

    fn flip(&self, w: usize, task: &mut Task) -> StepKind {
        let bucket = Rc::clone(self.own_bucket(task));
        let bit = &mut bucket.toggle.borrow_mut()[w];
        *bit = !*bit;
        task.bucket = Some(Rc::clone(&bucket));
        StepKind::Flip
    }

    fn read_state(&self, task: &mut Task) -> StepKind {
        task.state = Some(task.pass_bucket().current());
        StepKind::ReadState
    }

    fn read_toggle(&self, task: &mut Task) -> StepKind {
        let toggle = task.pass_bucket().toggle.borrow().clone();
        task.toggle = toggle;
        StepKind::ReadToggle
    }

    fn read_slot(&self, machine: &Machine, task: &mut Task, i: usize) -> StepKind {
        task.slots.push(machine.slots[i]);
        StepKind::ReadSlot(i)
    }

    fn swap_state(&self, machine: &Machine, task: &Task) -> StepKind {
        let copy = self.bucket_copy(&machine.settings, task);
        let mut cell = task.pass_bucket().state.borrow_mut();
        let succeeded = Rc::ptr_eq(&cell, task.state_read());
        if succeeded {
            *cell = Rc::new(copy);
        }
        StepKind::SwapState { succeeded }
    }

    /// The copy of a round of the bucket pass: pending updates carried out in worker order,
    /// then the applied bits become the toggle as it was read.
    fn bucket_copy(&self, settings: &Settings, task: &Task) -> State {
        let read = task.state_read();
        let depth = task.pass_bucket().depth;
        let mut copy = State::clone(read);
        for (j, slot) in task.slots.iter().enumerate() {
            let Some(update) = slot else { continue };
            let flipped = task.toggle[j] != read.applied[j];
            if flipped && self.is_pending(&copy, j, update) {
                self.carry_out(settings, depth, &mut copy, j, update);
            }
        }
        copy.applied.clone_from(&task.toggle);
        copy
    }

    /// A bucket pass carries out an update whose bit is flipped only if its ticket is not settled.
    fn is_pending(&self, copy: &State, worker: usize, update: &Update) -> bool {
        !self.is_settled(copy, worker, update.ticket)
    }

    /// Carries out an update on a private copy of a bucket of this depth, unless that holds it back,
    /// and settles its ticket: as crowded, with the accounts as they are, or with the answer of what
    /// it did. All of it goes by the copy as it stands, so that a delete makes room for the updates
    /// of the workers after its own.
    fn carry_out(
        &self,
        settings: &Settings,
        depth: u32,
        copy: &mut State,
        worker: usize,
        update: &Update,
    ) {
        if self.holds_back(settings, depth, copy, update) {
            return;
        }
        let answer = match self.is_crowded(settings, copy, update) {
            true => Answer::Crowded,
            false => self.change(copy, update),
        };
        self.settle(copy, worker, update, answer);
    }

    /// In both passes an update is held back by a bucket that is full below depth M, whatever it is:
    /// the bucket has to be split first.
    fn holds_back(&self, settings: &Settings, depth: u32, copy: &State, _: &Update) -> bool {
        copy.is_full_below(settings, depth)
    }

    /// Where an update is not held back, a full bucket has depth M: it takes no new account.
    fn is_crowded(&self, settings: &Settings, copy: &State, update: &Update) -> bool {
        copy.is_full(settings.bucket_size) && copy.creates(update)
    }

    /// Changes the accounts of a private copy as an update has it, and gives its answer.
    fn change(&self, copy: &mut State, update: &Update) -> Answer {
        copy.change(update)
    }

    /// A settled ticket is not tried again, whatever its answer.
    fn settle(&self, copy: &mut State, worker: usize, update: &Update, answer: Answer) {
        copy.settle(worker, update, answer);
    }

    fn check_directory(&self, machine: &Machine, task: &mut Task) -> StepKind {
        task.directory = Some(Rc::clone(&machine.directory));
        StepKind::CheckDirectory {
            check: task.check(),
        }
    }

    fn check_state(&self, machine: &Machine, w: usize, task: &Task) -> Done {
        let kind = StepKind::CheckState {
            check: task.check(),
        };
        let answer = self.check_answer(&machine.settings, w, task);
        (kind, answer.map(|answer| (answer, self.told(task))))
    }

    /// Settled there: the answer that stands there. Else none, whatever the bucket holds.
    fn check_answer(&self, _: &Settings, w: usize, task: &Task) -> Option<Answer> {
        let state = self.own_bucket(task).current();
        let settled = self.is_settled(&state, w, task.operation.ticket);
        state.settled[w].answer.filter(|_| settled)
    }

    fn resize_directory(&self, machine: &Machine, task: &mut Task) -> StepKind {
        task.directory = Some(Rc::clone(&machine.directory));
        task.working = Some(Working::copy_of(&machine.directory));
        StepKind::ResizeDirectory
    }

    fn resize_slot(&self, machine: &Machine, task: &mut Task, i: usize) -> StepKind {
        task.slots.push(machine.slots[i]);
        StepKind::ResizeSlot(i)
    }

    /// The state step for slot j: reads the state of that update's bucket in the working copy.
    fn resize_state(&self, machine: &Machine, task: &mut Task, j: usize) -> StepKind {
        let working = task.working.as_mut().expect("a working copy was made");
        let of = |update: Update| Rc::clone(working.at(self.place(update.account)));
        let bucket = task.slots[j].map(of);
        let shared = bucket.filter(|bucket| !working.is_made(bucket));
        let splits = match &shared {
            Some(bucket) => self.split_for(&machine.settings, working, &task.slots, j, bucket),
            None => 0,
        };
        StepKind::ResizeState {
            slot: j,
            read: shared.is_some(),
            splits,
        }
    }

    /// If the bucket is full, below depth M, and slot j's ticket there is unsettled, every
    /// unsettled announced update of its prefix is taken. Answers the number of splits.
    fn split_for(
        &self,
        settings: &Settings,
        working: &mut Working,
        slots: &[Option<Update>],
        j: usize,
        bucket: &Rc<Bucket>,
    ) -> u32 {
        let state = bucket.current();
        if !state.is_full_below(settings, bucket.depth) {
            return 0;
        }
        working.found.push((Rc::clone(bucket), Rc::clone(&state)));
        let unsettled = |k: usize, update: &Update| !self.is_settled(&state, k, update.ticket);
        if !slots[j].is_some_and(|update| unsettled(j, &update)) {
            return 0;
        }
        let mut splits = 0;
        for (k, slot) in slots.iter().enumerate() {
            let Some(update) = slot else { continue };
            if bucket.has_place(self.place(update.account)) && unsettled(k, update) {
                splits += self.take(settings, working, k, update);
            }
        }
        splits
    }

    /// Takes one update: its bucket is split while full and below depth M; then the update is
    /// carried out. Answers the number of splits.
    fn take(&self, settings: &Settings, working: &mut Working, k: usize, update: &Update) -> u32 {
        let place = self.place(update.account);
        let mut splits = 0;
        while working.is_splittable(settings, place) {
            self.split(working, place);
            splits += 1;
        }
        self.carry_out_there(settings, working, k, update);
        splits
    }

    /// Carries out an update in its bucket of the working copy.
    fn carry_out_there(&self, settings: &Settings, working: &Working, k: usize, update: &Update) {
        let place = self.place(update.account);
        let depth = working.at(place).depth;
        working.change(place, &|copy| {
            self.carry_out(settings, depth, copy, k, update)
        });
    }

    /// Splits the bucket of this place; the directory doubles where it is not deep enough.
    fn split(&self, working: &mut Working, place: u32) {
        let bucket = Rc::clone(working.at(place));
        let state = bucket.current();
        let depth = bucket.depth + 1;
        if depth > working.depth {
            working.entries = self.doubled(&working.entries);
            working.depth += 1;
        }
        for prefix in [2 * bucket.prefix, 2 * bucket.prefix + 1] {
            working.put(Bucket::new(depth, prefix, self.half(&state, depth, prefix)));
        }
    }

    /// Each entry is moved to the two entries whose first bits are its number.
    fn doubled(&self, entries: &[Rc<Bucket>]) -> Vec<Rc<Bucket>> {
        let twice = |entry: &Rc<Bucket>| [Rc::clone(entry), Rc::clone(entry)];
        entries.iter().flat_map(twice).collect()
    }

    /// The state of one half: its accounts, all settled tickets and answers, applied bits 0.
    fn half(&self, state: &State, depth: u32, prefix: u32) -> State {
        let belongs = |item: &&(u32, i64)| first_bits(self.place(item.0), depth) == prefix;
        let mut half = State::empty(state.applied.len());
        half.items = state.items.iter().filter(belongs).copied().collect();
        half.settled.clone_from(&state.settled);
        half
    }

    fn swap_directory(&self, machine: &mut Machine, task: &mut Task) -> StepKind {
        let working = task.working.take().expect("a working copy was made");
        let succeeded = Rc::ptr_eq(&machine.directory, task.directory());
        if succeeded {
            machine.directory = working.into_directory();
        }
        StepKind::SwapDirectory { succeeded }
    }
}
