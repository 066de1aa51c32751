//! Assertions that no wrong machine makes fail: each holds in some reached state, and fails there
//! after one private register or shared cell is falsified.

use model::invariants::{all, Ledger, Scene};
use model::lines::Line;
use model::machine::{Machine, Stepped};
use model::mutate::variation;
use model::prng::Prng;
use model::random::Generator;
use model::records::Directory;
use model::settings::Settings;
use model::working::Working;
use std::collections::BTreeMap;
use std::rc::Rc;

/// Falsifies what worker p read of worker j; false where there is nothing to falsify.
type Falsify = fn(&mut Machine, usize, usize) -> bool;

const FALSIFIED: [(&str, Falsify); 10] = [
    ("S1", reverse_directory),
    ("S3", forget_tickets),
    ("B1", flip_seen_bit),
    ("B3'", flip_seen_bit),
    ("B3", flip_seen_bit),
    ("W2a", forget_slot),
    ("W2", forget_slot),
    ("W4c", undo_splits),
    ("W4b", undo_splits),
    ("W4self", undo_splits),
];

fn reverse_directory(machine: &mut Machine, _: usize, _: usize) -> bool {
    let mut entries = machine.directory.entries.clone();
    entries.reverse();
    let depth = machine.directory.depth;
    machine.directory = Rc::new(Directory { depth, entries });
    depth > 0
}

fn forget_tickets(machine: &mut Machine, _: usize, j: usize) -> bool {
    machine.slots[j].take().is_some()
}

fn flip_seen_bit(machine: &mut Machine, p: usize, j: usize) -> bool {
    let task = machine.workers[p].task.as_mut();
    let bit = task.and_then(|task| task.toggle.get_mut(j));
    bit.map(|bit| *bit = !*bit).is_some()
}

fn forget_slot(machine: &mut Machine, p: usize, j: usize) -> bool {
    let task = machine.workers[p].task.as_mut();
    let slot = task.and_then(|task| task.slots.get_mut(j));
    slot.is_some_and(|slot| slot.take().is_some())
}

fn undo_splits(machine: &mut Machine, p: usize, _: usize) -> bool {
    let Some(task) = machine.workers[p].task.as_mut() else {
        return false;
    };
    let had = task.working.as_ref().is_some_and(|w| !w.made.is_empty());
    if had {
        task.working = Some(Working::copy_of(task.directory()));
    }
    had
}

fn holds(name: &str, scene: &Scene) -> bool {
    let named = all().find(|check| check.0 == name);
    named.expect("an assertion of that name").1(scene).is_ok()
}

/// How often each assertion failed in this state after a falsification, which is undone.
fn try_all(machine: &mut Machine, ledger: &Ledger, failed: &mut BTreeMap<&str, u64>) {
    let workers = machine.settings.workers;
    for (name, falsify) in FALSIFIED {
        assert!(holds(name, &ledger.scene(machine)), "{name}");
        for (p, j) in (0..workers).flat_map(|p| (0..workers).map(move |j| (p, j))) {
            let task = machine.workers[p].task.clone();
            let (slots, directory) = (machine.slots.clone(), Rc::clone(&machine.directory));
            if falsify(machine, p, j) && !holds(name, &ledger.scene(machine)) {
                *failed.entry(name).or_default() += 1;
            }
            machine.workers[p].task = task;
            machine.slots = slots;
            machine.directory = directory;
        }
    }
}

/// Runs a line step by step, with a trial after each step.
fn run(machine: &mut Machine, ledger: &mut Ledger, line: &Line, failed: &mut BTreeMap<&str, u64>) {
    match *line {
        Line::Call {
            kind,
            worker,
            account,
            total,
        } => {
            let _ = machine.call(worker, kind.number(), account, total);
        }
        Line::Step { worker, count } => {
            for _ in 0..count {
                let stepped = machine.step(worker).stepped;
                if !matches!(stepped, Stepped::Refused(_)) {
                    ledger.after_step(machine).expect("the true machine");
                    try_all(machine, ledger, failed);
                }
                if stepped != Stepped::Moved {
                    break;
                }
            }
        }
        Line::Open { .. } | Line::List => {}
    }
}

#[test]
fn every_such_assertion_can_fail() {
    let mut failed = BTreeMap::new();
    let mut seeds = Prng::new(11);
    for number in 0..3_000 {
        let seed = seeds.draw();
        let mut generator = Generator::new(seed, false);
        let stored = variation(&mut Prng::new(seed));
        let opening = match number % 2 {
            0 => stored[0],
            _ => generator.opening(),
        };
        let Line::Open { n, b, m } = opening else {
            panic!("an order starts with its opening");
        };
        let settings = Settings::new(n, b, m).expect("in range");
        let mut machine = Machine::fresh(settings);
        let mut ledger = Ledger::new(&machine);
        for place in 1..stored.len().max(60) {
            let line = match number % 2 {
                0 => stored.get(place).copied().unwrap_or(Line::List),
                _ => generator.next(&machine),
            };
            run(&mut machine, &mut ledger, &line, &mut failed);
        }
    }
    println!("{failed:?}");
    for (name, _) in FALSIFIED {
        assert!(failed.contains_key(name), "{name} never failed");
    }
}
