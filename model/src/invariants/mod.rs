//! The invariants as executable assertions over the machine, checked after every step.

pub mod bucket_pass;
pub mod directory_pass;
pub mod ledger;
pub mod scene;
pub mod structure;

pub use ledger::Ledger;
pub use scene::Scene;

use crate::task::Task;
use crate::violation::Violation;

/// The outcome of one assertion.
pub type Check = Result<(), String>;

/// A named assertion.
pub type Named = (&'static str, fn(&Scene) -> Check);

/// Fails with a text unless the condition holds.
pub fn ensure(condition: bool, text: impl FnOnce() -> String) -> Check {
    if condition {
        Ok(())
    } else {
        Err(text())
    }
}

/// Something holds of each worker's update under way to which it applies.
fn every_update(
    scene: &Scene,
    applies: impl Fn(&Task) -> bool,
    holds: impl Fn(usize, &Task) -> bool,
) -> Check {
    for (j, task) in scene.updates() {
        ensure(!applies(task) || holds(j, task), || format!("worker {j}"))?;
    }
    Ok(())
}

/// All assertions, in the order in which they are made.
pub fn all() -> impl Iterator<Item = &'static Named> {
    structure::ALL
        .iter()
        .chain(bucket_pass::ALL)
        .chain(directory_pass::ALL)
}

/// Makes every assertion; the first that fails is reported.
pub fn assert_all(scene: &Scene) -> Result<(), Violation> {
    for (name, check) in all() {
        check(scene).map_err(|detail| Violation::new(name, detail))?;
    }
    Ok(())
}
