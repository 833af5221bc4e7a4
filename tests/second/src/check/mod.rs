//! The self test: the documents' examples and edges, the refusals, the faults.

mod desk;
mod text;

use crate::compare::Task;
use crate::generate::{generate, Kind};
use crate::outcome::Outcome;
use crate::rules::Rules;

#[derive(Default)]
struct Tally {
    passed: u32,
    failed: u32,
}

impl Tally {
    fn check(&mut self, name: &str, holds: bool) {
        if holds {
            self.passed += 1;
        } else {
            self.failed += 1;
            println!("failed: {name}");
        }
    }
}

/// Prints what failed and the sum, and returns whether all passed.
pub fn run() -> bool {
    let mut tally = Tally::default();
    desk::run(&mut tally);
    text::run(&mut tally);
    println!("{} passed, {} failed", tally.passed, tally.failed);
    tally.failed == 0
}

/// A generated file and what the second program leaves behind on it.
struct File {
    kind: Kind,
    seed: u64,
    bytes: Vec<u8>,
    outcome: Outcome,
}

/// The first files of the run from seed 0.
fn files(task: Task, count: u64) -> Vec<File> {
    (0..count)
        .map(|number| {
            let (kind, seed) = task.numbered(0, number);
            let bytes = generate(kind, seed);
            let outcome = task.outcome(&bytes, Rules::sound());
            File {
                kind,
                seed,
                bytes,
                outcome,
            }
        })
        .collect()
}

/// Every fault shows in one of the files.
fn faults(tally: &mut Tally, task: Task, files: &[File]) {
    for (fault, name, what) in task.faults() {
        let rules = Rules::with(*fault);
        let shown = files
            .iter()
            .find(|file| task.outcome(&file.bytes, rules) != file.outcome);
        if let Some(File { kind, seed, .. }) = shown {
            println!("fault {name} ({what}) shows in {} {seed}", kind.name());
        }
        tally.check(&format!("fault {name}"), shown.is_some());
    }
}
