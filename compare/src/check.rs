//! Compares a runner with the reference on many scripts.

use std::io;
use std::sync::atomic::{AtomicU64, Ordering};
use std::sync::Mutex;
use std::thread;

use crate::generate::{self, Script};
use crate::reference;
use crate::run::{Outcome, Runner};
use crate::tally::Tally;

pub const DEFAULT_SCRIPTS: u64 = 2_000;
pub const DEFAULT_SEED: u64 = 1;
/// Output beyond the expected length that is kept for the report.
const SPARE_OUTPUT: usize = 1_000;

/// A script on which the runner and the reference differ.
#[derive(Clone, Debug, PartialEq, Eq)]
pub struct Difference {
    pub script: Script,
    pub expected: Vec<u8>,
    pub outcome: Outcome,
}

#[derive(Clone, Copy)]
pub struct Job {
    pub scripts: u64,
    pub seed: u64,
    pub threads: usize,
}

pub enum Verdict {
    Agree(Tally),
    /// The lowest script number with a difference.
    Differ(u64, Difference),
}

/// Runs one script: its tally if both agree.
pub fn check(runner: &dyn Runner, script: &Script) -> io::Result<Result<Tally, Difference>> {
    let expected = reference::run(&script.bytes);
    let outcome = runner.run(script, expected.output.len() + SPARE_OUTPUT)?;
    if outcome.fault.is_none() && outcome.output == expected.output {
        return Ok(Ok(expected.tally));
    }
    Ok(Err(Difference {
        script: script.clone(),
        expected: expected.output,
        outcome,
    }))
}

/// What the threads share. Numbers are given out in order and `end` falls to
/// the lowest difference found, so every number below it has been run and the
/// result does not depend on the number of threads.
struct Shared<'a> {
    runner: &'a dyn Runner,
    seed: u64,
    next: AtomicU64,
    end: AtomicU64,
    lowest: Mutex<Option<(u64, Difference)>>,
}

pub fn compare(runner: &dyn Runner, job: Job) -> io::Result<Verdict> {
    let shared = Shared {
        runner,
        seed: job.seed,
        next: AtomicU64::new(0),
        end: AtomicU64::new(job.scripts),
        lowest: Mutex::new(None),
    };
    let tallies: Vec<io::Result<Tally>> = thread::scope(|scope| {
        let start = |_| scope.spawn(|| shared.work());
        let threads: Vec<_> = (0..job.threads).map(start).collect();
        let results = threads.into_iter().map(|t| t.join());
        results.map(|r| r.expect("a thread panicked")).collect()
    });
    let mut total = Tally::default();
    for tally in tallies {
        total.add(&tally?);
    }
    let lowest = shared.lowest.into_inner().expect("no thread panicked");
    Ok(match lowest {
        Some((number, difference)) => Verdict::Differ(number, difference),
        None => Verdict::Agree(total),
    })
}

impl Shared<'_> {
    fn work(&self) -> io::Result<Tally> {
        let mut total = Tally::default();
        loop {
            let number = self.next.fetch_add(1, Ordering::SeqCst);
            if number >= self.end.load(Ordering::SeqCst) {
                return Ok(total);
            }
            match self.check_script(number)? {
                Ok(tally) => total.add(&tally),
                Err(difference) => self.found(number, difference),
            }
        }
    }

    /// A run that could not be started ends the work of all threads.
    fn check_script(&self, number: u64) -> io::Result<Result<Tally, Difference>> {
        let script = generate::script(self.seed, number);
        check(self.runner, &script).inspect_err(|_| self.end.store(0, Ordering::SeqCst))
    }

    fn found(&self, number: u64, difference: Difference) {
        self.end.fetch_min(number, Ordering::SeqCst);
        let mut lowest = self.lowest.lock().expect("no thread panicked");
        if lowest.as_ref().is_none_or(|(other, _)| number < *other) {
            *lowest = Some((number, difference));
        }
    }
}
