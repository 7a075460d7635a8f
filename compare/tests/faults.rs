//! The comparer finds faults of every kind and shows each in a short script.

mod faulty;

use std::io;
use std::sync::atomic::{AtomicBool, Ordering};
use std::thread;
use std::time::{Duration, Instant};

use compare::check::{check, compare, Difference, Job, Verdict, DEFAULT_SCRIPTS, DEFAULT_SEED};
use compare::generate::Script;
use compare::reference;
use compare::run::{Outcome, Runner};
use compare::shrink::{shrink, Effort};
use faulty::{Fault, Faulty, FAULTS};

fn job(threads: usize) -> Job {
    Job {
        scripts: DEFAULT_SCRIPTS,
        seed: DEFAULT_SEED,
        threads,
    }
}

fn verdict(fault: Fault, threads: usize) -> Verdict {
    compare(&Faulty(fault), job(threads)).unwrap()
}

fn first(fault: Fault, threads: usize) -> (u64, Difference) {
    match verdict(fault, threads) {
        Verdict::Agree(_) => panic!("{fault:?} is not noticed"),
        Verdict::Differ(number, difference) => (number, difference),
    }
}

/// Bytes that suffice to show a fault. The two named here need a line or a
/// script of some length to show at all.
fn enough_bytes(fault: Fault) -> usize {
    match fault {
        Fault::LengthInAByte => 300,
        Fault::ForgetsAtBlockEnd => 2 * 4_096,
        _ => 150,
    }
}

#[test]
fn every_fault_is_found_and_shortened() {
    for &fault in FAULTS {
        let (_, found) = first(fault, 2);
        let shortest = shrink(&Faulty(fault), found, Effort::default());
        assert!(
            shortest.script.bytes.len() <= enough_bytes(fault),
            "{fault:?}"
        );
        let again = check(&Faulty(fault), &shortest.script).unwrap();
        assert_eq!(again, Err(shortest), "{fault:?}");
    }
}

/// Two machines built in different ways agree, so neither errs alone.
#[test]
fn without_a_fault_there_is_no_difference() {
    match verdict(Fault::Nothing, 2) {
        Verdict::Agree(tally) => assert_eq!(tally.scripts, DEFAULT_SCRIPTS),
        Verdict::Differ(number, _) => panic!("script {number} makes a difference"),
    }
}

#[test]
fn the_result_does_not_depend_on_the_threads() {
    for fault in [Fault::JoinsAfterOnly, Fault::RowsWrap, Fault::PlusSign] {
        assert_eq!(first(fault, 1), first(fault, 7), "{fault:?}");
    }
    let tally = |threads| match verdict(Fault::Nothing, threads) {
        Verdict::Agree(tally) => tally,
        Verdict::Differ(..) => unreachable!(),
    };
    assert_eq!(tally(1), tally(7));
}

/// Always wrong, and slow the first time, so that others are found before.
struct SlowOnce(AtomicBool);

impl Runner for SlowOnce {
    fn run(&self, _script: &Script, _most: usize) -> io::Result<Outcome> {
        if self.0.swap(false, Ordering::SeqCst) {
            thread::sleep(Duration::from_millis(300));
        }
        Ok(Outcome {
            output: Vec::new(),
            fault: Some("stumbled".into()),
        })
    }
}

#[test]
fn the_lowest_number_is_reported() {
    let runner = SlowOnce(AtomicBool::new(true));
    match compare(&runner, job(4)).unwrap() {
        Verdict::Differ(number, _) => assert_eq!(number, 0),
        Verdict::Agree(_) => panic!("the difference is not noticed"),
    }
}

/// Right but for scripts in which a given text stands.
struct Stumbles(&'static [u8]);

impl Runner for Stumbles {
    fn run(&self, script: &Script, _most: usize) -> io::Result<Outcome> {
        let mut parts = script.bytes.windows(self.0.len());
        let fault = parts.any(|part| part == self.0).then(|| "stumbled".into());
        let output = reference::run(&script.bytes).output;
        Ok(Outcome { output, fault })
    }
}

#[test]
fn nothing_but_the_cause_is_left() {
    let cause = b"\nback 1 0\n";
    let filler = b"limit 1 65536 256\nask 1 77 4096\n\xFF\n".repeat(200);
    let script = Script {
        bytes: [&filler, &cause[..], &filler].concat(),
        paused: true,
    };
    let found = check(&Stumbles(cause), &script).unwrap().unwrap_err();
    let shortest = shrink(&Stumbles(cause), found, Effort::default());
    assert_eq!(shortest.script.bytes, cause);
    assert!(!shortest.script.paused);
}

/// Wrong the first time only.
struct WrongOnce(AtomicBool);

impl Runner for WrongOnce {
    fn run(&self, script: &Script, _most: usize) -> io::Result<Outcome> {
        let first_time = self.0.swap(false, Ordering::SeqCst);
        let output = reference::run(&script.bytes).output;
        let fault = first_time.then(|| "stumbled".into());
        Ok(Outcome { output, fault })
    }
}

#[test]
fn a_difference_that_does_not_come_again_is_kept() {
    let runner = WrongOnce(AtomicBool::new(true));
    let script = Script {
        bytes: b"make 16 1\n".to_vec(),
        paused: false,
    };
    let found = check(&runner, &script).unwrap().unwrap_err();
    assert_eq!(shrink(&runner, found.clone(), Effort::default()), found);
}

/// Wrong on long scripts only, so that little can be left out.
struct WrongFrom(usize);

impl Runner for WrongFrom {
    fn run(&self, script: &Script, _most: usize) -> io::Result<Outcome> {
        let output = reference::run(&script.bytes).output;
        let fault = (script.bytes.len() >= self.0).then(|| "stumbled".into());
        Ok(Outcome { output, fault })
    }
}

#[test]
fn the_effort_is_bounded() {
    let script = Script {
        bytes: vec![b'\n'; 300_000],
        paused: false,
    };
    let runner = WrongFrom(script.bytes.len());
    let found = check(&runner, &script).unwrap().unwrap_err();
    let effort = Effort {
        trials: 10,
        ..Effort::default()
    };
    let begun = Instant::now();
    assert_eq!(shrink(&runner, found.clone(), effort), found);
    assert!(begun.elapsed() < Duration::from_secs(10));
}
