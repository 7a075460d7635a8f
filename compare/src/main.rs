//! `compare PROGRAM [SCRIPTS [SEED]]`: exit status 0 if the program agrees
//! with the reference, 1 if not, 2 if it could not be run.

use std::process::ExitCode;
use std::thread;

use compare::check::{self, Job, Verdict, DEFAULT_SCRIPTS, DEFAULT_SEED};
use compare::report;
use compare::run::Program;
use compare::shrink::{shrink, Effort};
use compare::tally::Tally;

fn main() -> ExitCode {
    let arguments: Vec<String> = std::env::args().skip(1).collect();
    match read_arguments(&arguments) {
        Some((program, job)) => run(&program, job),
        None => {
            eprintln!("usage: compare PROGRAM [SCRIPTS [SEED]]");
            ExitCode::from(2)
        }
    }
}

fn read_arguments(arguments: &[String]) -> Option<(String, Job)> {
    let (program, numbers) = arguments.split_first()?;
    let numbers = numbers.iter().map(|text| text.parse().ok());
    let numbers = numbers.collect::<Option<Vec<u64>>>()?;
    let (scripts, seed) = match *numbers {
        [] => (DEFAULT_SCRIPTS, DEFAULT_SEED),
        [scripts] => (scripts, DEFAULT_SEED),
        [scripts, seed] => (scripts, seed),
        _ => return None,
    };
    let threads = thread::available_parallelism().map_or(1, usize::from);
    let job = Job {
        scripts,
        seed,
        threads,
    };
    (scripts > 0).then(|| (program.clone(), job))
}

fn run(path: &str, job: Job) -> ExitCode {
    let program = Program::new(path.into());
    match check::compare(&program, job) {
        Ok(Verdict::Agree(tally)) => agree(&tally, job.seed),
        Ok(Verdict::Differ(number, found)) => {
            let shortest = shrink(&program, found, Effort::default());
            let text = report::difference(path, number, job.seed, &shortest);
            println!("{text}");
            ExitCode::FAILURE
        }
        Err(error) => {
            eprintln!("compare: {path}: {error}");
            ExitCode::from(2)
        }
    }
}

fn agree(tally: &Tally, seed: u64) -> ExitCode {
    println!("{}", report::agreement(tally, seed));
    let missing = tally.missing();
    if missing.is_empty() {
        return ExitCode::SUCCESS;
    }
    println!("{}", report::missing(&missing));
    ExitCode::FAILURE
}
