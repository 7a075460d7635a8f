//! Runs a program on a script.

use std::io::{self, Read, Write};
use std::path::PathBuf;
use std::process::{Child, ChildStdin, ChildStdout, Command, Stdio};
use std::sync::mpsc;
use std::thread;
use std::time::{Duration, Instant};

use crate::generate::Script;

/// A paused script comes in this many pieces.
const PIECES: usize = 3;
const PAUSE: Duration = Duration::from_millis(3);
const TIME_LIMIT: Duration = Duration::from_secs(20);
/// Between two looks at whether a program has ended.
const LOOK_AGAIN: Duration = Duration::from_micros(50);

#[derive(Clone, Debug, PartialEq, Eq)]
pub struct Outcome {
    pub output: Vec<u8>,
    /// How the run ended, if not with exit status 0.
    pub fault: Option<String>,
}

/// Something that answers scripts.
pub trait Runner: Sync {
    /// Of an output longer than `most` bytes only the beginning is wanted.
    fn run(&self, script: &Script, most: usize) -> io::Result<Outcome>;
}

pub struct Program {
    pub path: PathBuf,
    pub arguments: Vec<String>,
    pub time_limit: Duration,
}

impl Program {
    pub fn new(path: PathBuf) -> Program {
        Program {
            path,
            arguments: Vec::new(),
            time_limit: TIME_LIMIT,
        }
    }

    fn start(&self) -> io::Result<Child> {
        Command::new(&self.path)
            .args(&self.arguments)
            .stdin(Stdio::piped())
            .stdout(Stdio::piped())
            .stderr(Stdio::null())
            .spawn()
    }
}

impl Runner for Program {
    /// Input and output each have a thread, so that neither pipe can block the
    /// other, and the program is stopped when its time is up.
    fn run(&self, script: &Script, most: usize) -> io::Result<Outcome> {
        let deadline = Instant::now() + self.time_limit;
        let mut child = self.start()?;
        let input = child.stdin.take().expect("stdin is piped");
        let output = child.stdout.take().expect("stdout is piped");
        thread::scope(|scope| {
            let (sender, receiver) = mpsc::channel();
            scope.spawn(move || feed(input, script));
            scope.spawn(move || sender.send(collect(output, most)));
            let in_time = receiver.recv_timeout(self.time_limit);
            let fault = match &in_time {
                Ok(Ok(bytes)) if bytes.len() <= most => wait(&mut child, deadline)?,
                Ok(_) => stop(&mut child, "stopped: it wrote too much")?,
                Err(_) => stop(&mut child, "stopped: it did not end in time")?,
            };
            let output = match in_time {
                Ok(collected) => collected?,
                Err(_) => receiver.recv().expect("the reader sends")?,
            };
            Ok(Outcome { output, fault })
        })
    }
}

/// Errors are passed over: a program that ends early closes its input, and
/// what it wrote tells the rest.
fn feed(mut input: ChildStdin, script: &Script) {
    if !script.paused {
        let _ = input.write_all(&script.bytes);
        return;
    }
    for piece in script.bytes.chunks(script.bytes.len() / PIECES + 1) {
        let _ = input.write_all(piece);
        thread::sleep(PAUSE);
    }
}

/// Reads to the end, or to one byte more than is wanted.
fn collect(output: ChildStdout, most: usize) -> io::Result<Vec<u8>> {
    let mut bytes = Vec::new();
    output.take(most as u64 + 1).read_to_end(&mut bytes)?;
    Ok(bytes)
}

/// Waits for the program's end and says what was wrong with it.
fn wait(child: &mut Child, deadline: Instant) -> io::Result<Option<String>> {
    loop {
        if let Some(status) = child.try_wait()? {
            return Ok((!status.success()).then(|| status.to_string()));
        }
        if Instant::now() >= deadline {
            return stop(child, "stopped: it closed its output and did not end");
        }
        thread::sleep(LOOK_AGAIN);
    }
}

fn stop(child: &mut Child, reason: &str) -> io::Result<Option<String>> {
    child.kill()?;
    child.wait()?;
    Ok(Some(reason.to_string()))
}
