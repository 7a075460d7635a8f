//! Shortens a script as long as a difference remains.

use std::time::{Duration, Instant};

use crate::check::{check, Difference};
use crate::generate::Script;
use crate::run::Runner;

/// How much may be spent on one script.
#[derive(Clone, Copy)]
pub struct Effort {
    pub trials: u32,
    pub rounds: u32,
    pub time: Duration,
}

impl Default for Effort {
    fn default() -> Effort {
        Effort {
            trials: 20_000,
            rounds: 5,
            time: Duration::from_secs(60),
        }
    }
}

struct Shrinker<'a> {
    runner: &'a dyn Runner,
    best: Difference,
    trials: u32,
    until: Instant,
}

/// The shortest script found. If the difference does not show again, the one
/// given comes back.
pub fn shrink(runner: &dyn Runner, found: Difference, effort: Effort) -> Difference {
    let mut shrinker = Shrinker {
        runner,
        best: found,
        trials: effort.trials,
        until: Instant::now() + effort.time,
    };
    shrinker.try_without_pauses();
    for _ in 0..effort.rounds {
        let before = shrinker.best.script.bytes.clone();
        shrinker.leave_out(lines);
        shrinker.leave_out(bytes);
        shrinker.simplify();
        if shrinker.best.script.bytes == before {
            break;
        }
    }
    shrinker.best
}

impl Shrinker<'_> {
    fn is_spent(&self) -> bool {
        self.trials == 0 || Instant::now() >= self.until
    }

    /// Whether a difference remains; if so, this is the best script so far.
    fn keeps(&mut self, script: Script) -> bool {
        self.trials -= 1;
        match check(self.runner, &script) {
            Ok(Err(difference)) => {
                self.best = difference;
                true
            }
            _ => false,
        }
    }

    fn keeps_bytes(&mut self, bytes: Vec<u8>) -> bool {
        let paused = self.best.script.paused;
        self.keeps(Script { bytes, paused })
    }

    fn keeps_byte(&mut self, at: usize, byte: u8) -> bool {
        if self.is_spent() {
            return false;
        }
        let mut bytes = self.best.script.bytes.clone();
        bytes[at] = byte;
        self.keeps_bytes(bytes)
    }

    fn try_without_pauses(&mut self) {
        if self.best.script.paused && !self.is_spent() {
            let bytes = self.best.script.bytes.clone();
            let paused = false;
            self.keeps(Script { bytes, paused });
        }
    }

    /// Leaves out runs of units: all, then halves, at last single ones. Runs
    /// are powers of two, as are the lengths at which buffers and counters err.
    fn leave_out(&mut self, split: fn(&[u8]) -> Vec<&[u8]>) {
        let script = self.best.script.bytes.clone();
        let mut units = split(&script);
        let mut run = units.len().next_power_of_two();
        while run > 0 {
            units = self.leave_out_runs(units, run);
            run /= 2;
        }
    }

    /// Leaves out each run of so many units that is not needed.
    fn leave_out_runs<'a>(&mut self, mut units: Vec<&'a [u8]>, run: usize) -> Vec<&'a [u8]> {
        let mut at = 0;
        while at < units.len() && !self.is_spent() {
            let end = units.len().min(at + run);
            let rest = [&units[..at], &units[end..]].concat();
            match self.keeps_bytes(rest.concat()) {
                true => units = rest,
                false => at = end,
            }
        }
        units
    }

    /// Puts plainer bytes in the place of others, the first that will do.
    fn simplify(&mut self) {
        for at in 0..self.best.script.bytes.len() {
            let candidates = plainer(self.best.script.bytes[at]);
            candidates.iter().any(|&byte| self.keeps_byte(at, byte));
        }
    }
}

fn lines(script: &[u8]) -> Vec<&[u8]> {
    script.split_inclusive(|&byte| byte == b'\n').collect()
}

fn bytes(script: &[u8]) -> Vec<&[u8]> {
    script.chunks(1).collect()
}

/// What may stand for a byte; a plain byte stays.
fn plainer(byte: u8) -> &'static [u8] {
    match byte {
        b'2'..=b'9' => b"10",
        b'a'..=b'z' | b'0' | b'1' | b' ' | b'\n' => b"",
        _ => b"x",
    }
}
