//! How often each answer occurred.

use std::collections::BTreeMap;

use crate::refusal::{Answer, Refusal};

/// From this many scripts on, every expected refusal has to occur.
pub const ENOUGH_SCRIPTS: u64 = 1_000;

#[derive(Clone, Debug, Default, PartialEq, Eq)]
pub struct Tally {
    pub scripts: u64,
    pub bytes: u64,
    granted: u64,
    refused: BTreeMap<Refusal, u64>,
}

impl Tally {
    /// A tally of one script, none of its answers counted yet.
    pub fn of_script(script: &[u8]) -> Tally {
        Tally {
            scripts: 1,
            bytes: script.len() as u64,
            ..Tally::default()
        }
    }

    pub fn count(&mut self, answer: Answer) {
        match answer {
            Ok(_) => self.granted += 1,
            Err(refusal) => *self.refused.entry(refusal).or_default() += 1,
        }
    }

    pub fn add(&mut self, other: &Tally) {
        self.scripts += other.scripts;
        self.bytes += other.bytes;
        self.granted += other.granted;
        for (&refusal, &times) in &other.refused {
            *self.refused.entry(refusal).or_default() += times;
        }
    }

    pub fn granted(&self) -> u64 {
        self.granted
    }

    pub fn refused(&self, refusal: Refusal) -> u64 {
        self.refused.get(&refusal).copied().unwrap_or(0)
    }

    /// Every line has one answer.
    pub fn lines(&self) -> u64 {
        self.granted + self.refused.values().sum::<u64>()
    }

    /// The expected refusals that never occurred in scripts enough.
    pub fn missing(&self) -> Vec<Refusal> {
        if self.scripts < ENOUGH_SCRIPTS {
            return Vec::new();
        }
        let expected = Refusal::EXPECTED.into_iter();
        expected.filter(|&r| self.refused(r) == 0).collect()
    }
}
