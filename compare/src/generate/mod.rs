//! Random scripts. Script number i of a seed is made from these two alone.

mod damage;
mod frees;
mod numbers;
mod plan;
mod writer;

use crate::random::Random;
use plan::Plan;
use writer::Writer;

#[derive(Clone, Debug, PartialEq, Eq)]
pub struct Script {
    pub bytes: Vec<u8>,
    /// Handed over in pieces with pauses, so that the program's reads come
    /// back short.
    pub paused: bool,
}

#[derive(Clone, Copy)]
enum Kind {
    /// Requests that follow a plan.
    Planned,
    /// Requests that follow a plan, with bytes changed afterwards.
    Mangled,
    /// Words, numbers and stray bytes in any order.
    Soup,
    /// Next to nothing.
    Bare,
}

pub fn script(seed: u64, number: u64) -> Script {
    let mut random = Random::new(seed, number);
    let kind = random.weighted(&[
        (90, Kind::Planned),
        (5, Kind::Mangled),
        (3, Kind::Soup),
        (2, Kind::Bare),
    ]);
    let paused = random.percent(3);
    let bytes = match kind {
        Kind::Planned => planned(&mut random),
        Kind::Mangled => mangled(&mut random),
        Kind::Soup => soup(&mut random),
        Kind::Bare => bare(&mut random),
    };
    Script { bytes, paused }
}

fn planned(random: &mut Random) -> Vec<u8> {
    let plan = Plan::draw(random);
    Writer::new(random, plan).write()
}

fn mangled(random: &mut Random) -> Vec<u8> {
    let mut bytes = planned(random);
    for _ in 0..random.range(1, 8) {
        damage::change_a_byte(random, &mut bytes);
    }
    bytes
}

fn soup(random: &mut Random) -> Vec<u8> {
    let mut bytes = Vec::new();
    for _ in 0..random.range(1, 200) {
        match random.below(8) {
            0 => bytes.extend(random.pick(&["limit", "make", "ask", "back"]).bytes()),
            1..=2 => bytes.extend(numbers::hostile(random, 16).bytes()),
            3..=5 => bytes.push(b' '),
            6 => bytes.push(b'\n'),
            _ => bytes.push(damage::stray_byte(random)),
        }
    }
    bytes
}

fn bare(random: &mut Random) -> Vec<u8> {
    let most = random.pick(&[1, 3, 100, 20_000]);
    match random.below(5) {
        0 => Vec::new(),
        1 => vec![b'\n'; random.range(1, most) as usize],
        2 => vec![damage::stray_byte(random); random.range(1, most) as usize],
        3 => random.pick(&["make 16 1", "limit", "ask 1 1 16"]).into(),
        _ => random
            .pick(&["make 16 1\n", "back 1 0\n", "\nmake 16 1"])
            .into(),
    }
}
