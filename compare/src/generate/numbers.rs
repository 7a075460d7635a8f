//! Numbers as a script writes them.

use crate::random::Random;

/// Both sides of the edges that the language has, and of those that narrow
/// words would add.
const EDGES: [u64; 44] = [
    0,
    1,
    2,
    7,
    8,
    9,
    15,
    16,
    17,
    24,
    31,
    32,
    33,
    48,
    255,
    256,
    257,
    511,
    512,
    513,
    2_047,
    2_048,
    2_049,
    4_095,
    4_096,
    4_097,
    8_192,
    65_520,
    65_535,
    65_536,
    65_537,
    65_552,
    1_048_560,
    1_048_576,
    1_048_592,
    268_435_456,
    1_073_741_825,
    2_147_483_647,
    2_147_483_648,
    4_294_967_279,
    4_294_967_280,
    4_294_967_281,
    4_294_967_294,
    4_294_967_295,
];

/// What no number may be.
const UNREADABLE: [&str; 20] = [
    "",
    "4294967296",
    "4294967297",
    "4294967312",
    "9999999999",
    "00000000000",
    "00000000001",
    "00000000016",
    "10000000000",
    "99999999999",
    "18446744073709551616",
    "18446744073709551632",
    "+1",
    "-1",
    "-0",
    "1.",
    "0x10",
    "1_6",
    "16u",
    "1e1",
];

/// Distances at which a narrow word would take a number for `value` again.
const WRAPS: [u32; 9] = [8, 12, 16, 20, 24, 28, 30, 31, 32];

/// A number in place of `value` that a careless program may take wrongly.
pub fn hostile(random: &mut Random, value: u64) -> String {
    match random.below(10) {
        0..=3 => random.pick(&EDGES).to_string(),
        4..=5 => (value + 1).to_string(),
        6 => value.saturating_sub(1).to_string(),
        7 => (value + (1 << random.pick(&WRAPS))).to_string(),
        8 => format!("{value:0width$}", width = random.range(9, 12) as usize),
        _ => random.pick(&UNREADABLE).to_string(),
    }
}

/// `value` as it is, with leading zeros now and then, never above 10 digits.
pub fn plain(random: &mut Random, value: u64) -> String {
    if random.percent(3) {
        format!("{value:0width$}", width = random.range(2, 10) as usize)
    } else {
        value.to_string()
    }
}
