//! Lines that cannot be read, or that only seem so.

use crate::random::Random;
use crate::text::LONGEST_LINE;

/// Bytes that a careless reader takes for a separator, an end or a digit.
const STRAY: &[u8] = b"\0\t\n\x0B\x0C\r \x04\x1A+-./0159:\x7F\x80\xA0\xB1\xFF";

/// What may stand where one space should.
const SEPARATORS: [&str; 10] = ["  ", "  ", "\t", "\0", ",", "", " +", " -", " \t", "\r "];

pub fn stray_byte(random: &mut Random) -> u8 {
    random.pick(STRAY)
}

/// Flips, replaces, inserts or removes one byte.
pub fn change_a_byte(random: &mut Random, bytes: &mut Vec<u8>) {
    if bytes.is_empty() {
        return bytes.push(stray_byte(random));
    }
    let at = random.index(bytes.len());
    match random.below(4) {
        0 => bytes[at] ^= 1 << random.below(8),
        1 => bytes[at] = stray_byte(random),
        2 => bytes.insert(at, stray_byte(random)),
        _ => drop(bytes.remove(at)),
    }
}

/// Spoils a line in one of the ways in which lines get spoilt.
pub fn damage(random: &mut Random, line: &mut Vec<u8>) {
    match random.below(16) {
        0..=4 => change_a_byte(random, line),
        5 => line.insert(0, b' '),
        6 => line.push(b' '),
        7 => line.push(random.pick(b"\r\0\t")),
        8 => line.extend(b" 1"),
        9 => drop_last_field(line),
        10 => line.clear(),
        11 => line.truncate(random.index(line.len() + 1)),
        12 => line.make_ascii_uppercase(),
        13..=14 => replace_a_space(random, line),
        _ => line.extend_from_within(..),
    }
}

fn drop_last_field(line: &mut Vec<u8>) {
    let end = line.iter().rposition(|&byte| byte == b' ');
    line.truncate(end.unwrap_or(0));
}

fn replace_a_space(random: &mut Random, line: &mut Vec<u8>) {
    let spaces = (0..line.len()).filter(|&at| line[at] == b' ');
    let spaces: Vec<usize> = spaces.collect();
    if !spaces.is_empty() {
        let at = random.pick(&spaces);
        line.splice(at..=at, random.pick(&SEPARATORS).bytes());
    }
}

/// A line too long to be a request, with the request somewhere in it, so that
/// a program that reads only a part of it says something else.
pub fn long_line(random: &mut Random, request: &[u8]) -> Vec<u8> {
    let length = long_length(random, request.len());
    let filler = match random.percent(20) {
        true => vec![random.pick(b"\0\t\r\xFF+"); length],
        false => vec![random.pick(b" 0x"); length],
    };
    let spare = length.saturating_sub(request.len());
    match random.below(3) {
        0 => [request, &filler[..spare]].concat(),
        1 => [&filler[..spare], request].concat(),
        _ => {
            let again = [request, b" "].concat();
            again.iter().copied().cycle().take(length).collect()
        }
    }
}

/// Lengths about the longest line and about what buffers and counters hold.
/// With `part` added, what is left after such a length is just the request.
fn long_length(random: &mut Random, part: usize) -> usize {
    let counters = [LONGEST_LINE, LONGEST_LINE + 1, 128, 256, 512, 4_095, 4_096];
    match random.below(100) {
        0..=49 => random.range(79, 82) as usize,
        50..=69 => random.pick(&counters) + part,
        70..=84 => random.range(83, 5_000) as usize,
        85..=95 => random.pick(&[4_096, 8_192]) + random.index(5) - 2,
        96..=97 => 65_536 + random.index(5) - 2,
        _ => 65_536 + part,
    }
}
