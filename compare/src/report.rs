//! What a run says at its end.

use crate::check::Difference;
use crate::refusal::Refusal;
use crate::tally::Tally;

/// Output shown of a program; a script is always shown whole.
const MOST_SHOWN: usize = 4_000;

/// Bytes in single quotes, for `printf` in a shell. A first hyphen would be
/// taken for an option.
pub fn quoted(bytes: &[u8]) -> String {
    let mut text = String::from("'");
    for &byte in bytes {
        match byte {
            b'\n' => text.push_str("\\n"),
            b'\\' => text.push_str("\\\\"),
            b'%' => text.push_str("%%"),
            b' '..=b'~' if byte != b'\'' && byte != b'-' => text.push(byte.into()),
            _ => text.push_str(&format!("\\{byte:03o}")),
        }
    }
    text.push('\'');
    text
}

fn shown(output: &[u8]) -> String {
    match output.get(..MOST_SHOWN) {
        Some(beginning) => format!("{} and so on", quoted(beginning)),
        None => quoted(output),
    }
}

pub fn difference(program: &str, number: u64, seed: u64, found: &Difference) -> String {
    let pauses = match found.script.paused {
        true => " (in three pieces with pauses)",
        false => "",
    };
    format!(
        "script {number} of seed {seed} makes a difference. The shortest found that does{pauses}:\n\
         printf {} | {program}\n\
         program, {}:\n{}\n\
         reference:\n{}\n\
         {}",
        quoted(&found.script.bytes),
        found.outcome.fault.as_deref().unwrap_or("exit status: 0"),
        shown(&found.outcome.output),
        shown(&found.expected),
        first_difference(&found.outcome.output, &found.expected),
    )
}

fn first_difference(output: &[u8], expected: &[u8]) -> String {
    let split = |bytes: &[u8]| -> Vec<Vec<u8>> {
        let lines = bytes.split_inclusive(|&byte| byte == b'\n');
        lines.map(<[u8]>::to_vec).collect()
    };
    let (output, expected) = (split(output), split(expected));
    let most = output.len().max(expected.len());
    let line = |lines: &[Vec<u8>], at: usize| match lines.get(at) {
        Some(line) => shown(line),
        None => "nothing".to_string(),
    };
    match (0..most).find(|&at| output.get(at) != expected.get(at)) {
        Some(at) => format!(
            "first in line {}: program {}, reference {}",
            at + 1,
            line(&output, at),
            line(&expected, at)
        ),
        None => "the outputs are equal".to_string(),
    }
}

pub fn agreement(tally: &Tally, seed: u64) -> String {
    let refused = |&refusal: &Refusal| format!("{}:{}", refusal.number(), tally.refused(refusal));
    let refusals: Vec<String> = Refusal::EXPECTED.iter().map(refused).collect();
    format!(
        "{} scripts of seed {seed} agree: {} lines, {} bytes\n\
         ok {}, no {}",
        tally.scripts,
        tally.lines(),
        tally.bytes,
        tally.granted(),
        refusals.join(" ")
    )
}

pub fn missing(refusals: &[Refusal]) -> String {
    let numbers = refusals.iter().map(|refusal| refusal.number().to_string());
    let numbers: Vec<String> = numbers.collect();
    format!(
        "never answered, so not compared: no {}",
        numbers.join(", no ")
    )
}
