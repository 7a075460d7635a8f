//! Lines and fields, read with one fault.

use std::mem::take;

use super::Fault;

pub fn lines(fault: Fault, script: &[u8]) -> Vec<Vec<u8>> {
    let mut lines = Vec::new();
    let mut line = Vec::new();
    for (at, &byte) in script.iter().enumerate() {
        if fault == Fault::ForgetsAtBlockEnd && at % 4096 == 0 {
            line.clear();
        }
        if fault == Fault::SplitsLongLines && line.len() == 80 && byte != b'\n' {
            lines.push(take(&mut line));
        }
        match byte {
            b'\n' => lines.push(take(&mut line)),
            _ => line.push(byte),
        }
    }
    match fault {
        Fault::LosesLastLine => {}
        Fault::LineAfterLastNewline => lines.push(line),
        _ if line.is_empty() => {}
        _ => lines.push(line),
    }
    if fault == Fault::SkipsEmptyLines {
        lines.retain(|line| !line.is_empty());
    }
    lines
}

/// The word and the numbers of a line.
pub fn read(fault: Fault, line: &[u8]) -> Option<(String, Vec<u32>)> {
    let length = match fault {
        Fault::LengthInAByte => line.len() % 256,
        _ => line.len(),
    };
    if length > 80 {
        return None;
    }
    let text = line[..length].iter().map(|&byte| char::from(byte));
    let text = tolerated(fault, text.collect());
    let mut fields: Vec<&str> = text.split(' ').collect();
    if fault == Fault::SpacesInARow {
        fields.retain(|field| !field.is_empty());
    }
    if fault == Fault::FieldsToSpare {
        fields.truncate(if fields[0] == "ask" || fields[0] == "limit" {
            4
        } else {
            3
        });
    }
    let (word, numbers) = fields.split_first()?;
    let numbers = numbers.iter().map(|field| number(fault, field));
    Some((word.to_string(), numbers.collect::<Option<_>>()?))
}

/// The line as a too generous reader would take it.
fn tolerated(fault: Fault, text: String) -> String {
    match fault {
        Fault::StopsAtNul => text.chars().take_while(|&c| c != '\0').collect(),
        Fault::DropsCarriageReturn => text.trim_end_matches('\r').to_string(),
        Fault::TabsAreSpaces => text.replace('\t', " "),
        Fault::AnyCase => text.to_ascii_lowercase(),
        _ => text,
    }
}

fn number(fault: Fault, field: &str) -> Option<u32> {
    let field = match fault {
        Fault::PlusSign => field.strip_prefix('+').unwrap_or(field),
        _ => field,
    };
    let too_long = field.len() > 10 && fault != Fault::ElevenDigits;
    let padded = field.len() > 1 && field.starts_with('0');
    if too_long || field.starts_with('+') || padded && fault == Fault::LeadingZeroRefused {
        return None;
    }
    let value: u64 = field.parse().ok()?;
    match fault {
        Fault::NumbersWrap => Some(value as u32),
        _ => value.try_into().ok(),
    }
}
