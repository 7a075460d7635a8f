//! The script language as text: bytes to lines, and a line to a request.

/// Longest line, without its newline.
pub const LONGEST_LINE: usize = 80;
const MOST_DIGITS: usize = 10;

#[derive(Clone, Copy, Debug, PartialEq, Eq)]
pub enum Request {
    /// `limit O G B`
    SetQuota {
        owner: u32,
        granules: u32,
        blocks: u32,
    },
    /// `make BYTES ROWS`
    Make { bytes: u32, rows: u32 },
    /// `ask O N A`
    Alloc {
        owner: u32,
        size: u32,
        alignment: u32,
    },
    /// `back O OFFSET`
    Free { owner: u32, offset: u32 },
}

/// The lines of a script without their newlines. What follows the last newline
/// is a line only if it has a byte, so an empty script has no line.
pub fn lines(script: &[u8]) -> impl Iterator<Item = &[u8]> {
    script
        .split_inclusive(|&byte| byte == b'\n')
        .map(|line| line.strip_suffix(b"\n").unwrap_or(line))
}

/// The request on a line, or none if the line cannot be read.
pub fn read(line: &[u8]) -> Option<Request> {
    if line.len() > LONGEST_LINE {
        return None;
    }
    // Two spaces in a row, or one at either end, give an empty field, which is
    // neither a word nor a number.
    let fields: Vec<&[u8]> = line.split(|&byte| byte == b' ').collect();
    let (&word, rest) = fields.split_first()?;
    let numbers: Vec<u32> = rest.iter().map(|f| number(f)).collect::<Option<_>>()?;
    request(word, &numbers)
}

fn request(word: &[u8], numbers: &[u32]) -> Option<Request> {
    match (word, numbers) {
        (b"limit", &[owner, granules, blocks]) => Some(Request::SetQuota {
            owner,
            granules,
            blocks,
        }),
        (b"make", &[bytes, rows]) => Some(Request::Make { bytes, rows }),
        (b"ask", &[owner, size, alignment]) => Some(Request::Alloc {
            owner,
            size,
            alignment,
        }),
        (b"back", &[owner, offset]) => Some(Request::Free { owner, offset }),
        _ => None,
    }
}

/// 1 to 10 decimal digits and nothing else, at most 4,294,967,295.
fn number(field: &[u8]) -> Option<u32> {
    let right_length = (1..=MOST_DIGITS).contains(&field.len());
    if !right_length || !field.iter().all(u8::is_ascii_digit) {
        return None;
    }
    let value = field
        .iter()
        .fold(0u64, |value, digit| 10 * value + u64::from(digit - b'0'));
    u32::try_from(value).ok()
}
