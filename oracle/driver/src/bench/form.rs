//! The bracket forms of document 01: how a line is read, and how a form is written.

use std::fmt;

/// A line has so many bytes at most, without its newline.
pub const MOST_BYTES: usize = 128;

#[derive(Clone, Copy, PartialEq, Eq)]
pub enum Form {
    Free(u64, u64),
    Reserved(u64, u64),
    Boot,
    Sort,
    Count(u64),
    At(u64, u64),
    Give(u64, u64),
    List,
}

impl Form {
    /// A name and its numbers in brackets, parted by one space; of any length.
    pub fn read(line: &[u8]) -> Option<Form> {
        let inside = line.strip_prefix(b"(")?.strip_suffix(b")")?;
        let mut words = inside.split(|&byte| byte == b' ');
        let name = words.next()?;
        let numbers = words.map(number).collect::<Option<Vec<u64>>>()?;
        match (name, &numbers[..]) {
            (b"free", &[start, end]) => Some(Form::Free(start, end)),
            (b"reserved", &[start, end]) => Some(Form::Reserved(start, end)),
            (b"boot", []) => Some(Form::Boot),
            (b"sort", []) => Some(Form::Sort),
            (b"count", &[count]) => Some(Form::Count(count)),
            (b"at", &[start, count]) => Some(Form::At(start, count)),
            (b"give", &[start, end]) => Some(Form::Give(start, end)),
            (b"list", []) => Some(Form::List),
            _ => None,
        }
    }
}

/// Decimal digits below 2^64, one or more; zeros may lead.
fn number(word: &[u8]) -> Option<u64> {
    let digit = |byte: &u8| byte.is_ascii_digit().then(|| u64::from(byte - b'0'));
    let first = digit(word.first()?)?;
    word[1..].iter().try_fold(first, |value, byte| value.checked_mul(10)?.checked_add(digit(byte)?))
}

impl fmt::Display for Form {
    fn fmt(&self, f: &mut fmt::Formatter) -> fmt::Result {
        match self {
            Form::Free(start, end) => write!(f, "(free {start} {end})"),
            Form::Reserved(start, end) => write!(f, "(reserved {start} {end})"),
            Form::Boot => write!(f, "(boot)"),
            Form::Sort => write!(f, "(sort)"),
            Form::Count(count) => write!(f, "(count {count})"),
            Form::At(start, count) => write!(f, "(at {start} {count})"),
            Form::Give(start, end) => write!(f, "(give {start} {end})"),
            Form::List => write!(f, "(list)"),
        }
    }
}
