//! Names, paths, numbers, modes and contents as texts, and writing into the answer buffer.

use super::rows::{CONTENT_LIMIT, MOST_NAMES};

fn is_name_byte(b: u8) -> bool {
    matches!(b, b'a'..=b'z' | b'0'..=b'9' | b'_')
}

pub fn is_content_byte(b: u8) -> bool {
    matches!(b, 32..=126) && b != b','
}

/// A name or password of 1 to 8 bytes, as the number that stands in a row.
pub fn name(text: &[u8]) -> Option<u64> {
    if text.is_empty() || text.len() > 8 || !text.iter().all(|&b| is_name_byte(b)) {
        return None;
    }
    let value = text.iter().fold(0, |value, &b| value << 8 | u64::from(b));
    Some(value << (8 * (8 - text.len())))
}

/// Whether a number's bytes are a name and then zeros.
pub fn is_name(number: u64) -> bool {
    let zeros = number.trailing_zeros() as usize / 8;
    let bytes = number.to_be_bytes();
    number != 0 && bytes[..8 - zeros].iter().all(|&b| is_name_byte(b))
}

/// A path as it is typed: its text and its names; `/` has none. A short one follows the working directory.
pub struct Path<'a> {
    pub text: &'a [u8],
    names: [u64; MOST_NAMES],
    length: usize,
    is_short: bool,
}

const REP: u64 = u64::from_be_bytes(*b"rep\0\0\0\0\0");

impl<'a> Path<'a> {
    /// `/`, or names each after a `/`.
    pub fn parse(text: &'a [u8]) -> Option<Self> {
        match text {
            b"/" => Some(Path { text, names: [0; MOST_NAMES], length: 0, is_short: false }),
            [b'/', names @ ..] => Self::parse_names(text, names, false),
            _ => None,
        }
    }

    /// A path, or the names of a short one.
    pub fn parse_typed(text: &'a [u8]) -> Option<Self> {
        if text.starts_with(b"/") {
            Self::parse(text)
        } else {
            Self::parse_names(text, text, true)
        }
    }

    fn parse_names(text: &'a [u8], names: &[u8], is_short: bool) -> Option<Self> {
        let mut path = Path { text, names: [0; MOST_NAMES], length: 0, is_short };
        for part in names.split(|&b| b == b'/') {
            *path.names.get_mut(path.length)? = name(part)?;
            path.length += 1;
        }
        Some(path)
    }

    /// Puts a working directory in front of a short path, if that is not too deep.
    pub fn join(&mut self, directory: &Path) -> Option<()> {
        if self.is_short {
            let length = directory.length + self.length;
            if length > MOST_NAMES {
                return None;
            }
            self.names.copy_within(..self.length, directory.length);
            self.names[..directory.length].copy_from_slice(directory.names());
            self.length = length;
            self.is_short = false;
        }
        Some(())
    }

    pub fn is_short(&self) -> bool {
        self.is_short
    }

    /// Writes the text of a whole path.
    pub fn write(&self, into: &mut [u8]) {
        let mut writer = Writer::new(into);
        if self.length == 0 {
            writer.put(b"/");
        }
        for name in self.names() {
            writer.put(b"/");
            writer.put_name(*name);
        }
    }

    /// A path of at least two names, the first `rep`.
    pub fn parse_entry(text: &'a [u8]) -> Option<Self> {
        if !text.starts_with(b"/rep/") {
            return None;
        }
        Self::parse(text)
    }

    pub fn names(&self) -> &[u64] {
        &self.names[..self.length]
    }

    pub fn is_reserved(&self) -> bool {
        matches!(self.names(), [] | [REP])
    }
}

/// A decimal number without leading zeros, at most `most` (below 100).
pub fn number(text: &[u8], most: u8) -> Option<u8> {
    let value = match *text {
        [a @ b'0'..=b'9'] => a - b'0',
        [a @ b'1'..=b'9', b @ b'0'..=b'9'] => (a - b'0') * 10 + (b - b'0'),
        _ => return None,
    };
    (value <= most).then_some(value)
}

/// Four octal digits, the first 0 or 2.
pub fn mode(text: &[u8]) -> Option<u16> {
    match *text {
        [a @ (b'0' | b'2'), b @ b'0'..=b'7', c @ b'0'..=b'7', d @ b'0'..=b'7'] => {
            Some([a, b, c, d].iter().fold(0, |m, &x| m * 8 + u16::from(x - b'0')))
        }
        _ => None,
    }
}

pub fn content(text: &[u8]) -> Option<&[u8]> {
    (text.len() <= CONTENT_LIMIT && text.iter().all(|&b| is_content_byte(b))).then_some(text)
}

/// Writes from a buffer's first byte on.
pub struct Writer<'a> {
    into: &'a mut [u8],
    pub length: usize,
}

impl<'a> Writer<'a> {
    pub fn new(into: &'a mut [u8]) -> Self {
        Writer { into, length: 0 }
    }

    pub fn put(&mut self, text: &[u8]) {
        self.into[self.length..self.length + text.len()].copy_from_slice(text);
        self.length += text.len();
    }

    pub fn put_name(&mut self, name: u64) {
        let zeros = name.trailing_zeros() as usize / 8;
        self.put(&name.to_be_bytes()[..8 - zeros]);
    }

    pub fn put_number(&mut self, value: u16) {
        if value >= 10 {
            self.put_number(value / 10);
        }
        self.put(&[b'0' + (value % 10) as u8]);
    }

    pub fn put_mode(&mut self, mode: u16) {
        self.put(&[9, 6, 3, 0].map(|shift| b'0' + (mode >> shift & 7) as u8));
    }
}
