//! Fields of a line, as document 01 writes numbers: single spaces, decimal, no leading zeros, below 2^64.

/// A decimal number below 2^64, or none.
pub fn number(text: &[u8]) -> Option<u64> {
    let leading_zero = text.len() > 1 && text[0] == b'0';
    if text.is_empty() || leading_zero {
        return None;
    }
    let mut value = 0u64;
    for &byte in text {
        if !byte.is_ascii_digit() {
            return None;
        }
        value = value.checked_mul(10)?.checked_add(u64::from(byte - b'0'))?;
    }
    Some(value)
}

/// A grid: from -2^31 to 2^31-1, its minus sign only before a nonzero number.
pub fn grid(text: &[u8]) -> Option<i32> {
    let value = match text.strip_prefix(b"-") {
        None => i128::from(number(text)?),
        Some(digits) => match number(digits)? {
            0 => return None,
            size => -i128::from(size),
        },
    };
    i32::try_from(value).ok()
}

/// A number, or `-` for none.
pub fn optional(text: &[u8]) -> Option<Option<u64>> {
    if text == b"-" {
        Some(None)
    } else {
        number(text).map(Some)
    }
}

/// 0 or 1.
pub fn flag(text: &[u8]) -> Option<bool> {
    match text {
        b"0" => Some(false),
        b"1" => Some(true),
        _ => None,
    }
}

/// The fields of one line, taken from the front. A doubled, leading or trailing space makes an empty
/// field, which no reader above accepts.
pub struct Fields<'a> {
    rest: Option<&'a [u8]>,
}

impl<'a> Fields<'a> {
    pub fn of(line: &'a [u8]) -> Self {
        Fields { rest: Some(line) }
    }

    pub fn next(&mut self) -> Option<&'a [u8]> {
        let rest = self.rest?;
        match rest.iter().position(|&b| b == b' ') {
            None => {
                self.rest = None;
                Some(rest)
            }
            Some(at) => {
                self.rest = Some(&rest[at + 1..]);
                Some(&rest[..at])
            }
        }
    }

    pub fn number(&mut self) -> Option<u64> {
        number(self.next()?)
    }

    /// A number of at most `most`.
    pub fn up_to(&mut self, most: u64) -> Option<u64> {
        self.number().filter(|&n| n <= most)
    }

    /// Nothing is left.
    pub fn end(&self) -> Option<()> {
        if self.rest.is_none() {
            Some(())
        } else {
            None
        }
    }
}

/// The lines of an input: each ends at a newline, the last newline is optional.
pub fn lines(input: &[u8]) -> impl Iterator<Item = &[u8]> {
    let whole = input.strip_suffix(b"\n").unwrap_or(input);
    let count = if input.is_empty() { 0 } else { usize::MAX };
    whole.split(|&b| b == b'\n').take(count)
}
