//! Lines, words and numbers, all as slices of the text.

/// A decimal magnitude without leading zero, at most ten digits.
#[inline]
fn magnitude(digits: &[u8]) -> Option<i64> {
    match digits {
        [b'0'] => return Some(0),
        [] | [b'0', ..] => return None,
        _ if digits.len() > 10 => return None,
        _ => {}
    }
    let mut n = 0i64;
    for &byte in digits {
        let digit = byte.wrapping_sub(b'0');
        if digit > 9 {
            return None;
        }
        n = n * 10 + i64::from(digit);
    }
    Some(n)
}

/// A signed 32-bit number.
#[inline]
pub(crate) fn int(word: &[u8]) -> Option<i32> {
    match word {
        [b'-', digits @ ..] => match magnitude(digits)? {
            0 => None,
            n => i32::try_from(-n).ok(),
        },
        _ => i32::try_from(magnitude(word)?).ok(),
    }
}

/// A number without minus, at most 2147483647.
#[inline]
pub(crate) fn nat(word: &[u8]) -> Option<u32> {
    i32::try_from(magnitude(word)?).ok().map(|n| n as u32)
}

/// The first place of a byte, eight bytes at a time: subtracting one from
/// each byte of the difference borrows first where the byte is found.
#[inline]
pub(crate) fn find(text: &[u8], byte: u8) -> Option<usize> {
    const ONES: u64 = 0x0101_0101_0101_0101;
    let mask = ONES * u64::from(byte);
    let (eights, tail) = text.as_chunks::<8>();
    for (at, eight) in eights.iter().enumerate() {
        let differ = u64::from_le_bytes(*eight) ^ mask;
        let zeros = differ.wrapping_sub(ONES) & !differ & (ONES << 7);
        if zeros != 0 {
            return Some(at * 8 + zeros.trailing_zeros() as usize / 8);
        }
    }
    let start = eights.len() * 8;
    tail.iter().position(|&b| b == byte).map(|at| start + at)
}

/// The lines of a text; nothing stands for a last line without its line feed.
pub(crate) struct Lines<'a> {
    rest: &'a [u8],
}

impl<'a> Lines<'a> {
    pub(crate) fn new(text: &'a [u8]) -> Self {
        Lines { rest: text }
    }
}

impl<'a> Iterator for Lines<'a> {
    type Item = Option<&'a [u8]>;

    fn next(&mut self) -> Option<Self::Item> {
        if self.rest.is_empty() {
            return None;
        }
        let feed = find(self.rest, b'\n');
        let line = feed.map(|at| &self.rest[..at]);
        self.rest = feed.map_or(&[], |at| &self.rest[at + 1..]);
        Some(line)
    }
}

/// The words of a line, with exactly one space between two.
pub(crate) struct Words<'a> {
    rest: Option<&'a [u8]>,
}

impl<'a> Words<'a> {
    pub(crate) fn new(line: &'a [u8]) -> Self {
        Words { rest: Some(line) }
    }

    /// Nothing if words are left.
    #[inline]
    pub(crate) fn end(&self) -> Option<()> {
        self.rest.is_none().then_some(())
    }
}

impl<'a> Iterator for Words<'a> {
    type Item = &'a [u8];

    #[inline]
    fn next(&mut self) -> Option<&'a [u8]> {
        let rest = self.rest?;
        match find(rest, b' ') {
            Some(at) => {
                self.rest = Some(&rest[at + 1..]);
                Some(&rest[..at])
            }
            None => {
                self.rest = None;
                Some(rest)
            }
        }
    }
}
