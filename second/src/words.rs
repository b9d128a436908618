//! The words of a line: separated by spaces and by nothing else.

use crate::refusal::Refusal;

/// Whether a line gets no answer: it has no word, or its first character is `#`.
pub fn is_passed_over(line: &[u8]) -> bool {
    line.first() == Some(&b'#') || line.iter().all(|&byte| byte == b' ')
}

/// The words of a line that have not been taken yet.
pub struct Words<'a> {
    rest: &'a [u8],
}

impl<'a> Words<'a> {
    pub fn of(line: &'a [u8]) -> Words<'a> {
        Words { rest: line }
    }

    /// Takes a word that must be a number.
    pub fn number(&mut self) -> Result<u32, Refusal> {
        self.next().and_then(number).ok_or(Refusal::Form)
    }

    /// There must be no word left.
    pub fn end(mut self) -> Result<(), Refusal> {
        match self.next() {
            None => Ok(()),
            Some(_) => Err(Refusal::Form),
        }
    }
}

impl<'a> Iterator for Words<'a> {
    type Item = &'a [u8];

    fn next(&mut self) -> Option<&'a [u8]> {
        let first = self.rest.iter().position(|&byte| byte != b' ')?;
        let from_word = &self.rest[first..];
        let length = from_word.iter().position(|&byte| byte == b' ');
        let (word, rest) = from_word.split_at(length.unwrap_or(from_word.len()));
        self.rest = rest;
        Some(word)
    }
}

/// The value of a word of decimal digits alone, if it fits 32 bits.
fn number(word: &[u8]) -> Option<u32> {
    word.iter().try_fold(0_u32, |value, &byte| {
        let digit = byte.is_ascii_digit().then(|| u32::from(byte - b'0'))?;
        value.checked_mul(10)?.checked_add(digit)
    })
}
