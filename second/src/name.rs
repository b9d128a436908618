//! An order's name and its nine bytes.

use std::fmt;

/// The home, the home's start and the number within that start.
#[derive(Clone, Copy, Debug, PartialEq, Eq, PartialOrd, Ord)]
pub struct Name {
    pub home: u32,
    pub start: u32,
    pub number: u32,
}

impl Name {
    /// How many bytes a name takes.
    pub const LENGTH: usize = 9;

    pub fn new(home: u32, start: u32, number: u32) -> Name {
        Name {
            home,
            start,
            number,
        }
    }

    /// The name in the first nine of these bytes.
    #[inline]
    pub fn decode(bytes: &[u8]) -> Name {
        let bytes = &bytes[..Self::LENGTH];
        Name {
            home: u32::from(bytes[0]),
            start: be32(bytes, 1),
            number: be32(bytes, 5),
        }
    }

    /// Adds the name's bytes; its home must fit one byte.
    pub fn encode(self, bytes: &mut Vec<u8>) {
        bytes.push(u8::try_from(self.home).expect("a home fits one byte"));
        bytes.extend(self.start.to_be_bytes());
        bytes.extend(self.number.to_be_bytes());
    }
}

impl fmt::Display for Name {
    fn fmt(&self, out: &mut fmt::Formatter) -> fmt::Result {
        write!(out, "{} {} {}", self.home, self.start, self.number)
    }
}

/// The number in the four bytes from `at` on, high byte first.
#[inline]
pub fn be32(bytes: &[u8], at: usize) -> u32 {
    let four = bytes[at..at + 4].try_into();
    u32::from_be_bytes(four.expect("four bytes"))
}
