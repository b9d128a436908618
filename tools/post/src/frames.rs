//! Frames and messages, read from the format alone.

use std::fmt;

/// An order's name.
#[derive(Clone, Copy, Debug, PartialEq, Eq, PartialOrd, Ord)]
pub struct Name {
    pub home: u8,
    pub start: u32,
    pub number: u32,
}

impl fmt::Display for Name {
    fn fmt(&self, f: &mut fmt::Formatter) -> fmt::Result {
        write!(f, "{} {} {}", self.home, self.start, self.number)
    }
}

impl Name {
    /// The bytes of a name.
    pub const LEN: usize = 9;

    /// The name at the front of the bytes, if all of it is there.
    pub fn read(bytes: &[u8]) -> Option<Name> {
        Some(Name {
            home: *bytes.first()?,
            start: u32::from_be_bytes(bytes.get(1..5)?.try_into().ok()?),
            number: u32::from_be_bytes(bytes.get(5..9)?.try_into().ok()?),
        })
    }
}

/// What a message says, but for the entries of an order.
#[derive(Clone, Copy, Debug, PartialEq, Eq)]
pub enum Message {
    Hold(Name),
    Yes(u8, Name),
    Told(bool, Name),
}

impl Message {
    pub fn read(bytes: &[u8]) -> Option<Message> {
        match bytes {
            [6, rest @ ..] => Some(Message::Hold(Name::read(rest)?)),
            [7, house, rest @ ..] => Some(Message::Yes(*house, Name::read(rest)?)),
            [8, yes @ (0 | 1), rest @ ..] => Some(Message::Told(*yes == 1, Name::read(rest)?)),
            _ => None,
        }
    }
}

/// A message, and the house that it is for.
pub struct Frame<'a> {
    pub to: u8,
    pub message: &'a [u8],
    /// all of it, as it stands in a file
    pub bytes: &'a [u8],
}

const HEADER: usize = 3;

/// The frame at the front of the bytes, if all of it is there.
fn first_frame(bytes: &[u8]) -> Option<Frame<'_>> {
    let high = *bytes.get(1)?;
    let low = *bytes.get(2)?;
    let end = HEADER + usize::from(u16::from_be_bytes([high, low]));
    Some(Frame {
        to: bytes[0],
        message: bytes.get(HEADER..end)?,
        bytes: &bytes[..end],
    })
}

/// The whole frames of the bytes, one after the other. What is cut at the end is none.
pub fn frames(bytes: &[u8]) -> impl Iterator<Item = Frame<'_>> {
    let mut rest = bytes;
    std::iter::from_fn(move || {
        let frame = first_frame(rest)?;
        rest = &rest[frame.bytes.len()..];
        Some(frame)
    })
}

#[cfg(test)]
mod tests {
    use super::*;

    #[test]
    fn cut_frames_wait() {
        let bytes = [1, 0, 2, 7, 7, 0, 0, 0, 2, 0, 1];
        let found: Vec<_> = frames(&bytes).map(|f| (f.to, f.bytes.len())).collect();
        assert_eq!(found, [(1, 5), (0, 3)]);
    }

    #[test]
    fn messages() {
        let name = Name {
            home: 1,
            start: 2,
            number: 515,
        };
        let bytes = [8, 1, 1, 0, 0, 0, 2, 0, 0, 2, 3];
        assert_eq!(Message::read(&bytes), Some(Message::Told(true, name)));
        assert_eq!(Message::read(&bytes[..10]), None);
    }
}
