//! The records of a file, one after the other as its bytes have them.

use crate::name::Name;
use crate::order::Order;

pub const BEGAN: u8 = 1;
pub const HELD: u8 = 2;
pub const DONE: u8 = 3;
pub const DROPPED: u8 = 4;
pub const RULED: u8 = 5;

/// One record of a file.
#[derive(Clone, Copy, Debug, PartialEq, Eq)]
pub enum Record<'a> {
    Began,
    Held(Order<'a>),
    Done(Name),
    Dropped(Name),
    Ruled(Order<'a>),
}

impl<'a> Record<'a> {
    /// The record at the front of these bytes and its length, or nothing if it is not all there.
    #[inline]
    fn at_front(bytes: &'a [u8]) -> Option<(Record<'a>, usize)> {
        let (&kind, rest) = bytes.split_first()?;
        match kind {
            BEGAN => Some((Record::Began, 1)),
            DONE | DROPPED => {
                let name = Name::decode(rest.get(..Name::LENGTH)?);
                let record = match kind {
                    DONE => Record::Done(name),
                    _ => Record::Dropped(name),
                };
                Some((record, 1 + Name::LENGTH))
            }
            HELD | RULED => {
                let order = Order::at_front(rest)?;
                let record = match kind {
                    HELD => Record::Held(order),
                    _ => Record::Ruled(order),
                };
                Some((record, 1 + order.bytes().len()))
            }
            _ => panic!("a house never writes a record of kind {kind}"),
        }
    }
}

/// The whole records of a file, in order.
pub struct Records<'a> {
    bytes: &'a [u8],
    at: usize,
}

impl Records<'_> {
    /// Where the record that was read last ends.
    pub fn end(&self) -> usize {
        self.at
    }
}

impl<'a> Iterator for Records<'a> {
    type Item = Record<'a>;

    #[inline]
    fn next(&mut self) -> Option<Record<'a>> {
        let (record, length) = Record::at_front(&self.bytes[self.at..])?;
        self.at += length;
        Some(record)
    }
}

/// The whole records of these bytes; a record that is not all there ends them.
pub fn records(bytes: &[u8]) -> Records<'_> {
    Records { bytes, at: 0 }
}

/// The bytes of a done record, or of a dropped one.
pub fn encode_learnt(yes: bool, name: Name) -> Vec<u8> {
    let mut bytes = vec![if yes { DONE } else { DROPPED }];
    name.encode(&mut bytes);
    bytes
}

/// The bytes of a held record, or of a ruled one.
pub fn encode_order(kind: u8, order: Order) -> Vec<u8> {
    let mut bytes = vec![kind];
    bytes.extend(order.bytes());
    bytes
}
